//! The cases of Pack and Unpack of the short edition (document 02, U7 and U9). Claim and
//! taps are one list of elements here, the claim first.

use crate::cases::{
    claim_word, damage, first_of, join, lent_claim, lent_destination, other_length, tap_word,
    PackCase, UnpackCase,
};
use crate::files::{
    any_widths, bytes, claim_of, damage_word_0, element_words, is_larger, not_an_element,
    refused_start, short_element, short_words_of, widths, words_of, Damaged, Edition, LentFile,
    SmallFile, IN_FULL, KIND, LARGER, MARK,
};
use crate::random::Random;
use crate::taps::{lent_words, some_k, LENGTHS, PERMITTED};
use second::field::P;
use second::Refusal;

/// Elements that need one word, and that need three.
pub const SMALL: [u64; 4] = [0, 1, (1 << 29) + 1, (1 << 30) - 1];
pub const LARGE: [u64; 7] = [
    1 << 30,
    (1 << 30) + 1,
    (1 << 32) + 1,
    (1 << 60) - 1,
    1 << 60,
    (1 << 60) + 5,
    P - 1,
];
/// Words that are not canonical; some are small in the field, or in 30 or 32 bits.
const NOT_CANONICAL: [u64; 6] = [P, P + 5, 2 * P, 1 << 62, (1 << 63) + 5, u64::MAX];
/// No elements; some are small in 64 bits, or in the field.
const NO_ELEMENTS: [u128; 11] = [
    P as u128,
    P as u128 + 5,
    3 << 60,
    1 << 62,
    (1 << 64) - 1,
    1 << 64,
    (1 << 64) + 1,
    (1 << 64) + (1 << 30),
    17 << 60,
    1 << 89,
    (1 << 90) - 1,
];

/// The k of whole files here; those of more batches are made where word 0 decides.
fn whole() -> impl Iterator<Item = usize> {
    IN_FULL.into_iter().chain([2048])
}

/// The list with one element replaced.
pub fn with(elements: &[u64], place: usize, element: u64) -> Vec<u64> {
    let mut altered = elements.to_vec();
    altered[place] = element;
    altered
}

/// Bytes of the short file: 4 or 12 an element, and word 0.
fn short_length(elements: &[u64]) -> usize {
    4 * short_words_of(0, elements).len()
}

/// A call of the writer with these elements, into `destination` bytes.
fn pack_case(
    name: String,
    elements: &[u64],
    destination: usize,
    refusal: Option<Refusal>,
) -> PackCase {
    let k = elements.len() / 12;
    PackCase {
        name: format!("{name}, into {destination}"),
        taps: elements[4..].to_vec(),
        claim: claim_of(elements),
        destination,
        refusal,
        file: match refusal {
            None => bytes(&short_words_of(k, elements)),
            Some(_) => vec![],
        },
    }
}

fn pack_corners(seed: u64) -> Vec<PackCase> {
    let mut random = Random::new(seed);
    let mut cases = vec![];
    for k in whole() {
        for (name, elements) in widths(&mut random, k) {
            let length = short_length(&elements);
            let name = format!("k = {k}, {name}");
            cases.push(pack_case(name, &elements, length, None));
        }
    }
    for length in LENGTHS {
        let name = format!("{length} tap words");
        let refusal = Some(Refusal::TapLength);
        cases.push(pack_case(name, &vec![P; length + 4], 83, refusal));
    }
    cases.extend(larger_lists(&mut random));
    for (name, elements) in widths(&mut random, 1) {
        cases.extend(packed_into(name, &elements));
        cases.extend(packed_elements(name, &elements));
        cases.extend(packed_words(name, &elements));
    }
    // Every choice of what is damaged, each several times.
    for choice in 0..1 << 6 {
        let damaged = std::array::from_fn(|thing| choice >> thing & 1 == 1);
        cases.push(lent_pack_case(&mut random, damaged));
    }
    cases
}

/// Lists of 24580 words, which no full file has: 8 beside the exact length and into the
/// full edition's, 9, and 6 at either end.
fn larger_lists(random: &mut Random) -> Vec<PackCase> {
    let k = 2048;
    let honest = any_widths(random, k);
    let exact = short_length(&honest);
    let mut cases = vec![];
    for length in [0, exact - 4, exact + 4, 144 * k + 100] {
        let refusal = Some(Refusal::DestinationLength);
        cases.push(pack_case(format!("k = {k}"), &honest, length, refusal));
    }
    for place in [0, 3, 4, 12 * k + 7] {
        let mut elements = honest.clone();
        elements[place] = P;
        elements[12 * k + 7] = P;
        let refusal = match place {
            0..4 => claim_word(place),
            _ => tap_word(place - 4),
        };
        let name = format!("k = {k}, p at {place}");
        let length = short_length(&elements);
        cases.push(pack_case(name, &elements, length, Some(refusal)));
    }
    cases
}

/// Every length up to that of the full file and beyond, but for the exact one.
fn packed_into(name: &str, elements: &[u64]) -> Vec<PackCase> {
    let exact = short_length(elements);
    let others = (0..=260).filter(|&length| length != exact);
    let refusal = Some(Refusal::DestinationLength);
    others
        .map(|length| pack_case(name.into(), elements, length, refusal))
        .collect()
}

/// Each element in turn at the ends of both widths, into the length that it needs and
/// into those of one who takes it for another width.
fn packed_elements(name: &str, elements: &[u64]) -> Vec<PackCase> {
    let mut cases = vec![];
    for place in 0..elements.len() {
        for &element in SMALL.iter().chain(&LARGE) {
            let elements = with(elements, place, element);
            let exact = short_length(&elements);
            let name = format!("{name}, element {place} is {element}");
            cases.push(pack_case(name.clone(), &elements, exact, None));
            for length in [exact - 8, exact - 4, exact + 4, exact + 8] {
                let refusal = Some(Refusal::DestinationLength);
                cases.push(pack_case(name.clone(), &elements, length, refusal));
            }
        }
    }
    cases
}

/// Each element in turn not canonical, alone or with all after it.
fn packed_words(name: &str, elements: &[u64]) -> Vec<PackCase> {
    let mut cases = vec![];
    for place in 0..elements.len() {
        let refusal = match place {
            0..4 => claim_word(place),
            _ => tap_word(place - 4),
        };
        for word in NOT_CANONICAL {
            let name = format!("{name}, {word} at {place}");
            let mut elements = elements.to_vec();
            elements[place] = word;
            cases.extend(counted(&name, &elements, 1, refusal));
            elements[place..].fill(word);
            let count = elements.len() - place;
            cases.extend(counted(
                &format!("{name} and on"),
                &elements,
                count,
                refusal,
            ));
        }
    }
    cases
}

/// Where so many elements are not canonical: the length that counts them as three words,
/// and those that count them as two, one and none.
fn counted(name: &str, elements: &[u64], count: usize, refusal: Refusal) -> [PackCase; 4] {
    let exact = short_length(elements);
    [0, 4, 8, 12].map(|fewer| {
        let refusal = match fewer {
            0 => refusal,
            _ => Refusal::DestinationLength,
        };
        let length = exact - fewer * count;
        pack_case(name.into(), elements, length, Some(refusal))
    })
}

/// A length of the writer's destination other than the exact one.
fn other_short_length(random: &mut Random, exact: usize) -> usize {
    match random.one_in(2) {
        true => other_length(random, exact),
        false => random.pick(&[exact - 8, exact - 4, exact + 4, exact + 8]),
    }
}

/// A call of the writer with these things damaged, in the order of the refusals.
fn lent_pack_case(random: &mut Random, [length, destination, claim, word]: [bool; 4]) -> PackCase {
    let k = some_k(random);
    let honest = any_widths(random, k);
    let list = lent_words(random, k, honest[4..].to_vec(), length, word);
    let (claim, claim_refusal) = lent_claim(random, claim_of(&honest), claim);
    let spoilt = claim_refusal.map_or("", |_| "claim not canonical");
    let elements = [&claim, &list.words[..]].concat();
    let exact = short_length(&elements);
    let (lent, no_room) = match destination {
        true => {
            let other = other_short_length(random, exact);
            (other, Some(Refusal::DestinationLength))
        }
        false => (exact, None),
    };
    let order = [list.length, no_room, claim_refusal, list.word];
    pack_case(
        join(&[&list.name, spoilt]),
        &elements,
        lent,
        first_of(&order),
    )
}

/// Pack of the short edition: 5, 8, 9, 6. The corner cases and `n` others.
pub fn pack_short_cases(seed: u64, n: usize) -> Vec<PackCase> {
    let mut random = Random::new(seed);
    let make = |number| {
        let damaged = damage(&mut random, number);
        lent_pack_case(&mut random, damaged)
    };
    let mut cases = pack_corners(seed);
    cases.extend((0..n).map(make));
    cases
}

/// A short file of k batches lent to the reader.
fn unpack_case(k: usize, name: String, elements: &[u64], words: &[u32]) -> UnpackCase {
    UnpackCase {
        name,
        file: bytes(words),
        destination: 12 * k + 4,
        refusal: None,
        claim: claim_of(elements),
        taps: elements[4..].to_vec(),
    }
}

/// The words of each element.
fn written(elements: &[u64]) -> Vec<Vec<u32>> {
    elements.iter().map(|&e| short_element(e)).collect()
}

/// The first word of each element, and where the next one would begin.
fn first_words(written: &[Vec<u32>]) -> Vec<usize> {
    let mut firsts = vec![1];
    for words in written {
        firsts.push(firsts[firsts.len() - 1] + words.len());
    }
    firsts
}

/// A short file of k = 1, its elements, and their first words.
struct Short {
    name: &'static str,
    elements: Vec<u64>,
    firsts: Vec<usize>,
    file: SmallFile,
}

impl Short {
    fn new((name, elements): (&'static str, Vec<u64>)) -> Short {
        let file = SmallFile {
            words: short_words_of(1, &elements),
            claim: claim_of(&elements),
            taps: elements[4..].to_vec(),
        };
        Short {
            name,
            firsts: first_words(&written(&elements)),
            elements,
            file,
        }
    }

    /// The words with the element at `place` written as given.
    fn with_words(&self, place: usize, element: &[u32]) -> Vec<u32> {
        let mut words = self.file.words.clone();
        let old = self.firsts[place]..self.firsts[place + 1];
        words.splice(old, element.iter().copied());
        words
    }

    /// A fault that the first `seen` words show: alone, with all that comes after it
    /// wrong too, and with nothing after it. Without the last byte of those words it
    /// can't be seen, and the answer is 12.
    fn faults(&self, name: &str, words: &[u32], seen: usize, refusal: Refusal) -> [UnpackCase; 4] {
        let name = |what: &str| format!("{}, {name}, {what}", self.name);
        let alone = self.file.case(name("alone"), words, Some(refusal));
        let mut followed = words.to_vec();
        followed[seen..].fill(0);
        let mut followed = self.file.case(name("followed"), &followed, Some(refusal));
        followed.file.push(0);
        let last = self.file.case(name("last"), &words[..seen], Some(refusal));
        let mut cut = last.clone();
        cut.name = name("cut");
        cut.file.pop();
        cut.refusal = Some(Refusal::FileLength);
        [alone, followed, last, cut]
    }
}

/// Every byte, word and element of small files that can be wrong.
fn unpack_corners(seed: u64) -> Vec<UnpackCase> {
    let mut random = Random::new(seed);
    let mut cases = vec![];
    for k in whole() {
        for (name, elements) in widths(&mut random, k) {
            let words = short_words_of(k, &elements);
            let name = format!("k = {k}, {name}");
            cases.push(unpack_case(k, name, &elements, &words));
            cases.extend(full_files(k, &elements));
        }
    }
    for short in widths(&mut random, 1).map(Short::new) {
        cases.extend(cuts(&short));
        cases.extend(tails(&short));
        cases.extend(kinds(&short));
        cases.extend(values(&short));
        cases.extend(heads(&short));
    }
    cases.extend(other_ks(&mut random));
    cases.extend(larger_files(&mut random));
    // Every choice of what is damaged, each several times.
    for choice in 0..1 << 11 {
        let damaged = std::array::from_fn(|thing| choice >> thing & 1 == 1);
        cases.push(lent_unpack_case(&mut random, damaged));
    }
    cases
}

/// A full file has no mark. With one it is refused at its first small element, and where
/// there is none it is the short file.
fn full_files(k: usize, elements: &[u64]) -> Vec<UnpackCase> {
    let words = words_of(k, &elements[..4], &elements[4..]);
    let mut full = unpack_case(k, format!("full file, k = {k}"), elements, &words);
    full.refusal = Some(Refusal::Value { word: 0 });
    let mut elsewhere = full.clone();
    elsewhere.name += ", into another length";
    elsewhere.destination += 1;
    let mut marked = full.clone();
    marked.name += ", marked";
    marked.file[3] += (MARK >> 24) as u8;
    let small = elements.iter().position(|&element| element < KIND as u64);
    marked.refusal = small.map(|place| Refusal::LongElement {
        word: 1 + 3 * place as u64,
    });
    vec![full, elsewhere, marked]
}

/// Every length up to that of the file, into the right destination and into others, which
/// are refused as soon as word 0 is there.
fn cuts(short: &Short) -> Vec<UnpackCase> {
    let whole = 4 * short.file.words.len();
    let mut cases = vec![];
    for length in 0..=whole {
        let name = format!("{}, {length} bytes", short.name);
        let refusal = (length < whole).then_some(Refusal::FileLength);
        let mut cut = short.file.case(name, &short.file.words, refusal);
        cut.file.truncate(length);
        for destination in [0, 1, 4, 15, 17, 20, 28] {
            let mut other = cut.clone();
            other.name += &format!(" into {destination}");
            other.destination = destination;
            if length >= 4 {
                other.refusal = Some(Refusal::DestinationLength);
            }
            cases.push(other);
        }
        cases.push(cut);
    }
    cases
}

/// Bytes after the last element: of zeros, of ones, and of further elements.
fn tails(short: &Short) -> Vec<UnpackCase> {
    let further = bytes(&[3 * KIND, KIND + 2, 2 * KIND + 80, 3 * KIND]);
    let mut cases = vec![];
    for more in (1..=12).chain([16, 160]) {
        for tail in [&[0][..], &[255], &further, &further[4..]] {
            let name = format!("{}, {more} bytes more", short.name);
            let refusal = Some(Refusal::FileLength);
            let mut long = short.file.case(name, &short.file.words, refusal);
            long.file.extend(tail.iter().cycle().take(more));
            cases.push(long);
        }
    }
    cases
}

/// Every word of another kind. With kind 1 in place of 3 at its first word, or 3 in place
/// of 1, an element is taken for a longer or a shorter one, and the word after is wrong;
/// of the last element, the file's length.
fn kinds(short: &Short) -> Vec<UnpackCase> {
    let mut cases = vec![];
    for word in 0..short.file.words.len() {
        for turn in 1..4 {
            let mut words = short.file.words.clone();
            words[word] = words[word].wrapping_add(turn * KIND);
            let other_width = short.firsts.contains(&word) && words[word] / KIND % 2 == 1;
            let name = format!("word {word} kind off by {turn}");
            if other_width && word == short.firsts[19] {
                let refusal = Some(Refusal::FileLength);
                cases.push(short.file.case(name, &words, refusal));
                continue;
            }
            let wrong = if other_width { word + 1 } else { word };
            let refusal = Refusal::Kind { word: wrong as u64 };
            cases.extend(short.faults(&name, &words, wrong + 1, refusal));
        }
    }
    cases
}

/// Each element in turn small or large, in the words that it needs; small in three words;
/// and none.
fn values(short: &Short) -> Vec<UnpackCase> {
    let mut cases = vec![];
    for place in 0..20 {
        let first = short.firsts[place];
        for element in [&SMALL[..], &LARGE].concat() {
            let words = short.with_words(place, &short_element(element));
            let elements = with(&short.elements, place, element);
            let name = format!("{}, element {place} is {element}", short.name);
            cases.push(unpack_case(1, name, &elements, &words));
        }
        let word = first as u64;
        for element in SMALL {
            let words = short.with_words(place, &element_words(element as u128));
            let name = format!("element {place} is {element} in three words");
            let refusal = Refusal::LongElement { word };
            cases.extend(short.faults(&name, &words, first + 3, refusal));
        }
        for value in NO_ELEMENTS {
            let words = short.with_words(place, &element_words(value));
            let name = format!("element {place} is {value}");
            let refusal = Refusal::Value { word };
            cases.extend(short.faults(&name, &words, first + 3, refusal));
        }
    }
    cases
}

/// Each spare bit alone and beside a k, k not permitted, no mark; also where the file ends
/// there and the destination is another.
fn heads(short: &Short) -> Vec<UnpackCase> {
    let edition = Edition::Short;
    let spare = |k| edition.spare_bits().map(move |bit| MARK + k + (1 << bit));
    let spare = [0, 1, 2048, 1 << 18].into_iter().flat_map(spare);
    let no_k = edition.no_k().iter().map(|k| MARK + k);
    let no_mark = [0, 1, 2, 3, 1024, 2048, 0x10000, 0x10001, 1 << 18];
    let mut cases = vec![];
    for head in spare.chain(no_k).chain(no_mark) {
        let whole = short.file.with_head(head, Refusal::Value { word: 0 });
        let mut alone = whole.clone();
        alone.name += ", alone";
        alone.file.truncate(4);
        alone.destination = 15;
        cases.extend([whole, alone]);
    }
    cases
}

/// Another k than that of the elements: the destination is held to it, and then the file
/// ends early or goes on.
fn other_ks(random: &mut Random) -> Vec<UnpackCase> {
    let mut cases = vec![];
    for k in [1, 2, 4] {
        let elements = any_widths(random, k);
        for other in PERMITTED.into_iter().filter(|&other| other != k) {
            let words = short_words_of(other, &elements);
            let name = format!("word 0 has {other}, elements of k = {k}");
            let mut early = unpack_case(k, name, &elements, &words);
            early.refusal = Some(Refusal::DestinationLength);
            let mut exact = early.clone();
            cases.push(early);
            // The destinations of more batches are long.
            if other <= 4096 {
                exact.name += ", with its destination";
                exact.destination = 12 * other + 4;
                exact.refusal = Some(Refusal::FileLength);
                cases.push(exact);
            }
        }
    }
    cases
}

/// Files of more batches that end early: right after word 0, in an element, and after
/// some; with the destination of that k, 12, and with that of one batch, 8. Then a wrong
/// element, which is refused before the end is seen.
fn larger_files(random: &mut Random) -> Vec<UnpackCase> {
    let mut cases = vec![];
    let elements = any_widths(random, 1);
    for k in LARGER {
        let words = short_words_of(k, &elements);
        let whole = 4 * words.len();
        for length in [4, 5, 7, whole - 1, whole] {
            let name = format!("k = {k}, cut to {length} bytes");
            let mut cut = unpack_case(1, name, &elements, &words);
            cut.file.truncate(length);
            cut.refusal = Some(Refusal::DestinationLength);
            cases.push(cut);
        }
        if k <= 4096 || k >= 65536 {
            let name = format!("k = {k}, cut after 20 elements");
            let mut cut = unpack_case(k, name, &elements, &words);
            cut.refusal = Some(Refusal::FileLength);
            cases.push(cut);
        }
        if k <= 4096 {
            let words = [&words[..], &[2 * KIND]].concat();
            let name = format!("k = {k}, element 20 of kind 2");
            let mut wrong = unpack_case(k, name, &elements, &words);
            let word = words.len() as u64 - 1;
            wrong.refusal = Some(Refusal::Kind { word });
            cases.push(wrong);
        }
    }
    cases
}

/// An element that is refused.
struct Refused {
    words: Vec<u32>,
    /// With its place counted from the first word.
    refusal: Refusal,
    /// So many words show it.
    seen: usize,
}

impl Refused {
    /// The refusal where its first word is word `first` of the file.
    fn refusal_at(&self, first: usize) -> Refusal {
        let first = first as u64;
        match self.refusal {
            Refusal::Kind { word } => Refusal::Kind { word: first + word },
            Refusal::Value { word } => Refusal::Value { word: first + word },
            Refusal::LongElement { word } => Refusal::LongElement { word: first + word },
            other => other,
        }
    }
}

/// What is wrong with an element.
#[derive(Clone, Copy, PartialEq, Eq, PartialOrd, Ord)]
enum Wrong {
    Kind,
    Value,
    Long,
}

/// An element one of whose kinds is wrong. A single word of kind 1 is refused at the next
/// one, where that is there and has not kind 2.
fn wrong_kind(random: &mut Random, next: Option<u32>) -> Refused {
    let mut words = short_element(random.small_or_large());
    let place = random.below(words.len());
    let kind = match (words.len(), place) {
        (1, _) if next.is_some_and(|next| next / KIND != 2) => random.pick(&[0, 1, 2]),
        (_, 0) => random.pick(&[0, 2]),
        (_, 1) => random.pick(&[0, 1, 3]),
        _ => random.pick(&[0, 1, 2]),
    };
    words[place] = kind * KIND + words[place] % KIND;
    let read_on = words.len() == 1 && kind == 1;
    let wrong = if read_on { 1 } else { place };
    Refused {
        words,
        refusal: Refusal::Kind { word: wrong as u64 },
        seen: wrong + 1,
    }
}

fn refused_element(random: &mut Random, wrong: Wrong, next: Option<u32>) -> Refused {
    let (value, refusal) = match wrong {
        Wrong::Kind => return wrong_kind(random, next),
        Wrong::Value => (not_an_element(random), Refusal::Value { word: 0 }),
        Wrong::Long => (random.small() as u128, Refusal::LongElement { word: 0 }),
    };
    Refused {
        words: element_words(value).to_vec(),
        refusal,
        seen: 3,
    }
}

/// The elements' words as lent, where one or two of them are wrong in each of the ways
/// asked for, and the first that is refused with its place.
fn lent_elements(
    random: &mut Random,
    elements: &[u64],
    damaged: [bool; 3],
) -> (Vec<Vec<u32>>, Option<(usize, Refused)>) {
    let mut written = written(elements);
    let mut places = vec![];
    for (wrong, damaged) in [Wrong::Kind, Wrong::Value, Wrong::Long]
        .into_iter()
        .zip(damaged)
    {
        let count = if damaged { 1 + random.below(2) } else { 0 };
        places.extend((0..count).map(|_| (random.place(elements.len()), wrong)));
    }
    places.sort();
    places.dedup_by_key(|(place, _)| *place);
    let mut first = None;
    // From the last on, so that what comes after each is there.
    for (place, wrong) in places.into_iter().rev() {
        let next = written.get(place + 1).map(|words| words[0]);
        let refused = refused_element(random, wrong, next);
        written[place] = refused.words.clone();
        first = Some((place, refused));
    }
    (written, first)
}

/// What is refused from word 1 on in a file of so many bytes with this k: the first
/// refused element, where the words that show it are there, or 12.
fn after_word_0(
    written: &[Vec<u32>],
    refused: Option<(usize, Refused)>,
    k: usize,
    length: usize,
) -> Option<Refusal> {
    let firsts = first_words(written);
    let read = 12 * k + 8;
    match refused {
        Some((place, refused)) if place < read => {
            let shown = 4 * (firsts[place] + refused.seen) <= length;
            let refusal = refused.refusal_at(firsts[place]);
            Some(if shown { refusal } else { Refusal::FileLength })
        }
        _ => {
            let exact = firsts.get(read).map(|end| 4 * end);
            (exact != Some(length)).then_some(Refusal::FileLength)
        }
    }
}

/// A short file of these elements as lent. Its length is damaged by another end, or by a
/// k in word 0 that is not that of the elements.
pub fn lent_short_file(random: &mut Random, elements: &[u64], damaged: Damaged) -> LentFile {
    let wrong = [damaged.kinds, damaged.values, damaged.long];
    let (written, refused) = lent_elements(random, elements, wrong);
    let other_k = damaged.length && random.one_in(3);
    let k = match (elements.len() / 12, random.pick(&IN_FULL)) {
        _ if damaged.larger => random.pick(&LARGER),
        (k, other) if other_k && other != k => other,
        (k, _) if other_k => 2 * k,
        (k, _) => k,
    };
    let mut word = MARK + k as u32;
    let larger = is_larger(&word.to_le_bytes());
    damage_word_0(random, &mut word, damaged);
    let mut bytes = bytes(&[&[word], &written.concat()[..]].concat());
    if damaged.length && !other_k {
        let more = bytes.len() + 1 + random.below(12);
        let fewer = 4 + random.place(bytes.len() - 4);
        bytes.resize(random.pick(&[more, fewer]), random.word() as u8);
    }
    let after = after_word_0(&written, refused, k, bytes.len());
    if damaged.cut {
        bytes.truncate(random.below(4));
    }
    LentFile {
        name: format!("word 0 is {word:08x}"),
        bytes,
        k,
        start: refused_start(damaged),
        other_edition: damaged.mark,
        head: damaged.head.then_some(Refusal::Value { word: 0 }),
        larger: larger.then_some(Refusal::Value { word: 0 }),
        elements: after,
    }
}

/// A call of the reader with these things damaged: cut below 4 bytes, word 0's kind, its
/// mark, its other bits, the destination; then kinds, values and small elements in three
/// words; and the length.
fn lent_unpack_case(random: &mut Random, damaged: [bool; 9]) -> UnpackCase {
    let [cut, kind, mark, head, destination, kinds, values, long, length] = damaged;
    let damaged = Damaged {
        cut,
        kind,
        mark,
        head,
        larger: false,
        length,
        kinds,
        values,
        long,
    };
    let k = random.pick(&[1, 1, 1, 2, 2, 4, 8, 16, 128]);
    let elements = any_widths(random, k);
    let file = lent_short_file(random, &elements, damaged);
    let (destination, no_room) = lent_destination(random, 12 * file.k + 4, destination);
    let refusal = file.read_into(no_room);
    let lengths = format!("{} bytes into {destination}", file.bytes.len());
    UnpackCase {
        name: format!("k = {k}, {}, {lengths}, {refusal:?}", file.name),
        file: file.bytes,
        destination,
        refusal,
        claim: claim_of(&elements),
        taps: elements[4..].to_vec(),
    }
}

/// Unpack of the short edition: 12 (below 4), word 0's 13 then 14, 8, then each element
/// with 12 where the file ends, and 12 for bytes after the last. The corner cases and `n`
/// others.
pub fn unpack_short_cases(seed: u64, n: usize) -> Vec<UnpackCase> {
    let mut random = Random::new(seed);
    let make = |number| {
        let mut damaged = damage(&mut random, number);
        // Most of the combinations shall reach the elements.
        if number % 8 >= 4 && random.one_in(2) {
            damaged[..5].fill(false);
        }
        lent_unpack_case(&mut random, damaged)
    };
    let mut cases = unpack_corners(seed);
    cases.extend((0..n).map(make));
    cases
}
