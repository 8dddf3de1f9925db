//! Board files (document 01, "The board file"; the short edition: document 02, U7 and
//! U9), what of them is damaged, and the cases of Pack and Unpack of the full edition.

use crate::cases::{
    claim_word, damage, first_of, join, lent_claim, lent_destination, tap_word, PackCase,
    UnpackCase,
};
use crate::random::Random;
use crate::taps::{self, lent_list, list};
use second::field::P;
use second::Refusal;
use std::ops::Range;

/// One in the two bits of a word's kind.
pub const KIND: u32 = 1 << 30;
/// Bit 29 of word 0, which marks the short edition.
pub const MARK: u32 = 1 << 29;
/// Every k of the full edition.
pub const IN_FULL: [usize; 11] = [1, 2, 4, 8, 16, 32, 64, 128, 256, 512, 1024];
/// Every k that it has not.
pub const LARGER: [usize; 8] = [2048, 4096, 8192, 16384, 32768, 65536, 131072, 262144];
/// Values of bits 0 to 15 of word 0 that are no k of the full edition.
pub const NO_FULL_K: [u32; 14] = [
    0, 3, 5, 6, 7, 12, 1023, 1025, 2048, 4096, 8192, 16384, 32768, 65535,
];
/// Values of bits 0 to 19 of word 0 that are no permitted k; 524288 is bit 19 alone.
pub const NO_SHORT_K: [u32; 20] = [
    0, 3, 5, 6, 7, 12, 1023, 1025, 2047, 2049, 32769, 65535, 65537, 196608, 262143, 262145, 393216,
    524288, 524289, 1048575,
];

/// The 32-bit words of a file, by division.
pub fn words_of(k: usize, claim: &[u64], taps: &[u64]) -> Vec<u32> {
    let mut words = vec![k as u32];
    for &element in claim.iter().chain(taps) {
        words.extend(element_words(element as u128));
    }
    words
}

/// The three words of an element below 2^90.
pub fn element_words(element: u128) -> [u32; 3] {
    let unit = KIND as u128;
    [
        KIND + (element / (unit * unit)) as u32,
        2 * KIND + (element / unit % unit) as u32,
        3 * KIND + (element % unit) as u32,
    ]
}

/// The bytes of a file.
pub fn bytes_of(k: usize, claim: &[u64], taps: &[u64]) -> Vec<u8> {
    bytes(&words_of(k, claim, taps))
}

pub fn bytes(words: &[u32]) -> Vec<u8> {
    words.iter().flat_map(|word| word.to_le_bytes()).collect()
}

/// The words of an element in the short edition: the last of the three alone where the
/// first two are empty.
pub fn short_element(element: u64) -> Vec<u32> {
    let words = element_words(element as u128);
    match words {
        [first, second, last] if (first, second) == (KIND, 2 * KIND) => vec![last],
        _ => words.to_vec(),
    }
}

/// The words of a short file; claim and taps are one list here.
pub fn short_words_of(k: usize, elements: &[u64]) -> Vec<u32> {
    let mut words = vec![MARK + k as u32];
    words.extend(elements.iter().flat_map(|&element| short_element(element)));
    words
}

/// The two editions of the file; claim and taps are one list here.
#[derive(Clone, Copy, Debug, PartialEq, Eq)]
pub enum Edition {
    Full,
    Short,
}

impl Edition {
    pub fn other(self) -> Edition {
        match self {
            Edition::Full => Edition::Short,
            Edition::Short => Edition::Full,
        }
    }

    /// What word 0 has beside k.
    pub fn mark(self) -> u32 {
        match self {
            Edition::Full => 0,
            Edition::Short => MARK,
        }
    }

    /// The edition that the mark of word 0 says.
    fn of(word: u32) -> Edition {
        match word & MARK {
            0 => Edition::Full,
            _ => Edition::Short,
        }
    }

    /// Bits of word 0 between k and the mark, which are zero.
    pub fn spare_bits(self) -> Range<usize> {
        match self {
            Edition::Full => 16..29,
            Edition::Short => 20..29,
        }
    }

    /// Counts in word 0 that the edition has not.
    pub fn no_k(self) -> &'static [u32] {
        match self {
            Edition::Full => &NO_FULL_K,
            Edition::Short => &NO_SHORT_K,
        }
    }

    /// Word 0 of k batches.
    pub fn word_0(self, k: usize) -> u32 {
        self.mark() + k as u32
    }

    /// Whether word 0 is there and bit 29 of it says this edition.
    pub fn is_marked(self, file: &[u8]) -> bool {
        let word = file.first_chunk().copied().map(u32::from_le_bytes);
        word.is_some_and(|word| word & MARK == self.mark())
    }

    /// The words of an element.
    pub fn element(self, element: u64) -> Vec<u32> {
        match self {
            Edition::Full => element_words(element as u128).to_vec(),
            Edition::Short => short_element(element),
        }
    }

    /// The words of a file.
    pub fn words(self, k: usize, elements: &[u64]) -> Vec<u32> {
        match self {
            Edition::Full => words_of(k, &elements[..4], &elements[4..]),
            Edition::Short => short_words_of(k, elements),
        }
    }

    /// The bytes of the file of these elements.
    pub fn file(self, elements: &[u64]) -> Vec<u8> {
        bytes(&self.words(elements.len() / 12, elements))
    }
}

/// Whether word 0 is that of a short file which has no full form.
pub fn is_larger(file: &[u8]) -> bool {
    let word = file.first_chunk().copied().map(u32::from_le_bytes);
    let larger = LARGER.map(|k| Edition::Short.word_0(k));
    word.is_some_and(|word| larger.contains(&word))
}

/// The claim of a list that begins with it.
pub fn claim_of(elements: &[u64]) -> [u64; 4] {
    elements[..4].try_into().expect("four words")
}

/// Claim and taps as the elements of one list, which need one word in the short edition
/// or three: all of them small, all large, in turn from either on, and any.
pub fn widths(random: &mut Random, k: usize) -> [(&'static str, Vec<u64>); 5] {
    let mut elements = |is_small: fn(usize) -> bool| -> Vec<u64> {
        let element = |place| match is_small(place) {
            true => random.small(),
            false => random.large(),
        };
        (0..12 * k + 8).map(element).collect()
    };
    [
        ("all small", elements(|_| true)),
        ("all large", elements(|_| false)),
        ("in turn, small first", elements(|place| place % 2 == 0)),
        ("in turn, large first", elements(|place| place % 2 == 1)),
        ("any widths", any_widths(random, k)),
    ]
}

/// Claim and taps, half of them small.
pub fn any_widths(random: &mut Random, k: usize) -> Vec<u64> {
    let element = |_| random.small_or_large();
    (0..12 * k + 8).map(element).collect()
}

/// Elements that are not below p: the nearest ones, those whose 64 bits look
/// small, and those of 2^64 and above, where the first payload exceeds 15.
pub fn not_an_element(random: &mut Random) -> u128 {
    let p = P as u128;
    let any = p + random.word() as u128;
    let wide = (16 + random.below((1 << 30) - 16) as u128) << 60;
    random.pick(&[
        p,
        p + 1,
        2 * p,
        1 << 62,
        1 << 63,
        (1 << 64) - 1,
        1 << 64,
        (1 << 64) + 1,
        (1 << 64) + p - 1,
        (1 << 64) + p,
        31 << 60,
        (1 << 90) - 1,
        any,
        wide,
    ])
}

/// What of a file is damaged.
#[derive(Clone, Copy, Default)]
pub struct Damaged {
    /// Cut below 4 bytes.
    pub cut: bool,
    /// Word 0's kind.
    pub kind: bool,
    /// Word 0's mark, so that it says the other edition.
    pub mark: bool,
    /// Word 0's spare bits or k.
    pub head: bool,
    /// A k in a short file's word 0 that the full edition has not.
    pub larger: bool,
    /// Another length than k's, or a k that is not the length's.
    pub length: bool,
    /// Kinds of elements' words.
    pub kinds: bool,
    /// Values of elements.
    pub values: bool,
    /// Three words for small elements, which a full file always has.
    pub long: bool,
}

/// A file as lent, with the refusals in the order of the reader of its edition.
pub struct LentFile {
    pub name: String,
    pub bytes: Vec<u8>,
    /// In word 0, but for what is damaged there.
    pub k: usize,
    /// 12 below 4 bytes, or word 0's 13.
    pub start: Option<Refusal>,
    pub other_edition: bool,
    /// Word 0's 14, or 12 for a full file's length.
    pub head: Option<Refusal>,
    /// A short file's 14 on its way to the full edition.
    pub larger: Option<Refusal>,
    /// From word 1 on.
    pub elements: Option<Refusal>,
}

impl LentFile {
    /// What the reader answers, whose destination stands before the elements.
    pub fn read_into(&self, no_room: Option<Refusal>) -> Option<Refusal> {
        let mark = self.other_edition.then_some(Refusal::Value { word: 0 });
        first_of(&[self.start, mark, self.head, no_room, self.elements])
    }
}

/// The refusal of the start of a file, which is damaged like this.
pub fn refused_start(damaged: Damaged) -> Option<Refusal> {
    let cut = damaged.cut.then_some(Refusal::FileLength);
    let kind = damaged.kind.then_some(Refusal::Kind { word: 0 });
    first_of(&[cut, kind])
}

pub fn lent_file(random: &mut Random, honest: &[u32], damaged: Damaged) -> LentFile {
    let mut words = honest.to_vec();
    let mut names = vec![];
    let elements = damage_elements(random, &mut words, damaged, &mut names);
    let mut more = 0;
    if damaged.length {
        more = damage_length(random, &mut words[0]);
        names.push(format!("k = {}, {more} bytes more", words[0]));
    }
    let k = words[0] as usize;
    damage_word_0(random, &mut words[0], damaged);
    if words[0] != k as u32 {
        names.push(format!("word 0 is {:08x}", words[0]));
    }
    let mut bytes = bytes(&words);
    let length = bytes.len().wrapping_add_signed(more);
    bytes.resize(length, random.word() as u8);
    if damaged.cut {
        bytes.truncate(random.below(4));
        names.push(format!("cut to {} bytes", bytes.len()));
    }
    let value = damaged.head.then_some(Refusal::Value { word: 0 });
    let length = damaged.length.then_some(Refusal::FileLength);
    LentFile {
        name: names.join(", "),
        bytes,
        k,
        start: refused_start(damaged),
        other_edition: damaged.mark,
        head: first_of(&[value, length]),
        larger: None,
        elements,
    }
}

/// Word 0 of either edition: a spare bit, or a k that is not permitted; the other
/// edition's mark; another kind.
pub fn damage_word_0(random: &mut Random, word: &mut u32, damaged: Damaged) {
    let edition = Edition::of(*word);
    if damaged.head && random.one_in(2) {
        let spare = edition.spare_bits();
        *word |= 1 << (spare.start + random.below(spare.len()));
    } else if damaged.head {
        *word = edition.mark() | random.pick(edition.no_k());
    }
    if damaged.mark {
        *word ^= MARK;
    }
    if damaged.kind {
        *word += KIND * random.pick(&[1, 2, 3]);
    }
}

/// Another permitted k in the same length, or so many bytes more or fewer.
fn damage_length(random: &mut Random, head: &mut u32) -> isize {
    if random.one_in(3) {
        let other = random.pick(&[1, 2, 4, 8, 16, 32, 512, 1024]);
        *head = if other == *head { 64 } else { other };
        0
    } else {
        random.pick(&[-144, -12, -4, -3, -2, -1, 1, 2, 3, 4, 12, 144])
    }
}

/// Damages one to three words' kinds, one to three elements' values, or both.
/// The first element counts, and in it a kind before the value.
fn damage_elements(
    random: &mut Random,
    words: &mut [u32],
    damaged: Damaged,
    names: &mut Vec<String>,
) -> Option<Refusal> {
    let elements = (words.len() - 1) / 3;
    let mut found: Vec<(usize, usize, Refusal)> = vec![];
    if damaged.values {
        for _ in 0..1 + random.below(3) {
            let element = random.place(elements);
            let first = 1 + 3 * element;
            let value = not_an_element(random);
            words[first..first + 3].copy_from_slice(&element_words(value));
            let word = first as u64;
            found.push((element, first + 3, Refusal::Value { word }));
            names.push(format!("element {element} is {value:x}"));
        }
    }
    if damaged.kinds {
        let mut places = vec![];
        for _ in 0..1 + random.below(3) {
            places.push(1 + random.place(3 * elements));
        }
        places.sort();
        places.dedup();
        for place in places {
            words[place] = words[place].wrapping_add(KIND * random.pick(&[1, 2, 3]));
            let word = place as u64;
            found.push(((place - 1) / 3, place, Refusal::Kind { word }));
            names.push(format!("word {place} of another kind"));
        }
    }
    let first = found
        .iter()
        .min_by_key(|(element, order, _)| (*element, *order));
    first.map(|(_, _, refusal)| *refusal)
}

fn pack_corners(seed: u64) -> Vec<PackCase> {
    let mut random = Random::new(seed);
    let mut cases = vec![];
    for k in IN_FULL {
        let taps = random.canonicals(12 * k + 4);
        let claim = std::array::from_fn(|_| random.canonical());
        let file = bytes_of(k, &claim, &taps);
        cases.push(PackCase {
            name: format!("k = {k}"),
            taps,
            claim,
            destination: 144 * k + 100,
            refusal: None,
            file,
        });
    }
    cases.extend(refused_lists());
    cases
}

fn refused_lists() -> Vec<PackCase> {
    let mut cases = vec![];
    let mut push = |name: String, taps: Vec<u64>, claim, destination, refusal| {
        cases.push(PackCase {
            name,
            taps,
            claim,
            destination,
            refusal: Some(refusal),
            file: vec![],
        });
    };
    for length in taps::LENGTHS {
        let name = format!("{length} tap words");
        push(name, vec![P; length], [P; 4], 243, Refusal::TapLength);
    }
    // Lists that a short file may have, also into the length that a full one would have.
    for k in [2048, 4096] {
        for destination in [243, 144 * k + 100] {
            let name = format!("k = {k}, into {destination}");
            let refusal = Refusal::TapLength;
            push(name, vec![P; 12 * k + 4], [P; 4], destination, refusal);
            let name = format!("k = {k}, zeros into {destination}");
            push(name, vec![0; 12 * k + 4], [0; 4], destination, refusal);
        }
    }
    for length in [0, 1, 100, 243, 245, 388] {
        let refusal = Refusal::DestinationLength;
        push(
            format!("into {length}"),
            vec![P; 16],
            [P; 4],
            length,
            refusal,
        );
    }
    for index in 0..4 {
        let mut claim = [P - 1; 4];
        claim[index] = P;
        let name = format!("p at claim word {index}");
        push(name, vec![P; 16], claim, 244, claim_word(index));
    }
    for index in 0..16 {
        let mut taps = vec![P - 1; 16];
        taps[index] = P;
        let name = format!("p at tap word {index}");
        push(name, taps, [P - 1; 4], 244, tap_word(index));
    }
    cases
}

/// Pack: 5, 8, 9, 6. The corner cases and `n` others.
pub fn pack_cases(seed: u64, n: usize) -> Vec<PackCase> {
    let mut random = Random::new(seed);
    let make = |number| {
        let [length, destination, claim, word] = damage(&mut random, number);
        let list = lent_list(&mut random, length, word);
        let exact = 144 * list.k + 100;
        let (destination, refusal) = lent_destination(&mut random, exact, destination);
        let honest: [u64; 4] = std::array::from_fn(|_| random.canonical());
        let (claim, claim_refusal) = lent_claim(&mut random, honest, claim);
        let order = [list.length, refusal, claim_refusal, list.word];
        let spoilt = claim_refusal.map_or("", |_| "claim not canonical");
        let file = match first_of(&order) {
            None => bytes_of(list.k, &claim, &list.words),
            Some(_) => vec![],
        };
        PackCase {
            name: join(&[&list.name, spoilt, &format!("into {destination}")]),
            taps: list.words,
            claim,
            destination,
            refusal: first_of(&order),
            file,
        }
    };
    let mut cases = pack_corners(seed);
    cases.extend((0..n).map(make));
    cases
}

/// A file of k = 1 that unpacks, and what is in it.
pub struct SmallFile {
    pub words: Vec<u32>,
    pub claim: [u64; 4],
    pub taps: Vec<u64>,
}

impl SmallFile {
    fn new(random: &mut Random) -> SmallFile {
        let claim = std::array::from_fn(|_| random.canonical());
        let taps = random.canonicals(16);
        SmallFile {
            words: words_of(1, &claim, &taps),
            claim,
            taps,
        }
    }

    pub fn case(&self, name: String, words: &[u32], refusal: Option<Refusal>) -> UnpackCase {
        UnpackCase {
            name,
            file: bytes(words),
            destination: 16,
            refusal,
            claim: self.claim,
            taps: self.taps.clone(),
        }
    }

    /// The file with word 0 as given.
    pub fn with_head(&self, head: u32, refusal: Refusal) -> UnpackCase {
        let mut words = self.words.clone();
        words[0] = head;
        self.case(format!("word 0 is {head:x}"), &words, Some(refusal))
    }
}

/// Every bit and word of a small file that can be wrong.
fn unpack_corners(seed: u64) -> Vec<UnpackCase> {
    let mut random = Random::new(seed);
    let file = SmallFile::new(&mut random);
    let mut cases = vec![file.case(String::from("honest"), &file.words, None)];
    for word in 0..file.words.len() {
        for turn in 1..4 {
            let mut words = file.words.clone();
            words[word] = words[word].wrapping_add(turn * KIND);
            let refusal = Some(Refusal::Kind { word: word as u64 });
            let name = format!("word {word} kind off by {turn}");
            cases.push(file.case(name, &words, refusal));
        }
    }
    cases.extend(heads(&file));
    for length in [0, 1, 2, 3, 4, 5, 100, 240, 243, 245, 248, 388] {
        let refusal = Some(Refusal::FileLength);
        let mut cut = file.case(format!("{length} bytes"), &file.words, refusal);
        cut.file.resize(length, 0);
        cases.push(cut);
    }
    for length in [0, 1, 4, 15, 17, 20, 28] {
        let refusal = Some(Refusal::DestinationLength);
        let mut other = file.case(format!("into {length}"), &file.words, refusal);
        other.destination = length;
        cases.push(other);
    }
    cases.extend(elements(&file));
    cases.extend(short_files(&mut random));
    cases
}

/// Short files, refused for their mark. Without small elements they have the length of
/// full ones.
fn short_files(random: &mut Random) -> Vec<UnpackCase> {
    let mut cases = vec![];
    for k in IN_FULL.into_iter().chain([2048]) {
        for (name, elements) in widths(random, k) {
            cases.push(UnpackCase {
                name: format!("short file, k = {k}, {name}"),
                file: bytes(&short_words_of(k, &elements)),
                destination: 12 * k + 4,
                refusal: Some(Refusal::Value { word: 0 }),
                claim: [0; 4],
                taps: vec![],
            });
        }
    }
    cases
}

/// Each spare bit, k not permitted, and k permitted but not in 244 bytes.
fn heads(file: &SmallFile) -> Vec<UnpackCase> {
    let mut cases = vec![];
    for bit in 16..30 {
        cases.push(file.with_head(1 | 1 << bit, Refusal::Value { word: 0 }));
    }
    for k in NO_FULL_K {
        cases.push(file.with_head(k, Refusal::Value { word: 0 }));
    }
    // A count of the short edition, with its mark and without.
    for k in LARGER {
        let refusal = Refusal::Value { word: 0 };
        cases.push(file.with_head(k as u32, refusal));
        cases.push(file.with_head(MARK + k as u32, refusal));
    }
    for k in [2, 4, 8, 512, 1024] {
        cases.push(file.with_head(k, Refusal::FileLength));
    }
    cases
}

/// Each element in turn p, 2^62, .., and 2^64 and above.
fn elements(file: &SmallFile) -> Vec<UnpackCase> {
    let p = P as u128;
    let values = [p, 1 << 62, (1 << 64) - 1, 1 << 64, (1 << 64) + 1, 1 << 89];
    let mut cases = vec![];
    for element in 0..20 {
        for value in values {
            let first = 1 + 3 * element;
            let mut words = file.words.clone();
            words[first..first + 3].copy_from_slice(&element_words(value));
            let refusal = Some(Refusal::Value { word: first as u64 });
            let name = format!("element {element} is {value}");
            cases.push(file.case(name, &words, refusal));
        }
    }
    cases
}

/// Unpack: 12 (below 4), word 0's 13 then 14, 12, 8, then each element. The
/// corner cases and `n` others.
pub fn unpack_cases(seed: u64, n: usize) -> Vec<UnpackCase> {
    let mut random = Random::new(seed);
    let make = |number| {
        let flags: [bool; 8] = damage(&mut random, number);
        // Most of the combinations shall reach the elements.
        let early = number % 8 < 4 || random.one_in(2);
        let damaged = Damaged {
            cut: early && flags[0],
            kind: early && flags[1],
            mark: early && flags[7],
            head: early && flags[2],
            length: early && flags[3],
            kinds: flags[5],
            values: flags[6],
            ..Damaged::default()
        };
        let k = random.pick(&[1, 1, 1, 2, 2, 4, 8, 16, 128]);
        let taps = list(&mut random, k);
        let claim: [u64; 4] = std::array::from_fn(|_| random.canonical());
        let honest = words_of(k, &claim, &taps);
        let file = lent_file(&mut random, &honest, damaged);
        let wrong = flags[4] && (early || random.one_in(2));
        let (destination, not_exact) = lent_destination(&mut random, 12 * k + 4, wrong);
        let lengths = format!("{} bytes into {destination}", file.bytes.len());
        UnpackCase {
            name: join(&[&format!("k = {k}"), &file.name, &lengths]),
            destination,
            refusal: file.read_into(not_exact),
            file: file.bytes,
            claim,
            taps,
        }
    };
    let mut cases = unpack_corners(seed);
    cases.extend((0..n).map(make));
    cases
}
