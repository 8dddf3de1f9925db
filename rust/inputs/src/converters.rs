//! The cases of the converters between the full and the short edition of the board file
//! (document 02, U8 and U9). A converter is named here by the edition it starts from.
//! Claim and taps are one list of elements, the claim first.

use crate::cases::{damage, first_of, join, lent_destination, ConvertCase, UnpackCase};
use crate::files::{any_widths, claim_of, is_larger, lent_file, unpack_cases, widths};
use crate::files::{Damaged, Edition, LentFile, IN_FULL};
use crate::random::Random;
use crate::short_files::{lent_short_file, unpack_short_cases, with, LARGE, SMALL};
use second::Refusal;

/// A file lent into `destination` bytes, refused as given or, last of all, for another
/// length than that of the elements' file.
fn lent(
    from: Edition,
    name: &str,
    elements: &[u64],
    file: &[u8],
    destination: usize,
    refusal: Option<Refusal>,
) -> ConvertCase {
    let converted = from.other().file(elements);
    let exact = destination == converted.len();
    let no_room = (!exact).then_some(Refusal::DestinationLength);
    ConvertCase {
        name: format!("{name}, {} bytes into {destination}", file.len()),
        file: file.to_vec(),
        destination,
        refusal: refusal.or(no_room),
        converted,
        claim: claim_of(elements),
        taps: elements[4..].to_vec(),
    }
}

/// The file of these elements, into each of these lengths.
fn whole(
    from: Edition,
    name: &str,
    elements: &[u64],
    lengths: impl IntoIterator<Item = usize>,
) -> Vec<ConvertCase> {
    let file = from.file(elements);
    let into = |length| lent(from, name, elements, &file, length, None);
    lengths.into_iter().map(into).collect()
}

/// The exact length, those beside it, none, the input's, and that of the tap list.
fn lengths(from: Edition, elements: &[u64]) -> [usize; 6] {
    let exact = from.other().file(elements).len();
    let (input, taps) = (from.file(elements).len(), 8 * (elements.len() - 4));
    [exact, exact - 1, exact + 1, 0, input, taps]
}

/// Every k of the full edition in all widths; of k = 1 into every length up to the full
/// file's and beyond, and each element in turn at the ends of both widths, also into the
/// lengths of one who takes it for another width.
fn honest(random: &mut Random, from: Edition) -> Vec<ConvertCase> {
    let mut cases = vec![];
    for k in IN_FULL {
        for (name, elements) in widths(random, k) {
            let name = format!("k = {k}, {name}");
            let lengths = lengths(from, &elements);
            cases.extend(whole(from, &name, &elements, lengths));
        }
    }
    for (name, elements) in widths(random, 1) {
        cases.extend(whole(from, name, &elements, 0..=260));
        for place in 0..elements.len() {
            for &element in SMALL.iter().chain(&LARGE) {
                let elements = with(&elements, place, element);
                let name = format!("{name}, element {place} is {element}");
                let exact = from.other().file(&elements).len();
                let lengths = [exact, exact - 8, exact + 8];
                cases.extend(whole(from, &name, &elements, lengths));
            }
        }
    }
    cases
}

/// The corner cases of a reader.
fn read(seed: u64, edition: Edition) -> Vec<UnpackCase> {
    match edition {
        Edition::Full => unpack_cases(seed, 0),
        Edition::Short => unpack_short_cases(seed, 0),
    }
}

/// A reader's case, lent into the length of its elements' file in the other edition, and
/// into that of the input or one more.
fn relent(from: Edition, case: &UnpackCase, refusal: Option<Refusal>) -> [ConvertCase; 2] {
    let elements = [&case.claim, &case.taps[..]].concat();
    let exact = from.other().file(&elements).len();
    let other = match case.file.len() {
        length if length == exact => exact + 1,
        length => length,
    };
    let into = |length| lent(from, &case.name, &elements, &case.file, length, refusal);
    [exact, other].map(into)
}

/// A file that its reader takes or refuses: the converter answers the same, but for 19 in
/// place of 14 where the mark is the wanted edition's, and for 14 where word 0 has a k that
/// the full edition has not. Where the reader answers 8, its case does not tell what else
/// is wrong.
fn as_its_reader(from: Edition, case: &UnpackCase) -> Vec<ConvertCase> {
    let refusal = match case.refusal {
        _ if from == Edition::Short && is_larger(&case.file) => Some(Refusal::Value { word: 0 }),
        Some(Refusal::DestinationLength) => return vec![],
        Some(Refusal::Value { word: 0 }) if from.other().is_marked(&case.file) => {
            Some(Refusal::SameEdition)
        }
        other => other,
    };
    relent(from, case, refusal).to_vec()
}

/// A file that is in the wanted edition, whole or not: 19 whatever its reader answers,
/// but for what comes before the mark.
fn already_converted(from: Edition, case: &UnpackCase) -> Vec<ConvertCase> {
    let refusal = match case.refusal {
        Some(Refusal::FileLength) if case.file.len() < 4 => Refusal::FileLength,
        Some(Refusal::Kind { word: 0 }) => Refusal::Kind { word: 0 },
        _ if from.other().is_marked(&case.file) => Refusal::SameEdition,
        _ => return vec![],
    };
    relent(from, case, Some(refusal)).to_vec()
}

/// Bytes at random. A spare bit is set, so that the first word decides if it is there.
fn any_bytes(random: &mut Random, from: Edition) -> ConvertCase {
    let length = random.pick(&[4, 10, 300]);
    let length = random.below(length);
    let mut file: Vec<u8> = (0..length).map(|_| random.word() as u8).collect();
    let kind = random.pick(&[0, 0, 1, 2, 3]);
    let refusal = match file.first_chunk_mut::<4>() {
        None => Refusal::FileLength,
        Some(word) => {
            word[2] |= 16; // bit 20, which is spare in both editions
            word[3] = word[3] % 64 + 64 * kind;
            match kind {
                0 if from.other().is_marked(word) => Refusal::SameEdition,
                0 => Refusal::Value { word: 0 },
                _ => Refusal::Kind { word: 0 },
            }
        }
    };
    let destination = random.pick(&[0, 84, length, 244]);
    let name = "bytes at random";
    lent(from, name, &[0; 20], &file, destination, Some(refusal))
}

/// What a converter answers: 19 in place of the reader's 14 for the mark, after its other
/// 14 that for more batches than the full edition has, and the destination last.
fn converted_into(file: &LentFile, no_room: Option<Refusal>) -> Option<Refusal> {
    let already = file.other_edition.then_some(Refusal::SameEdition);
    first_of(&[
        file.start,
        already,
        file.head,
        file.larger,
        file.elements,
        no_room,
    ])
}

/// A call with these things damaged: cut below 4 bytes, word 0's kind, its mark, its
/// other bits, in a short file by a k that a full one can't have, the length; kinds and
/// values of elements, and in a short file small ones in three words; the destination.
fn damaged_case(random: &mut Random, from: Edition, damaged: [bool; 10]) -> ConvertCase {
    let [cut, kind, mark, head, larger, length, kinds, values, long, room] = damaged;
    let damaged = Damaged {
        cut,
        kind,
        mark,
        head,
        larger,
        length,
        kinds,
        values,
        long,
    };
    let k = random.pick(&[1, 1, 1, 2, 2, 4, 8, 16, 128]);
    let elements = any_widths(random, k);
    let file = match from {
        Edition::Full => lent_file(random, &from.words(k, &elements), damaged),
        Edition::Short => lent_short_file(random, &elements, damaged),
    };
    let exact = match from {
        Edition::Full => Edition::Short.file(&elements).len(),
        Edition::Short if larger => 144 * k + 100,
        Edition::Short => 144 * file.k + 100,
    };
    let (destination, no_room) = lent_destination(random, exact, room);
    let refusal = converted_into(&file, no_room);
    let name = join(&[&format!("k = {k}"), &file.name]);
    lent(from, &name, &elements, &file.bytes, destination, refusal)
}

fn corners(seed: u64, from: Edition) -> Vec<ConvertCase> {
    let mut random = Random::new(seed);
    let mut cases = honest(&mut random, from);
    for case in read(seed, from) {
        cases.extend(as_its_reader(from, &case));
    }
    for case in read(seed, from.other()) {
        cases.extend(already_converted(from, &case));
    }
    cases.extend((0..200).map(|_| any_bytes(&mut random, from)));
    // Every choice of what is damaged, each several times.
    for choice in 0..1 << 11 {
        let damaged = std::array::from_fn(|thing| choice >> thing & 1 == 1);
        cases.push(damaged_case(&mut random, from, damaged));
    }
    cases
}

fn convert_cases(seed: u64, n: usize, from: Edition) -> Vec<ConvertCase> {
    let mut random = Random::new(seed);
    let make = |number| {
        let mut damaged = damage(&mut random, number);
        // Most of the combinations shall reach the elements.
        if number % 8 >= 4 && random.one_in(2) {
            damaged[..6].fill(false);
        }
        damaged_case(&mut random, from, damaged)
    };
    let mut cases = corners(seed, from);
    cases.extend((0..n).map(make));
    cases
}

/// From the full edition to the short one: 12 (below 4), word 0's 13, 19, word 0's 14,
/// 12, each element's 13 and 14, 8. The corner cases and `n` others.
pub fn to_short_cases(seed: u64, n: usize) -> Vec<ConvertCase> {
    convert_cases(seed, n, Edition::Full)
}

/// From the short edition to the full one: 12 (below 4), word 0's 13, 19, word 0's 14,
/// 14 for more than 1024 batches, each element's 13, 14 and 18 with 12 where the file
/// ends, 12 for bytes after the last, 8. The corner cases and `n` others.
pub fn to_full_cases(seed: u64, n: usize) -> Vec<ConvertCase> {
    convert_cases(seed, n, Edition::Short)
}
