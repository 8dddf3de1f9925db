//! The converters between the two editions of the board file (document 02, U8 and U9):
//! days of every k of the full edition and every width there and back, then files with
//! everything wrong in turn, larger ones, and bytes at random, each lent to both
//! converters. The answer is that of the input's reader, but for 19, for the 14 of a short
//! file that has no full form, and for 8, which comes last; whatever is accepted has the
//! same claim and taps in the other edition, and converts back to the starting bytes. A
//! converter is named here by the edition it starts from.

use differential::files::{any_file, days, k_of_short, tails, words_0, Day, ENDS};
use differential::{bytes, named, same_verdict, seeds, words};
use inputs::files::{any_widths, element_words, is_larger, Edition, IN_FULL, KIND, LARGER, MARK};
use inputs::*;
use lemoncolumn::{batches, file_bytes, tap_words};
use second::field::P;
use second::Refusal;
use std::collections::BTreeMap;

const EDITIONS: [Edition; 2] = [Edition::Full, Edition::Short];

/// What both answer, and write into so many bytes.
fn convert_into(
    from: Edition,
    file: &[u8],
    destination: usize,
    about: &str,
) -> Result<Vec<u8>, Refusal> {
    let (mut proved, mut other) = (bytes(destination), bytes(destination));
    let (answer, expected) = match from {
        Edition::Full => (
            lemoncolumn::to_short(file, &mut proved),
            second::to_short(file, &mut other),
        ),
        Edition::Short => (
            lemoncolumn::to_full(file, &mut proved),
            second::to_full(file, &mut other),
        ),
    };
    same_verdict(answer, expected, about);
    assert!(proved.is_guarded() && proved[..] == other[..], "{about}");
    assert!(proved.is_untouched() || answer.is_ok(), "{about}");
    answer.map(|()| proved.to_vec()).map_err(named)
}

/// What the proved reader of an edition answers, with room for the taps of the k that the
/// file says, where it says any.
fn read(edition: Edition, file: &[u8]) -> Result<Vec<u64>, Refusal> {
    let k = match edition {
        Edition::Full => batches(file.len()),
        Edition::Short => k_of_short(file),
    };
    let mut taps = words(k.map_or(0, tap_words));
    let claim = match edition {
        Edition::Full => lemoncolumn::unpack(file, &mut taps),
        Edition::Short => lemoncolumn::unpack_short(file, &mut taps),
    };
    let elements = claim.map(|claim| [&claim, &taps[..]].concat());
    elements.map_err(named)
}

/// What both answer into the length that the wrapper says, or for a file that is refused
/// into its own. It is what the reader says, also into another length, where acceptance
/// becomes 8.
fn convert(from: Edition, file: &[u8], about: &str) -> Result<Vec<u8>, Refusal> {
    let wanted = from.other();
    let expected = match read(from, file) {
        _ if from == Edition::Short && is_larger(file) => Err(Refusal::Value { word: 0 }),
        Ok(elements) => Ok(wanted.file(&elements)),
        Err(Refusal::Value { word: 0 }) if wanted.is_marked(file) => Err(Refusal::SameEdition),
        Err(refusal) => Err(refusal),
    };
    let said = match from {
        Edition::Full => lemoncolumn::to_short_bytes(file),
        Edition::Short => lemoncolumn::to_full_bytes(file),
    };
    let length = match expected {
        Ok(_) => said.expect("the length of an accepted file"),
        Err(_) => file.len(),
    };
    let answer = convert_into(from, file, length, about);
    assert_eq!(answer, expected, "{about}");
    let elsewhere = convert_into(from, file, length + 1, about);
    let refusal = expected.err().unwrap_or(Refusal::DestinationLength);
    assert_eq!(elsewhere, Err(refusal), "{about}");
    if let Ok(converted) = &answer {
        let back = convert_into(wanted, converted, file.len(), about);
        assert_eq!(back, Ok(file.to_vec()), "{about}");
    }
    answer
}

/// A file of this edition, whole or not, lent to the converter to the same edition: 19,
/// or what comes before it.
fn is_there_already(edition: Edition, file: &[u8], about: &str) {
    let refusal = match file.get(3) {
        None => Refusal::FileLength,
        Some(64..) => Refusal::Kind { word: 0 },
        Some(_) => Refusal::SameEdition,
    };
    let answer = convert(edition.other(), file, about);
    assert_eq!(answer, Err(refusal), "{about}");
}

/// Days of both editions, for each of these k.
fn both(seed: u64, ks: &[usize]) -> impl Iterator<Item = Day> + '_ {
    let of_one = move |edition| days(seed, edition, ks);
    EDITIONS.into_iter().flat_map(of_one)
}

#[test]
fn there_and_back() {
    for seed in seeds("converters, there and back") {
        for day in both(seed, &IN_FULL) {
            let about = &day.name;
            let (file, wanted) = (day.file(), day.edition.other());
            let converted = wanted.file(&day.elements);
            let answer = convert(day.edition, &file, about);
            assert_eq!(answer, Ok(converted.clone()), "{about}");
            assert_eq!(read(day.edition, &file), Ok(day.elements.clone()));
            assert_eq!(read(wanted, &converted), Ok(day.elements.clone()));
            is_there_already(day.edition, &file, about);
        }
    }
}

/// None, word 0's, the input's, that of the tap list in bytes, and a byte, one to three
/// words and a batch beside the exact one; of k = 1 every length up to the full file's and
/// beyond.
#[test]
fn other_destinations() {
    for seed in seeds("converters, other destinations") {
        for day in both(seed, &IN_FULL) {
            let file = day.file();
            let exact = day.edition.other().file(&day.elements).len();
            let mut lengths = vec![0, 4, file.len(), 8 * tap_words(day.k)];
            for off in [1, 2, 3, 4, 8, 12, 48] {
                lengths.extend([exact - off, exact + off]);
            }
            if day.k == 1 {
                lengths.extend(0..=260);
            }
            for length in lengths.into_iter().filter(|&length| length != exact) {
                let about = format!("{}, into {length}", day.name);
                let answer = convert_into(day.edition, &file, length, &about);
                assert_eq!(answer, Err(Refusal::DestinationLength), "{about}");
            }
        }
    }
}

#[test]
fn every_cut() {
    for seed in seeds("converters, every cut") {
        for day in both(seed, &[1, 2, 4]) {
            let file = day.file();
            let exact = day.edition.other().file(&day.elements).len();
            for length in 0..file.len() {
                let about = format!("{}, {length} bytes", day.name);
                let (cut, refused) = (&file[..length], Err(Refusal::FileLength));
                assert_eq!(convert(day.edition, cut, &about), refused, "{about}");
                let answer = convert_into(day.edition, cut, exact, &about);
                assert_eq!(answer, refused, "{about}");
                is_there_already(day.edition, cut, &about);
            }
        }
    }
}

#[test]
fn bytes_after_the_last_element() {
    for seed in seeds("converters, bytes after the last element") {
        for day in both(seed, &[1, 2, 64]) {
            for tail in tails() {
                let about = format!("{}, then {tail:?}", day.name);
                let file = [day.file(), tail].concat();
                let refused = Err(Refusal::FileLength);
                assert_eq!(convert(day.edition, &file, &about), refused, "{about}");
                is_there_already(day.edition, &file, &about);
            }
        }
    }
}

#[test]
fn every_kind_of_every_word() {
    for seed in seeds("converters, every kind of every word") {
        for day in both(seed, &[1, 2, 4]) {
            for (about, file, refusal) in day.of_other_kinds() {
                let answer = convert(day.edition, &file, &about);
                assert_eq!(answer, Err(refusal), "{about}");
                is_there_already(day.edition, &file, &about);
            }
        }
    }
}

/// Each element in turn at the ends of ranges, in three words, and in one where it fits.
#[test]
fn elements_at_the_ends() {
    for seed in seeds("converters, elements at the ends") {
        for day in both(seed, &[1, 2]) {
            for place in 0..day.elements.len() {
                for end in ENDS {
                    element_at_an_end(&day, place, end);
                }
            }
        }
    }
}

fn element_at_an_end(day: &Day, place: usize, end: u128) {
    let about = format!("{}, element {place} is {end}", day.name);
    let word = day.firsts[place] as u64;
    let in_three = day.with_words(place, &element_words(end));
    is_there_already(day.edition, &in_three, &about);
    let answer = convert(day.edition, &in_three, &about);
    if end >= P as u128 {
        assert_eq!(answer, Err(Refusal::Value { word }), "{about}");
        return;
    }
    let mut elements = day.elements.clone();
    elements[place] = end as u64;
    let converted = Ok(day.edition.other().file(&elements));
    if day.edition == Edition::Full || end >= KIND as u128 {
        assert_eq!(answer, converted, "{about}");
        return;
    }
    assert_eq!(answer, Err(Refusal::LongElement { word }), "{about}");
    let in_one = day.with_words(place, &[3 * KIND + end as u32]);
    assert_eq!(convert(day.edition, &in_one, &about), converted, "{about}");
}

/// Each value of either half of word 0, lent to both converters: one of them is the
/// file's, and ten say another k that both editions have.
#[test]
fn every_word_0() {
    for seed in seeds("converters, every word 0") {
        for edition in EDITIONS {
            let elements = any_widths(&mut Random::new(seed), 1);
            let day = Day::new(seed, edition, 1, ("any widths", elements));
            for word in words_0(edition) {
                for from in EDITIONS {
                    converts_word_0(&day, word, from);
                }
            }
        }
    }
}

/// The day's file with this word 0. With the other edition's word 0 alone, it is up to
/// the elements.
fn converts_word_0(day: &Day, word: u32, from: Edition) {
    let about = format!("{}, word 0 is {word:08x}, from {from:?}", day.name);
    let mut file = day.file();
    file[..4].copy_from_slice(&word.to_le_bytes());
    let answer = convert_into(from, &file, from.other().file(&day.elements).len(), &about);
    // To the full edition this is 14 too where the short one has the k.
    let permitted = |&&k: &&usize| from.word_0(k) == word;
    let expected = match IN_FULL.iter().find(permitted) {
        _ if word >= KIND => Err(Refusal::Kind { word: 0 }),
        _ if word & MARK != from.mark() => Err(Refusal::SameEdition),
        None => Err(Refusal::Value { word: 0 }),
        Some(1) if from == day.edition => Ok(from.other().file(&day.elements)),
        Some(1) => convert(from, &file, &about),
        Some(_) => Err(Refusal::FileLength),
    };
    assert_eq!(answer, expected, "{about}");
}

/// Short files of 2048 batches, which their reader takes: 14 into every length, whole or
/// cut, with bytes after them, and with a word of every other kind at either end.
/// 19 and 13 come before.
#[test]
fn larger_files() {
    for seed in seeds("converters, larger files") {
        for day in days(seed, Edition::Short, &[2048]) {
            let about = &day.name;
            let file = day.file();
            assert!(read(Edition::Short, &file) == Ok(day.elements.clone()));
            let last = file.len() - 4;
            let mut files = vec![
                file[..4].to_vec(),
                file[..last].to_vec(),
                [&file[..], &[0]].concat(),
            ];
            for (at, turn) in [4, last]
                .into_iter()
                .flat_map(|at| [1, 2, 3].map(|t| (at, t)))
            {
                let mut other = file.clone();
                other[at + 3] = other[at + 3].wrapping_add(64 * turn);
                files.push(other);
            }
            files.push(file);
            for file in files {
                let lengths = [0, 4, file.len(), file_bytes(1), file_bytes(day.k)];
                for length in lengths {
                    let answer = convert_into(Edition::Short, &file, length, about);
                    assert_eq!(answer, Err(Refusal::Value { word: 0 }), "{about}");
                }
                is_there_already(Edition::Short, &file, about);
                let mut unmarked = file.clone();
                unmarked[3] = 0;
                is_there_already(Edition::Full, &unmarked, about);
                unmarked[3] = 0xa0;
                is_there_already(Edition::Full, &unmarked, about);
            }
        }
    }
}

/// Every k that has no full form in word 0 of small files that are whole, cut or damaged.
#[test]
fn larger_counts() {
    for seed in seeds("converters, larger counts") {
        let mut random = Random::new(seed);
        for number in 0..4000 {
            let k = LARGER[number % LARGER.len()];
            let mut file = any_file(&mut random, Edition::Short, 2 + number % 2, 1);
            file[..4].copy_from_slice(&Edition::Short.word_0(k).to_le_bytes());
            file.truncate(4 + random.place(file.len() - 3));
            let about = format!("seed {seed}: file {number}, k = {k}");
            for length in [0, file.len(), file_bytes(1)] {
                let answer = convert_into(Edition::Short, &file, length, &about);
                assert_eq!(answer, Err(Refusal::Value { word: 0 }), "{about}");
            }
            let answer = convert_into(Edition::Full, &file, file.len(), &about);
            assert_eq!(answer, Err(Refusal::SameEdition), "{about}");
        }
    }
}

/// Each bit of a file changed, lent to both converters. Where the answer is a file, it is
/// not the day's.
#[test]
fn every_bit() {
    for seed in seeds("converters, every bit") {
        for day in both(seed, &[1, 2]) {
            let honest = day.file();
            let converted = day.edition.other().file(&day.elements);
            let mut accepted = 0;
            for bit in 0..8 * honest.len() {
                let about = format!("{}, bit {bit}", day.name);
                let mut file = honest.clone();
                file[bit / 8] ^= 1 << (bit % 8);
                if let Ok(other) = convert(day.edition, &file, &about) {
                    assert_ne!(other, converted, "{about}");
                    accepted += 1;
                }
                // Bit 29 of word 0 is the mark.
                if bit != 29 {
                    is_there_already(day.edition, &file, &about);
                }
            }
            assert!(accepted > 0, "{}", day.name);
            assert!(accepted < 8 * honest.len(), "{}: {accepted}", day.name);
        }
    }
}

/// Each answer has come many times from either converter, so that all of them were
/// compared. One file in eight is of the wanted edition.
#[test]
fn random_bytes() {
    for seed in seeds("converters, random bytes") {
        for from in EDITIONS {
            let mut random = Random::new(seed);
            let mut seen = BTreeMap::new();
            for number in 0..40_000 {
                let k = random.pick(&[1, 1, 2, 4]);
                let edition = if random.one_in(8) { from.other() } else { from };
                let file = any_file(&mut random, edition, number, k);
                let about = format!("seed {seed}: from {from:?}, file {number}");
                let answer = convert(from, &file, &about);
                let answer = answer.map_or_else(Refusal::number, |_| 0);
                *seen.entry(answer).or_insert(0) += 1;
            }
            let numbers: Vec<u64> = seen.keys().copied().collect();
            let expected: &[u64] = match from {
                Edition::Full => &[0, 12, 13, 14, 19],
                Edition::Short => &[0, 12, 13, 14, 18, 19],
            };
            assert_eq!(numbers, expected, "seed {seed}: {seen:?}");
            assert!(seen.values().all(|&count| count >= 200), "{seen:?}");
        }
    }
}
