//! The short edition of the board file (document 02, U7 and U9): days of every k up to
//! 4096 and every width there and back, those up to 1024 beside their full files, then
//! files with everything wrong in turn, and bytes at random. Whatever is accepted is what
//! the writer makes of it again, so that a claim with its list has one short file. Claim
//! and taps are one list of elements here, the claim first.

use differential::files::{any_file, k_of_short, tails, words_0, Day, ENDS};
use differential::{bytes, named, same_verdict, seeds, words};
use inputs::files::{any_widths, claim_of, element_words, Edition, IN_FULL, KIND, LARGER, MARK};
use inputs::taps::PERMITTED;
use inputs::*;
use lemoncolumn::{file_bytes, short_batches, short_file_bytes, tap_words};
use second::field::P;
use second::Refusal;
use std::collections::{BTreeMap, BTreeSet};

/// What both write, into the length that `short_file_bytes` says.
fn written(elements: &[u64], about: &str) -> Result<Vec<u8>, Refusal> {
    let (claim, taps) = (claim_of(elements), &elements[4..]);
    let length = short_file_bytes(taps, claim);
    assert_eq!(length, second::short::short_file_bytes(taps, claim));
    let (mut proved, mut other) = (bytes(length), bytes(length));
    let answer = lemoncolumn::pack_short(taps, claim, &mut proved);
    let expected = second::pack_short(taps, claim, &mut other);
    same_verdict(answer, expected, about);
    assert!(proved.is_guarded() && proved[..] == other[..], "{about}");
    assert_eq!(proved.is_untouched(), answer.is_err(), "{about}");
    answer.map(|()| proved.to_vec()).map_err(named)
}

/// What both read, into so many tap words. What they accept is the file of what they read.
fn read_into(file: &[u8], destination: usize, about: &str) -> Result<Vec<u64>, Refusal> {
    let (mut proved, mut other) = (words(destination), words(destination));
    let answer = lemoncolumn::unpack_short(file, &mut proved);
    let expected = second::unpack_short(file, &mut other);
    same_verdict(answer, expected, about);
    assert!(proved.is_guarded() && proved[..] == other[..], "{about}");
    assert!(proved.is_untouched() || answer.is_ok(), "{about}");
    let elements = answer.map(|claim| [&claim, &proved[..]].concat());
    if let Ok(elements) = &elements {
        assert_eq!(written(elements, about), Ok(file.to_vec()), "{about}");
    }
    elements.map_err(named)
}

/// The same, with room for the taps that word 0 says, where it says any.
fn read(file: &[u8], about: &str) -> Result<Vec<u64>, Refusal> {
    read_into(file, k_of_short(file).map_or(0, tap_words), about)
}

/// Short files for each of these k.
fn days(seed: u64, ks: &[usize]) -> Vec<Day> {
    differential::files::days(seed, Edition::Short, ks)
}

#[test]
fn there_and_back() {
    for seed in seeds("short files, there and back") {
        for day in days(seed, &IN_FULL) {
            assert_eq!(short_batches(&day.file()), Some(day.k), "{}", day.name);
            goes_there_and_back(&day);
        }
    }
}

fn goes_there_and_back(day: &Day) {
    let about = &day.name;
    let file = day.file();
    assert_eq!(written(&day.elements, about), Ok(file.clone()), "{about}");
    assert_eq!(read(&file, about), Ok(day.elements.clone()), "{about}");
    let exact = tap_words(day.k);
    for other in [0, 1, exact - 1, exact + 1, exact + 12] {
        let refused = Err(Refusal::DestinationLength);
        assert_eq!(read_into(&file, other, about), refused, "{about}");
    }
}

/// Days that no full file has: its writer gives 5, whatever the room.
#[test]
fn larger_files_there_and_back() {
    for seed in seeds("short files, larger ones there and back") {
        for day in days(seed, &LARGER[..2]) {
            let about = &day.name;
            goes_there_and_back(&day);
            for room in [0, file_bytes(1), file_bytes(day.k)] {
                let mut full = bytes(room);
                let (claim, taps) = (claim_of(&day.elements), &day.elements[4..]);
                let packed = lemoncolumn::pack(taps, claim, &mut full);
                let expected = second::pack(taps, claim, &mut full);
                assert_eq!(expected, Err(Refusal::TapLength), "{about}");
                same_verdict(packed, expected, about);
                assert!(full.is_untouched(), "{about}");
            }
        }
    }
}

/// Files of 2048 batches cut, with bytes after them, and with a few words wrong.
#[test]
fn larger_files_damaged() {
    for seed in seeds("short files, larger ones damaged") {
        let mut random = Random::new(seed);
        let mut seen = BTreeMap::new();
        for number in 0..160 {
            let about = format!("seed {seed}: file {number}, k = 2048");
            let mut file = any_file(&mut random, Edition::Short, 2 + number % 2, 2048);
            if number % 8 == 0 {
                file = days(seed, &[2048])[number / 8 % 5].file();
            }
            if number % 16 == 0 {
                file.truncate(random.below(file.len()));
            }
            let answer = read(&file, &about).map_or_else(Refusal::number, |_| 0);
            *seen.entry(answer).or_insert(0) += 1;
        }
        for number in [0, 12, 13, 14, 18] {
            assert!(seen.contains_key(&number), "seed {seed}: {seen:?}");
        }
    }
}

/// Word 0 of more batches, and then too few elements: 8 where there is no room for so many
/// taps, else 12, or what is wrong with an element.
#[test]
fn larger_files_that_end_early() {
    for seed in seeds("short files, larger ones that end early") {
        let day = &days(seed, &[1])[4];
        for k in LARGER {
            let head = Edition::Short.word_0(k).to_le_bytes();
            let file = [&head[..], &day.file()[4..]].concat();
            for length in [4, 5, 7, 8, file.len() - 1, file.len()] {
                let about = format!("{}, k = {k} in word 0, {length} bytes", day.name);
                let (cut, no_room) = (&file[..length], Err(Refusal::DestinationLength));
                assert_eq!(read_into(cut, tap_words(1), &about), no_room, "{about}");
            }
            let about = format!("{}, k = {k} in word 0", day.name);
            let refused = Err(Refusal::FileLength);
            assert_eq!(read(&file, &about), refused, "{about}");
            if k <= 4096 {
                let wrong = [&file[..], &(2 * KIND).to_le_bytes()].concat();
                let word = day.words.len() as u64;
                let refused = Err(Refusal::Kind { word });
                assert_eq!(read(&wrong, &about), refused, "{about}");
            }
        }
    }
}

/// The short file of a full one: the mark, and of each element whose first two words are
/// empty the third alone.
fn shortened(full: &[u8]) -> Vec<u8> {
    let empty = inputs::files::bytes(&[KIND, 2 * KIND]);
    let mut short = full[..4].to_vec();
    short[3] |= (MARK >> 24) as u8;
    for element in full[4..].chunks(12) {
        short.extend(element.strip_prefix(&empty[..]).unwrap_or(element));
    }
    short
}

/// What the full edition's readers answer.
fn read_full(file: &[u8], k: usize, about: &str) -> Result<Vec<u64>, Refusal> {
    let (mut proved, mut other) = (words(tap_words(k)), words(tap_words(k)));
    let answer = lemoncolumn::unpack(file, &mut proved);
    same_verdict(answer, second::unpack(file, &mut other), about);
    assert!(proved.is_guarded() && proved[..] == other[..], "{about}");
    let elements = answer.map(|claim| [&claim, &proved[..]].concat());
    elements.map_err(named)
}

/// One day, two files, and neither is read as the other: without its mark the short file
/// is too short for its k, and with a mark the full one has three words for a small
/// element; where no element is small, the mark alone tells them apart.
#[test]
fn full_and_short_of_the_same_day() {
    for seed in seeds("short files, full and short of the same day") {
        for day in days(seed, &IN_FULL) {
            let (about, elements) = (&day.name, &day.elements);
            let mut full = vec![0; file_bytes(day.k)];
            let packed = lemoncolumn::pack(&elements[4..], claim_of(elements), &mut full);
            assert_eq!(packed, Ok(()), "{about}");
            let mut short = day.file();
            assert_eq!(short, shortened(&full), "{about}");
            assert_eq!(read_full(&full, day.k, about), Ok(elements.clone()));
            assert_eq!(read(&short, about), Ok(elements.clone()), "{about}");

            let refused = Err(Refusal::Value { word: 0 });
            assert_eq!(read_full(&short, day.k, about), refused, "{about}");
            let exact = tap_words(day.k);
            assert_eq!(read_into(&full, exact, about), refused, "{about}");

            let mark = (MARK >> 24) as u8;
            short[3] -= mark;
            full[3] += mark;
            let small = elements.iter().position(|&element| element < 1 << 30);
            let (as_full, as_short) = match small {
                None => (Ok(elements.clone()), Ok(elements.clone())),
                Some(place) => {
                    let word = 1 + 3 * place as u64;
                    let long = Refusal::LongElement { word };
                    (Err(Refusal::FileLength), Err(long))
                }
            };
            assert_eq!(read_full(&short, day.k, about), as_full, "{about}");
            assert_eq!(read(&full, about), as_short, "{about}");
        }
    }
}

#[test]
fn every_cut() {
    for seed in seeds("short files, every cut") {
        for day in days(seed, &[1, 2, 4]) {
            let file = day.file();
            for length in 0..file.len() {
                let about = format!("{}, {length} bytes", day.name);
                let cut = &file[..length];
                let exact = tap_words(day.k);
                let refused = Refusal::FileLength;
                assert_eq!(read_into(cut, exact, &about), Err(refused), "{about}");
                // 8 stands between word 0 and the elements.
                let no_room = match length {
                    0..4 => Refusal::FileLength,
                    _ => Refusal::DestinationLength,
                };
                assert_eq!(read_into(cut, exact + 1, &about), Err(no_room), "{about}");
            }
        }
    }
}

#[test]
fn bytes_after_the_last_element() {
    for seed in seeds("short files, bytes after the last element") {
        for day in days(seed, &IN_FULL) {
            for tail in tails() {
                let about = format!("{}, then {tail:?}", day.name);
                let file = [day.file(), tail].concat();
                let refused = Err(Refusal::FileLength);
                assert_eq!(read(&file, &about), refused, "{about}");
            }
        }
    }
}

#[test]
fn every_kind_of_every_word() {
    for seed in seeds("short files, every kind of every word") {
        for day in days(seed, &[1, 2, 4]) {
            for (about, file, refusal) in day.of_other_kinds() {
                let answer = read_into(&file, tap_words(day.k), &about);
                assert_eq!(answer, Err(refusal), "{about}");
            }
        }
    }
}

/// Each element in turn at those ends, in three words, and in one where it fits.
#[test]
fn elements_at_the_ends() {
    for seed in seeds("short files, elements at the ends") {
        for day in days(seed, &[1, 2]) {
            for place in 0..day.elements.len() {
                for end in ENDS {
                    element_at_an_end(&day, place, end);
                }
            }
        }
    }
}

fn element_at_an_end(day: &Day, place: usize, end: u128) {
    let about = format!("{}, element {place} is {end}", day.name);
    let word = day.firsts[place] as u64;
    let is_small = end < 1 << 30;
    let in_three = read(&day.with_words(place, &element_words(end)), &about);
    if end >= P as u128 {
        assert_eq!(in_three, Err(Refusal::Value { word }), "{about}");
    } else if is_small {
        assert_eq!(in_three, Err(Refusal::LongElement { word }), "{about}");
    }
    let Ok(element) = u64::try_from(end) else {
        return;
    };
    let mut elements = day.elements.clone();
    elements[place] = element;
    let file = written(&elements, &about);
    if element >= P {
        let refusal = match place {
            0..4 => claim_word(place),
            _ => tap_word(place - 4),
        };
        assert_eq!(file, Err(refusal), "{about}");
        return;
    }
    let one = [3 * KIND + element as u32 % KIND];
    let three = element_words(end);
    let needed = if is_small { &one[..] } else { &three };
    assert_eq!(file, Ok(day.with_words(place, needed)), "{about}");
    let answer = read(&file.expect("written"), &about);
    assert_eq!(answer, Ok(elements), "{about}");
}

/// Each value of either half of word 0: one of them is the file's, and eighteen say
/// another k, of which fifteen stand in the lower half.
#[test]
fn every_word_0() {
    for seed in seeds("short files, every word 0") {
        let mut random = Random::new(seed);
        let elements = any_widths(&mut random, 1);
        let day = Day::new(seed, Edition::Short, 1, ("any widths", elements));
        let mut file = day.file();
        let mut others = BTreeSet::new();
        for word in words_0(Edition::Short) {
            let about = format!("{}, word 0 is {word:08x}", day.name);
            file[..4].copy_from_slice(&word.to_le_bytes());
            let expected = match k_of_short(&file) {
                Some(1) => Ok(day.elements.clone()),
                Some(_) => Err(Refusal::DestinationLength),
                None if word < KIND => Err(Refusal::Value { word: 0 }),
                None => Err(Refusal::Kind { word: 0 }),
            };
            assert_eq!(read_into(&file, 16, &about), expected, "{about}");
            others.extend(k_of_short(&file));
        }
        assert_eq!(Vec::from_iter(others), PERMITTED);
    }
}

/// Word 0 with each one and each two of its bits 0 to 29, beside the mark and without it:
/// both readers and both converters. A k is one set bit, and the full edition has those
/// up to 1024; what comes next is 8 in the short reader, and else 12.
#[test]
fn every_one_and_two_bits_of_word_0() {
    for one in 0..30 {
        for two in one..30 {
            let bits = 1 << one | 1 << two;
            word_0_alone(bits);
            word_0_alone(MARK | bits);
        }
    }
}

fn word_0_alone(word: u32) {
    let about = format!("word 0 is {word:08x}, alone");
    let file = word.to_le_bytes();
    let (value, ends) = (Refusal::Value { word: 0 }, Refusal::FileLength);
    let in_short = k_of_short(&file).map_or(value, |_| Refusal::DestinationLength);
    assert_eq!(read_into(&file, 15, &about), Err(in_short), "{about}");
    let in_full = IN_FULL.iter().find(|&&k| k as u32 == word);
    let in_full = in_full.map_or(value, |_| ends);
    assert_eq!(read_full(&file, 1, &about), Err(in_full), "{about}");

    let count = word & !MARK;
    let has_full_form = IN_FULL.iter().any(|&k| k as u32 == count);
    let refusal = |wanted: Edition| match has_full_form {
        _ if wanted.is_marked(&file) => Refusal::SameEdition,
        true => ends,
        false => value,
    };
    for room in [0, 4, 84, 244] {
        let (mut proved, mut other) = (bytes(room), bytes(room));
        let converted = lemoncolumn::to_short(&file, &mut proved);
        same_verdict(converted, Err(refusal(Edition::Short)), &about);
        same_verdict(converted, second::to_short(&file, &mut other), &about);
        let converted = lemoncolumn::to_full(&file, &mut proved);
        same_verdict(converted, Err(refusal(Edition::Full)), &about);
        same_verdict(converted, second::to_full(&file, &mut other), &about);
        assert!(proved.is_untouched() && other.is_untouched(), "{about}");
    }
}

/// Each bit of a file changed. The 30 of an element in one word make another small one, and
/// a bit of three words may make another that is large.
#[test]
fn every_bit() {
    for seed in seeds("short files, every bit") {
        for day in days(seed, &[1, 2]) {
            let honest = day.file();
            let mut accepted = 0;
            for bit in 0..8 * honest.len() {
                let about = format!("{}, bit {bit}", day.name);
                let mut file = honest.clone();
                file[bit / 8] ^= 1 << (bit % 8);
                if let Ok(elements) = read_into(&file, tap_words(day.k), &about) {
                    assert_ne!(elements, day.elements, "{about}");
                    accepted += 1;
                }
            }
            let small = |&&element: &&u64| element < 1 << 30;
            let small = day.elements.iter().filter(small).count();
            assert!(accepted >= 30 * small, "{}: {accepted}", day.name);
            assert!(accepted < 8 * honest.len(), "{}: {accepted}", day.name);
        }
    }
}

/// Each word left out, and each written twice. That is never accepted, since an element
/// has one word or three.
#[test]
fn words_left_out_and_twice() {
    for seed in seeds("short files, words left out and twice") {
        for day in days(seed, &[1, 2]) {
            for word in 1..day.words.len() {
                let about = format!("{}, word {word}", day.name);
                let mut out = day.words.clone();
                out.remove(word);
                let mut twice = day.words.clone();
                twice.insert(word, day.words[word]);
                for words in [out, twice] {
                    let file = inputs::files::bytes(&words);
                    assert!(read(&file, &about).is_err(), "{about}");
                }
            }
        }
    }
}

/// Each two words changed about: refused, or the file of another day.
#[test]
fn words_changed_about() {
    for seed in seeds("short files, words changed about") {
        for day in days(seed, &[1]) {
            for word in 1..day.words.len() {
                for other in 1..word {
                    let about = format!("{}, words {other} and {word}", day.name);
                    let mut words = day.words.clone();
                    words.swap(other, word);
                    let answer = read(&inputs::files::bytes(&words), &about);
                    let same = words == day.words;
                    assert_eq!(answer == Ok(day.elements.clone()), same, "{about}");
                }
            }
        }
    }
}

/// A tap list of every length up to that of eight batches.
#[test]
fn every_length_of_list() {
    for seed in seeds("short files, every length of list") {
        let elements = any_widths(&mut Random::new(seed), 8);
        for count in 0..=100 {
            let about = format!("seed {seed}: {count} tap words");
            let packed = written(&elements[..4 + count], &about);
            let refused = match count {
                16 | 28 | 52 | 100 => None,
                _ => Some(Refusal::TapLength),
            };
            assert_eq!(packed.err(), refused, "{about}");
        }
    }
}

/// Each answer has come many times, so that all of them were compared.
#[test]
fn random_bytes() {
    for seed in seeds("short files, random bytes") {
        let mut random = Random::new(seed);
        let mut seen = BTreeMap::new();
        for number in 0..40_000 {
            let k = random.pick(&[1, 1, 2, 4]);
            let file = any_file(&mut random, Edition::Short, number, k);
            let about = format!("seed {seed}: file {number}");
            let answer = match random.one_in(20) {
                true => read_into(&file, tap_words(k) + 1, &about),
                false => read(&file, &about),
            };
            let answer = answer.map_or_else(Refusal::number, |_| 0);
            *seen.entry(answer).or_insert(0) += 1;
        }
        let numbers: Vec<u64> = seen.keys().copied().collect();
        assert_eq!(numbers, [0, 8, 12, 13, 14, 18], "seed {seed}: {seen:?}");
        assert!(seen.values().all(|&count| count >= 200), "{seen:?}");
    }
}
