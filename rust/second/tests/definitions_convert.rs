//! The converters against document 02: what is done to the words, and what the readers
//! say of the same file.

mod common;
use common::files::*;
use common::*;
use second::{to_full, to_short, unpack, unpack_short, Refusal};

/// Days of every k of the full edition: both converters against what is done to the
/// words.
#[test]
fn conversions_on_words() {
    let mut random = Random(24);
    for k in IN_FULL {
        for _ in 0..4 {
            let (taps, claim) = day_of_any_widths(&mut random, k);
            let elements = claim.iter().chain(&taps);
            let mut words = vec![k as u64];
            words.extend(elements.flat_map(|&element| three_words(element)));
            let full = low_byte_first(&words);
            let short = less_empty_words(&full);
            let there = converted(to_short, &full, short.len());
            assert_eq!(there, Ok(short.clone()), "k = {k}");
            let back = converted(to_full, &short, full.len());
            assert_eq!(back, Ok(with_empty_words(&short)), "k = {k}");
        }
    }
}

/// "Same claim, same taps, other edition, and there and back gives the starting bytes."
/// A larger short file has no full form.
#[test]
fn conversions_there_and_back() {
    let mut random = Random(25);
    for k in IN_FULL {
        let (taps, claim) = day_of_any_widths(&mut random, k);
        let (full, short) = (full_file(&taps, claim), short_file(&taps, claim));
        let mut read = vec![7; 12 * k + 4];

        let there = converted(to_short, &full, short.len()).expect("converts");
        assert_eq!(unpack_short(&there, &mut read), Ok(claim), "k = {k}");
        assert_eq!(read, taps, "k = {k}");
        assert_eq!(there, short, "k = {k}");
        let back = converted(to_full, &there, full.len());
        assert_eq!(back, Ok(full.clone()), "k = {k}");

        read.fill(7);
        let there = converted(to_full, &short, full.len()).expect("converts");
        assert_eq!(unpack(&there, &mut read), Ok(claim), "k = {k}");
        assert_eq!(read, taps, "k = {k}");
        assert_eq!(there, full, "k = {k}");
        let back = converted(to_short, &there, short.len());
        assert_eq!(back, Ok(short), "k = {k}");
    }
}

/// Of all lengths up to the full file's and beyond, each converter takes one: that of
/// the other edition's file of the same day, however long its own input is.
#[test]
fn lengths_of_conversions() {
    let mut random = Random(26);
    for small in 0..=20 {
        let mut elements = vec![(1 << 30) - 1; small];
        elements.resize(20, 1 << 30);
        elements.rotate_left(random.word() as usize % 20);
        let claim = elements[..4].try_into().expect("four words");
        let full = full_file(&elements[4..], claim);
        let short = less_empty_words(&full);
        let taken = |convert: Converter, file: &[u8]| -> Vec<usize> {
            let accepted = |&length: &usize| converted(convert, file, length).is_ok();
            (0..=300).filter(accepted).collect()
        };
        assert_eq!(taken(to_short, &full), [244 - 8 * small], "{elements:x?}");
        assert_eq!(taken(to_full, &short), [244], "{elements:x?}");
    }
}

/// The full reader's refusal, or the short file of what it reads.
fn short_by_reader(file: &[u8]) -> Result<Vec<u8>, Refusal> {
    let mut taps = room_for_taps(file);
    let claim = unpack(file, &mut taps)?;
    Ok(short_file(&taps, claim))
}

/// The short reader's refusal, or the full file of what it reads. In between, 14 where
/// word 0 is in order and has more batches than any full file.
fn full_by_reader(short_file: &[u8]) -> Result<Vec<u8>, Refusal> {
    let larger = |head: &[u8]| LARGER.iter().any(|&k| head == short_head(k));
    if short_file.get(..4).is_some_and(larger) {
        return Err(Refusal::Value { word: 0 });
    }
    let mut taps = room_for_taps(short_file);
    let claim = unpack_short(short_file, &mut taps)?;
    Ok(full_file(&taps, claim))
}

/// A converter with what must come of each file, in the order of `both_editions`.
const CONVERTERS: [(Converter, Expected); 2] =
    [(to_short, short_by_reader), (to_full, full_by_reader)];
type Expected = fn(&[u8]) -> Result<Vec<u8>, Refusal>;

/// The converter answers so. Where it accepts, it says 8 to any other length, and where
/// it does not, the length makes no difference.
fn answers(convert: Converter, file: &[u8], expected: &Result<Vec<u8>, Refusal>) {
    let length = expected.as_ref().map_or(file.len(), Vec::len);
    assert_eq!(converted(convert, file, length), *expected, "{file:x?}");
    let refusal = match expected {
        Ok(_) => Refusal::DestinationLength,
        Err(refusal) => *refusal,
    };
    for other in [0, length.saturating_sub(1), length + 1, 2 * length + 4] {
        if other != length {
            let answer = converted(convert, file, other);
            assert_eq!(answer, Err(refusal), "{file:x?}");
        }
    }
}

/// Honest files with each bit changed: the reader's answer, but for bit 29 of word 0.
/// There the reader says 14 and the converter 19.
#[test]
fn conversions_with_each_bit_changed() {
    let mut random = Random(27);
    for (file, (convert, expected)) in both_editions(&mut random, 1).iter().zip(CONVERTERS) {
        let mut accepted = 0;
        for (bit, other) in changed_bits(file).enumerate() {
            let mut answer = expected(&other);
            if bit == 29 {
                assert_eq!(answer, Err(Refusal::Value { word: 0 }));
                answer = Err(Refusal::SameEdition);
            }
            answers(convert, &other, &answer);
            accepted += usize::from(answer.is_ok());
        }
        // The low 30 bits of each element; those of p - 1 make p or more of it.
        assert!(accepted >= 19 * 30, "{accepted}");
    }
}

/// Honest files cut at every byte, with bytes after the last, with each word left out,
/// and with each word twice: the reader's answer. Where word 0 is left out, the first
/// element's stands there, which has another kind.
#[test]
fn conversions_of_other_lengths() {
    let mut random = Random(28);
    for (file, (convert, expected)) in both_editions(&mut random, 2).iter().zip(CONVERTERS) {
        let mut others = changed_words(file);
        others.extend((0..file.len()).map(|length| file[..length].to_vec()));
        others.extend((1..=16).map(|more| [&file[..], &vec![0xC0; more]].concat()));
        for other in others {
            let answer = expected(&other);
            assert!(answer.is_err(), "{other:x?}");
            answers(convert, &other, &answer);
        }
    }
}

/// Files damaged at random: 19 where word 0 is of kind 0 and has, or lacks, the mark,
/// else the reader's answer. Every answer comes up.
#[test]
fn conversions_of_damaged_files() {
    let mut random = Random(29);
    let wanted = [1, 0]; // bits 29 to 31 of a word 0 of the wanted edition
    for (number, (convert, expected)) in CONVERTERS.into_iter().enumerate() {
        let mut seen = vec![];
        for case in 0..6000 {
            let [full, short] = both_editions(&mut random, 1 << (case % 3));
            let mut file = if number == 0 { full } else { short };
            if case % 16 == 0 {
                let larger = short_head(LARGER[case / 16 % LARGER.len()]);
                file.splice(..4, larger).for_each(drop);
            }
            for _ in 0..case % 4 {
                damage(&mut random, &mut file);
            }
            let answer = match file.get(3) {
                Some(byte) if byte >> 5 == wanted[number] => Err(Refusal::SameEdition),
                _ => expected(&file),
            };
            answers(convert, &file, &answer);
            seen.push(answer.map_or_else(Refusal::number, |_| 0));
        }
        seen.sort();
        seen.dedup();
        let every: &[u64] = match number {
            0 => &[0, 12, 13, 14, 19],
            _ => &[0, 12, 13, 14, 18, 19],
        };
        assert_eq!(seen, every);
    }
}
