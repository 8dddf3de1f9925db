//! The order of the refusals (document 01, "What is turned back"; document 02)
//! of the converters.
//! Each test lends a call with everything wrong at once and mends one thing after
//! the other, in the order of the documents; at each step the next refusal
//! appears, and nothing that is lent changes.

mod common;
use common::faults::*;
use common::*;
use second::field::P;
use second::{pack, pack_short, to_full, to_short, Refusal};

#[test]
fn to_short_12_13_19_14_12_then_each_element_8() {
    // Everything wrong from word 0 on, a file that is too long, and a byte too little room.
    let mut words = vec![0x60010003];
    words.extend([0; 61]);
    let run = |words: &[u32]| converted(to_short, &bytes(words), 163);
    let cut = bytes(&words)[..3].to_vec();
    assert_eq!(converted(to_short, &cut, 163), Err(Refusal::FileLength));
    assert_eq!(run(&words), Err(Refusal::Kind { word: 0 }));
    words[0] = 0x20010003;
    assert_eq!(run(&words), Err(Refusal::SameEdition));
    // A spare bit and a k that is not permitted, then each of them.
    for head in [0x00010003, 0x00010001, 0x00000003] {
        words[0] = head;
        assert_eq!(run(&words), Err(Refusal::Value { word: 0 }));
    }
    words[0] = 0x00000001;
    assert_eq!(run(&words), Err(Refusal::FileLength));
    words.pop();
    let mut short = vec![0x20000001];
    for element in 0..20 {
        let first = 1 + 3 * element;
        // Once the kinds are right, its value will be 2^64 + 5.
        let parts = [0x40000010, 0x80000000, 0xC0000005];
        for (place, part) in parts.into_iter().enumerate() {
            let word = (first + place) as u64;
            assert_eq!(run(&words), Err(Refusal::Kind { word }));
            words[first + place] = part;
        }
        let word = first as u64;
        assert_eq!(run(&words), Err(Refusal::Value { word }));
        // Then 5 and p - 1, in turn.
        if element % 2 == 0 {
            words[first] = 0x40000000;
            short.push(0xC0000005);
        } else {
            let largest = [0x40000002, 0x80000050, 0xC0000000];
            words[first..first + 3].copy_from_slice(&largest);
            short.extend(largest);
        }
    }
    assert_eq!(run(&words), Err(Refusal::DestinationLength));
    let answer = converted(to_short, &bytes(&words), 164);
    assert_eq!(answer, Ok(bytes(&short)));
}

#[test]
fn to_full_12_13_19_14_then_each_element_12_8() {
    // Everything wrong from word 0 on, more words than any short file has, and a byte too
    // little room.
    let mut words = vec![0x40100003];
    words.extend([0; 99]);
    let run = |words: &[u32]| converted(to_full, &bytes(words), 243);
    let cut = bytes(&words)[..3].to_vec();
    assert_eq!(converted(to_full, &cut, 243), Err(Refusal::FileLength));
    assert_eq!(run(&words), Err(Refusal::Kind { word: 0 }));
    words[0] = 0x00100003;
    assert_eq!(run(&words), Err(Refusal::SameEdition));
    // A spare bit and a k that is not permitted, each of them, then a k that a full file
    // can't have.
    for head in [0x20100003, 0x20100001, 0x20000003, 0x20000800, 0x20040000] {
        words[0] = head;
        assert_eq!(run(&words), Err(Refusal::Value { word: 0 }));
    }
    words[0] = 0x20000001;
    let mut full = vec![0x00000001];
    let mut first = 1;
    for element in 0..20 {
        let parts = [0x40000010, 0x80000000, 0xC0000005];
        for (place, part) in parts.into_iter().enumerate() {
            let at = first + place;
            let word = at as u64;
            assert_eq!(run(&words[..at]), Err(Refusal::FileLength));
            assert_eq!(run(&words[..at + 1]), Err(Refusal::Kind { word }));
            assert_eq!(run(&words), Err(Refusal::Kind { word }));
            words[at] = part;
        }
        let word = first as u64;
        assert_eq!(run(&words), Err(Refusal::Value { word }));
        words[first] = 0x40000000; // 5, in three words
        assert_eq!(run(&words), Err(Refusal::LongElement { word }));
        // Then 5 in one word and p - 1 in three, in turn.
        if element % 2 == 0 {
            full.extend(words.drain(first..first + 2));
            full.push(0xC0000005);
            first += 1;
        } else {
            let largest = [0x40000002, 0x80000050, 0xC0000000];
            words[first..first + 3].copy_from_slice(&largest);
            full.extend(largest);
            first += 3;
        }
    }
    assert_eq!(run(&words), Err(Refusal::FileLength));
    words.truncate(first);
    assert_eq!(run(&words), Err(Refusal::DestinationLength));
    let answer = converted(to_full, &bytes(&words), 244);
    assert_eq!(answer, Ok(bytes(&full)));
}

/// Word 0 with some of its faults; the edition is changed for the other.
fn spoil_word_0(words: &mut [u32], wrong_kind: bool, wanted_edition: bool, spare_bit: bool) {
    words[0] ^= 0x20000000 * u32::from(wanted_edition);
    words[0] += 0x10000000 * u32::from(spare_bit);
    words[0] += 0x80000000 * u32::from(wrong_kind);
}

/// Each choice of the nine faults: the first in the order is answered. p - 1 begins at
/// word 1, 2^30 at word 4, and 5 at word 7; 13 is at the second word of the first or at
/// the third of the last.
#[test]
fn to_short_with_faults_together() {
    let order = [
        Refusal::FileLength,
        Refusal::Kind { word: 0 },
        Refusal::SameEdition,
        Refusal::Value { word: 0 },
        Refusal::FileLength,
        Refusal::Kind { word: 2 },
        Refusal::Value { word: 4 },
        Refusal::Kind { word: 9 },
        Refusal::DestinationLength,
    ];
    let mut short = vec![0x20000001, 0x40000002, 0x80000050, 0xC0000000];
    short.extend([0x40000000, 0x80000001, 0xC0000000, 0xC0000005]);
    short.extend([0xC0000000; 17]);
    for choice in 0..1 << order.len() {
        let has = |fault: usize| choice >> fault & 1 == 1;
        let mut words = zero_words();
        words[1..4].copy_from_slice(&[0x40000002, 0x80000050, 0xC0000000]);
        words[5] = 0x80000001;
        words[9] = 0xC0000005;
        if has(7) {
            words[9] = 0x40000005;
        }
        if has(6) {
            words[4] = 0x40000010; // 2^64 + 2^30
        }
        if has(5) {
            words[2] = 0xC0000050;
        }
        spoil_word_0(&mut words, has(1), has(2), has(3));
        let first = (0..order.len()).find(|&fault| has(fault));
        let expected = first.map_or(Ok(bytes(&short)), |fault| Err(order[fault]));
        for file in with_ends(&words, has(4), has(0)) {
            for length in rooms(100, has(8)) {
                let answer = converted(to_short, &file, length);
                assert_eq!(answer, expected, "{choice:09b}");
            }
        }
    }
}

/// The same for a short file, with ten. Here the end comes after the elements; the second
/// 14 of word 0 is for more than 1024 batches.
#[test]
fn to_full_with_faults_together() {
    let order = [
        Refusal::FileLength,
        Refusal::Kind { word: 0 },
        Refusal::SameEdition,
        Refusal::Value { word: 0 },
        Refusal::Value { word: 0 },
        Refusal::Kind { word: 2 },
        Refusal::Value { word: 4 },
        Refusal::LongElement { word: 7 },
        Refusal::FileLength,
        Refusal::DestinationLength,
    ];
    let mut full = zero_words();
    full[1..4].copy_from_slice(&[0x40000002, 0x80000050, 0xC0000000]);
    full[5] = 0x80000001;
    full[9] = 0xC0000005;
    for choice in 0..1 << order.len() {
        let has = |fault: usize| choice >> fault & 1 == 1;
        let head = if has(4) { 0x20000800 } else { 0x20000001 };
        let mut words = vec![head, 0x40000002, 0x80000050, 0xC0000000];
        words.extend([0x40000000, 0x80000001, 0xC0000000]);
        if has(7) {
            words.extend([0x40000000, 0x80000000]);
        }
        words.push(0xC0000005);
        words.extend([0xC0000000; 17]);
        if has(6) {
            words[4] = 0x40000010;
        }
        if has(5) {
            words[2] = 0xC0000050;
        }
        spoil_word_0(&mut words, has(1), has(2), has(3));
        let first = (0..order.len()).find(|&fault| has(fault));
        let expected = first.map_or(Ok(bytes(&full)), |fault| Err(order[fault]));
        for file in with_ends(&words, has(8), has(0)) {
            for length in rooms(244, has(9)) {
                let answer = converted(to_full, &file, length);
                assert_eq!(answer, expected, "{choice:010b}");
            }
        }
    }
}

/// 14 at word 0 for each k that a full file can't have, whatever comes after word 0 and
/// whatever the room: nothing, each fault of element 0 or of the last, whole elements, and
/// more of them. 13 and 19 come before it.
#[test]
fn larger_files_to_convert() {
    let faults = [
        vec![],
        vec![0xC0000000],
        vec![0x00000000],
        vec![0x80000000],
        vec![0x40000002],
        vec![0x40000002, 0x40000050],
        vec![0x40000002, 0x80000050, 0xC0000001],
        vec![0x40000000, 0x80000000, 0xC0000005],
        vec![0xC0000000; 20],
        vec![0xC0000000; 21],
        [&[0xC0000000; 19][..], &[0x80000000]].concat(),
        [&[0xC0000000; 19][..], &[0x40000010, 0x80000000, 0xC0000005]].concat(),
        [&[0xC0000000; 19][..], &[0x40000000, 0x80000000, 0xC0000005]].concat(),
    ];
    for k in LARGER {
        for elements in &faults {
            let mut file = bytes(&[&[0x20000000 + k as u32], &elements[..]].concat());
            for more in 0..4 {
                for room in [0, 84, 243, 244, 245] {
                    let answer = converted(to_full, &file, room);
                    assert_eq!(answer, Err(Refusal::Value { word: 0 }), "{k}, {more}");
                    let answer = converted(to_short, &file, room);
                    assert_eq!(answer, Err(Refusal::SameEdition), "{k}, {more}");
                }
                file.push(0);
            }
            for (byte, refusal) in [
                (0x00, Refusal::SameEdition),
                (0x40, Refusal::Kind { word: 0 }),
                (0x60, Refusal::Kind { word: 0 }),
                (0xE0, Refusal::Kind { word: 0 }),
            ] {
                file[3] = byte;
                assert_eq!(converted(to_full, &file, 244), Err(refusal), "{k}");
            }
        }
    }
}

/// The file of these words, or those that end elsewhere, or those that end in word 0.
fn with_ends(words: &[u32], elsewhere: bool, in_word_0: bool) -> Vec<Vec<u8>> {
    let file = bytes(words);
    if in_word_0 {
        return (0..4).map(|length| file[..length].to_vec()).collect();
    }
    if !elsewhere {
        return vec![file];
    }
    let (last, before) = (file.len() - 1, file.len() - 4);
    vec![
        file[..last].to_vec(),
        file[..before].to_vec(),
        [&file[..], &[0]].concat(),
        [&file[..], &file[before..]].concat(),
    ]
}

/// The exact length, or others.
fn rooms(exact: usize, other: bool) -> Vec<usize> {
    match other {
        true => vec![0, exact - 4, exact - 1, exact + 1, exact + 4],
        false => vec![exact],
    }
}

/// The full file's end is looked at before its elements, the short one's after them; with
/// nothing else wrong, both say 12, and never 8.
#[test]
fn files_to_convert_cut_at_every_byte() {
    let mut full = zero_file();
    let mut short = bytes(&both_widths());
    let refused = Err(Refusal::FileLength);
    for room in [0, 84, 164, 244] {
        for length in 0..244 {
            let answer = converted(to_short, &full[..length], room);
            assert_eq!(answer, refused, "{length}");
        }
        for length in 0..164 {
            let answer = converted(to_full, &short[..length], room);
            assert_eq!(answer, refused, "{length}");
        }
    }
    for more in 1..=12 {
        full.push(0xC0);
        assert_eq!(converted(to_short, &full, 84), refused, "{more}");
        short.push(0xC0);
        assert_eq!(converted(to_full, &short, 244), refused, "{more}");
    }
}

/// A full file whose every element is wrong, at every length but its own.
#[test]
fn the_length_of_a_full_file_before_its_elements() {
    let mut words = vec![0x00000001];
    words.extend([0; 70]);
    let file = bytes(&words);
    for length in 4..=file.len() {
        let refusal = match length {
            244 => Refusal::Kind { word: 1 },
            _ => Refusal::FileLength,
        };
        let answer = converted(to_short, &file[..length], 84);
        assert_eq!(answer, Err(refusal), "{length}");
    }
}

/// Every value of either half of word 0, in files of this word alone: where nothing is
/// wrong with it, there are no elements. Both converters have k up to 1024, the one by its
/// reader and the other by what it writes.
#[test]
fn word_0_of_a_file_to_convert() {
    let halves = 0..=0xFFFF;
    let heads =
        halves.flat_map(|half: u32| [half, 0x20000000 + half, half << 16, 1 + (half << 16)]);
    for head in heads {
        let marked = head & 0x20000000 != 0;
        let k = head & 0x1FFFFFFF;
        let is_k = IN_FULL.contains(&(k as usize));
        let refused = |wanted: bool| match head >> 30 {
            0 if marked == wanted => Refusal::SameEdition,
            0 if !is_k => Refusal::Value { word: 0 },
            0 => Refusal::FileLength,
            _ => Refusal::Kind { word: 0 },
        };
        let file = head.to_le_bytes();
        let answer = converted(to_short, &file, 4);
        assert_eq!(answer, Err(refused(true)), "{head:08x}");
        let answer = converted(to_full, &file, 4);
        assert_eq!(answer, Err(refused(false)), "{head:08x}");
    }
}

/// Files of every k of the full edition: zeros, and p - 1 as the last tap's last word.
#[test]
fn destinations_of_the_converters() {
    for k in IN_FULL {
        let mut taps = vec![0; 12 * k + 4];
        taps[12 * k + 3] = P - 1;
        let mut full_file = vec![7; 144 * k + 100];
        let mut short_file = vec![7; 48 * k + 44];
        pack(&taps, [0; 4], &mut full_file).expect("packs");
        pack_short(&taps, [0; 4], &mut short_file).expect("packs");
        let conversions: [(Converter, _, _); 2] = [
            (to_short, &full_file, &short_file),
            (to_full, &short_file, &full_file),
        ];
        for (convert, file, other) in conversions {
            let exact = other.len();
            let near = [exact - 8, exact - 1, exact + 1, exact + 8];
            // Among them the length of the input, and those of the taps.
            let far = [0, 2 * exact, file.len(), 12 * k + 4, 96 * k + 32];
            for length in near.into_iter().chain(far) {
                let refused = Err(Refusal::DestinationLength);
                assert_eq!(converted(convert, file, length), refused, "{length}");
            }
            assert_eq!(converted(convert, file, exact), Ok(other.clone()), "{k}");
        }
    }
}
