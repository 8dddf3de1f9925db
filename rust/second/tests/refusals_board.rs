//! The order of the refusals (document 01, "What is turned back"; document 02)
//! of Pack and Unpack in both editions.
//! Each test lends a call with everything wrong at once and mends one thing after
//! the other, in the order of the documents; at each step the next refusal
//! appears, and nothing that is lent changes.

mod common;
use common::faults::*;
use common::*;
use second::field::P;
use second::{pack, pack_short, to_full, to_short, unpack, unpack_short, Refusal};

#[test]
fn pack_5_8_9_6() {
    let mut bad_word = vec![0; 16];
    bad_word[3] = P;
    let steps = [
        (vec![P; 15], [P; 4], 243, Err(Refusal::TapLength)),
        (
            bad_word.clone(),
            [0, 0, P, P],
            243,
            Err(Refusal::DestinationLength),
        ),
        (bad_word.clone(), [0, 0, P, P], 244, Err(CLAIM_WORD)),
        (bad_word, [0; 4], 244, Err(Refusal::TapWord { index: 3 })),
        (vec![0; 16], [0; 4], 244, Ok(())),
    ];
    for (taps, claim, bytes, expected) in steps {
        let mut destination = vec![7; bytes];
        assert_eq!(pack(&taps, claim, &mut destination), expected);
        let untouched = destination == vec![7; bytes];
        assert_eq!(untouched, expected.is_err());
    }
}

#[test]
fn unpack_12_13_14_12_8_then_each_element() {
    // Everything wrong from word 0 on, and a file that is too long.
    let mut words = vec![0x40010003];
    words.extend([0; 61]);
    let run = |words: &[u32], destination: usize| {
        let mut taps = vec![7; destination];
        let answer = unpack(&bytes(words), &mut taps);
        let untouched = taps == vec![7; destination];
        assert_eq!(untouched, answer.is_err());
        answer
    };
    let short = bytes(&words)[..3].to_vec();
    assert_eq!(unpack(&short, &mut [7; 15]), Err(Refusal::FileLength));
    assert_eq!(run(&words, 15), Err(Refusal::Kind { word: 0 }));
    words[0] = 0x00010001; // the right kind and k, a spare bit
    assert_eq!(run(&words, 15), Err(Refusal::Value { word: 0 }));
    words[0] = 3; // k not permitted
    assert_eq!(run(&words, 15), Err(Refusal::Value { word: 0 }));
    words[0] = 1;
    assert_eq!(run(&words, 15), Err(Refusal::FileLength));
    words.pop();
    assert_eq!(run(&words, 15), Err(Refusal::DestinationLength));
    for element in 0..20 {
        let first = 1 + 3 * element;
        // Its value will be p once the kinds are right.
        let parts = [0x40000000 + 2, 0x80000000 + 80, 0xC0000000 + 1];
        for (place, part) in parts.into_iter().enumerate() {
            let word = (first + place) as u64;
            assert_eq!(run(&words, 16), Err(Refusal::Kind { word }));
            words[first + place] = part;
        }
        let word = first as u64;
        assert_eq!(run(&words, 16), Err(Refusal::Value { word }));
        words[first + 2] -= 1; // p - 1
    }
    assert_eq!(run(&words, 16), Ok([P - 1; 4]));
}

#[test]
fn elements_of_64_bits_and_more() {
    let file = |high: u32| {
        let mut words: Vec<u32> = vec![1];
        for _ in 0..20 {
            words.extend([0x40000000, 0x80000000, 0xC0000000]);
        }
        words[58] += high;
        bytes(&words)
    };
    let unpacked = |high| unpack(&file(high), &mut [7; 16]);
    for high in [0, 1, 2] {
        // 2 x 2^60 is still below p
        assert_eq!(unpacked(high), Ok([0; 4]), "{high}");
    }
    for high in [3, 4, 8, 15, 16, 17, 32, 1 << 20, (1 << 30) - 1] {
        // 4 x 2^60 = 2^62; 16 x 2^60 = 2^64 is no word any more
        assert_eq!(unpacked(high), Err(Refusal::Value { word: 58 }), "{high}");
    }
}

/// A zero needs 4 bytes and p 12: 84 for twenty zeros, 8 more for each p.
#[test]
fn pack_short_5_8_9_6() {
    let mut bad_word = vec![0; 16];
    bad_word[3] = P;
    let bad_claim = [0, 0, P, P];
    let tap_word = Err(Refusal::TapWord { index: 3 });
    let no_room = Err(Refusal::DestinationLength);
    let steps = [
        (vec![P; 15], [P; 4], 83, Err(Refusal::TapLength)),
        (bad_word.clone(), bad_claim, 84, no_room),
        (bad_word.clone(), bad_claim, 108, Err(CLAIM_WORD)),
        (bad_word.clone(), [0; 4], 108, no_room),
        (bad_word, [0; 4], 92, tap_word),
        (vec![0; 16], [0; 4], 92, no_room),
        (vec![0; 16], [0; 4], 84, Ok(())),
    ];
    for (taps, claim, bytes, expected) in steps {
        let mut destination = vec![7; bytes];
        assert_eq!(pack_short(&taps, claim, &mut destination), expected);
        let untouched = destination == vec![7; bytes];
        assert_eq!(untouched, expected.is_err());
    }
}

/// Each choice of the four faults: the first in the order is answered.
#[test]
fn pack_short_with_faults_together() {
    let order = [
        Refusal::TapLength,
        Refusal::DestinationLength,
        CLAIM_WORD,
        Refusal::TapWord { index: 3 },
    ];
    for choice in 0..1 << 4 {
        let has = |fault: usize| choice >> fault & 1 == 1;
        let (mut taps, mut claim, mut length) = (vec![0; 16], [0; 4], 84);
        if has(3) {
            taps[3] = P;
            length += 8;
        }
        if has(2) {
            claim[2] = P;
            length += 8;
        }
        if has(1) {
            length -= 4;
        }
        if has(0) {
            taps.push(0);
        }
        let mut destination = vec![7; length];
        let answer = pack_short(&taps, claim, &mut destination);
        let first = (0..4).find(|&fault| has(fault));
        let expected = first.map_or(Ok(()), |fault| Err(order[fault]));
        assert_eq!(answer, expected, "{choice:04b}");
        let untouched = destination == vec![7; length];
        assert_eq!(untouched, expected.is_err(), "{choice:04b}");
    }
}

/// Unpack in the short edition; a refused call writes nothing.
fn read_short(file: &[u8], destination: usize) -> Result<[u64; 4], Refusal> {
    let mut taps = vec![7; destination];
    let answer = unpack_short(file, &mut taps);
    let untouched = taps == vec![7; destination];
    assert_eq!(untouched, answer.is_err());
    answer
}

#[test]
fn unpack_short_12_13_14_8_then_each_element() {
    // Everything wrong from word 0 on, and more words than any short file has.
    let mut words = vec![0x40100003];
    words.extend([0; 99]);
    let run = |words: &[u32], destination: usize| read_short(&bytes(words), destination);
    let cut = bytes(&words)[..3].to_vec();
    assert_eq!(read_short(&cut, 15), Err(Refusal::FileLength));
    assert_eq!(run(&words, 15), Err(Refusal::Kind { word: 0 }));
    // No mark, then a spare bit, then a k that is not permitted: 3, 65537, 2^19.
    for head in [0x00000001, 0x20100001, 0x20000003, 0x20010001, 0x20080000] {
        words[0] = head;
        assert_eq!(run(&words, 15), Err(Refusal::Value { word: 0 }));
    }
    words[0] = 0x20000001;
    assert_eq!(run(&words, 15), Err(Refusal::DestinationLength));
    let mut first = 1;
    for element in 0..20 {
        // Once the kinds are right, its value will be 2^64 + 5.
        let parts = [0x40000010, 0x80000000, 0xC0000005];
        for (place, part) in parts.into_iter().enumerate() {
            let at = first + place;
            let word = at as u64;
            assert_eq!(run(&words[..at], 16), Err(Refusal::FileLength));
            assert_eq!(run(&words[..at + 1], 16), Err(Refusal::Kind { word }));
            assert_eq!(run(&words, 16), Err(Refusal::Kind { word }));
            words[at] = part;
        }
        let word = first as u64;
        assert_eq!(run(&words, 16), Err(Refusal::Value { word }));
        words[first] = 0x40000000; // 5, in three words
        assert_eq!(run(&words, 16), Err(Refusal::LongElement { word }));
        // Then 5 in one word and p - 1 in three, in turn.
        if element % 2 == 0 {
            words.drain(first..first + 2);
            first += 1;
        } else {
            words[first..first + 3].copy_from_slice(&[0x40000002, 0x80000050, 0xC0000000]);
            first += 3;
        }
    }
    assert_eq!(run(&words, 16), Err(Refusal::FileLength));
    assert_eq!(run(&words[..first], 16), Ok([5, P - 1, 5, P - 1]));
}

/// Below 4 bytes 12 comes before 8, from there on after it.
#[test]
fn short_files_cut_at_every_byte() {
    let file = bytes(&both_widths());
    assert_eq!(file.len(), 164);
    assert_eq!(read_short(&file, 16), Ok([0, P - 1, 0, P - 1]));
    for length in 0..164 {
        let cut = &file[..length];
        assert_eq!(read_short(cut, 16), Err(Refusal::FileLength), "{length}");
        let refusal = match length {
            0..=3 => Refusal::FileLength,
            _ => Refusal::DestinationLength,
        };
        assert_eq!(read_short(cut, 15), Err(refusal), "{length}");
    }
}

/// A fault is named when the words that show it are there, and 12 comes before it where
/// the last of them is not whole: for 13 the word itself, for 14 and 18 all three.
#[test]
fn short_files_cut_where_a_fault_is() {
    for word in 1..41 {
        let mut words = both_widths();
        words[word] &= 0x3FFFFFFF; // kind 0
        cut_around(&words, 4 * word + 4, Refusal::Kind { word: word as u64 });
        if word % 4 == 2 {
            // p - 1 comes to p, or to 2^30 - 1.
            let mut words = both_widths();
            words[word + 2] += 1;
            let refusal = Refusal::Value { word: word as u64 };
            cut_around(&words, 4 * word + 12, refusal);
            words[word..word + 3].copy_from_slice(&[0x40000000, 0x80000000, 0xFFFFFFFF]);
            let refusal = Refusal::LongElement { word: word as u64 };
            cut_around(&words, 4 * word + 12, refusal);
        }
    }
}

/// 12 up to where the fault can be seen, then the fault, also in the whole file and in
/// one with bytes after the last element.
fn cut_around(words: &[u32], seen_from: usize, refusal: Refusal) {
    let mut file = bytes(words);
    for length in 4..seen_from {
        reader_and_converter_refuse(&file[..length], Refusal::FileLength);
    }
    for length in seen_from..=file.len() {
        reader_and_converter_refuse(&file[..length], refusal);
    }
    file.push(0);
    reader_and_converter_refuse(&file, refusal);
}

/// After word 0, what the reader says where there is room, the converter says in any
/// case.
fn reader_and_converter_refuse(short_file: &[u8], refusal: Refusal) {
    let length = short_file.len();
    assert_eq!(read_short(short_file, 16), Err(refusal), "{length}");
    for room in [0, 243, 244] {
        let answer = converted(to_full, short_file, room);
        assert_eq!(answer, Err(refusal), "{length}");
    }
}

/// Whatever the bytes are, words that would be elements included.
#[test]
fn bytes_after_a_short_file() {
    for words in [short_zero_words(), both_widths()] {
        let honest = bytes(&words);
        for more in 1..=12 {
            for byte in [0, 0x40, 0xC0, 0xFF] {
                let mut file = honest.clone();
                file.resize(honest.len() + more, byte);
                let refused = Err(Refusal::FileLength);
                assert_eq!(read_short(&file, 16), refused, "{more}");
            }
        }
        // An element more, as the first tap of another batch would be.
        for element in [&[0xC0000000][..], &[0x40000002, 0x80000050, 0xC0000000]] {
            let file = bytes(&[&words, element].concat());
            assert_eq!(read_short(&file, 16), Err(Refusal::FileLength));
        }
    }
}

/// Each choice of the eight faults: the first in the order is answered. p - 1 begins at
/// word 1, 2^30 at word 4, and 5 at word 7.
#[test]
fn unpack_short_with_faults_together() {
    let order = [
        Refusal::FileLength,
        Refusal::Kind { word: 0 },
        Refusal::Value { word: 0 },
        Refusal::DestinationLength,
        Refusal::Kind { word: 2 },
        Refusal::Value { word: 4 },
        Refusal::LongElement { word: 7 },
        Refusal::FileLength,
    ];
    for choice in 0..1 << order.len() {
        let has = |fault: usize| choice >> fault & 1 == 1;
        let mut words = vec![0x20000001, 0x40000002, 0x80000050, 0xC0000000];
        words.extend([0x40000000, 0x80000001, 0xC0000000]);
        if has(6) {
            words.extend([0x40000000, 0x80000000]);
        }
        words.push(0xC0000005);
        words.extend([0xC0000000; 17]);
        if has(5) {
            words[4] = 0x40000010; // 2^64 + 2^30
        }
        if has(4) {
            words[2] = 0xC0000050;
        }
        if has(2) {
            words[0] = 0x00000001;
        }
        if has(1) {
            words[0] += 0x80000000;
        }
        let mut file = bytes(&words);
        if has(7) {
            file.push(0);
        }
        if has(0) {
            file.truncate(3);
        }
        let first = (0..order.len()).find(|&fault| has(fault));
        let expected = match first {
            Some(fault) => Err(order[fault]),
            None => Ok([P - 1, 1 << 30, 5, 0]),
        };
        let destination = if has(3) { 17 } else { 16 };
        assert_eq!(read_short(&file, destination), expected, "{choice:08b}");
    }
}

/// Bits 30 and 31 are its kind, 29 the mark, 20 to 28 spare (document 02, U9). Where word
/// 0 is right, what comes next is 8: no list has 15 words.
#[test]
fn word_0_of_a_short_file() {
    let refused = |head: u32| {
        let mut words = short_zero_words();
        words[0] = head;
        read_short(&bytes(&words), 15).expect_err("15 words")
    };
    for kind in 1..4 {
        let head = 0x20000001 + kind * 0x40000000;
        assert_eq!(refused(head), Refusal::Kind { word: 0 }, "{head:08x}");
        // A wrong kind comes before a missing mark.
        let head = kind * 0x40000000;
        assert_eq!(refused(head), Refusal::Kind { word: 0 }, "{head:08x}");
    }
    for k in permitted().map(|k| k as u32) {
        let head = 0x20000000 + k;
        assert_eq!(refused(head), Refusal::DestinationLength, "{head:08x}");
        assert_eq!(refused(k), Refusal::Value { word: 0 }, "{k:08x}");
        for bit in 20..29 {
            let head = head + (1 << bit);
            assert_eq!(refused(head), Refusal::Value { word: 0 }, "{head:08x}");
        }
    }
    for k in NOT_PERMITTED {
        let head = 0x20000000 + k as u32;
        assert_eq!(refused(head), Refusal::Value { word: 0 }, "{head:08x}");
    }
}

/// Word 0 alone, with none of its bits 0 to 29 set, each one, and each two, beside the
/// mark and without it. A k is one set bit: 0 to 18 beside the mark, in the full edition 0
/// to 10 without it. What comes next is 8 in the short reader, else 12, since the file
/// ends.
#[test]
fn every_one_and_two_bits_of_word_0() {
    let pairs = (0..30).flat_map(|one| (one..30).map(move |two| 1 << one | 1 << two));
    let heads: Vec<u32> = [0].into_iter().chain(pairs).collect();
    assert_eq!(heads.len(), 1 + 30 + 30 * 29 / 2);
    let marked = heads.iter().map(|head| 0x20000000 | head);
    for head in marked.chain(heads.iter().copied()) {
        word_0_alone(head);
    }
}

/// What the readers and the converters answer to word 0 alone, of kind 0.
fn word_0_alone(head: u32) {
    let is_marked = head & 0x20000000 != 0;
    let count = (head & 0x1FFFFFFF) as usize;
    let is_k = permitted().any(|k| k == count);
    let is_full_k = IN_FULL.contains(&count);
    let (value, ends) = (Refusal::Value { word: 0 }, Refusal::FileLength);
    let same = Refusal::SameEdition;

    let file = head.to_le_bytes();
    let short_reader = match (is_marked, is_k) {
        (true, true) => Refusal::DestinationLength,
        _ => value,
    };
    assert_eq!(read_short(&file, 15), Err(short_reader), "{head:08x}");
    let full_reader = match (is_marked, is_full_k) {
        (false, true) => ends,
        _ => value,
    };
    let answer = unpack(&file, &mut [7; 15]);
    assert_eq!(answer, Err(full_reader), "{head:08x}");
    let conversions: [(Converter, bool); 2] = [(to_short, true), (to_full, false)];
    for (convert, wanted) in conversions {
        let refusal = match (is_marked == wanted, is_full_k) {
            (true, _) => same,
            (false, true) => ends,
            (false, false) => value,
        };
        for room in [0, 4, 244] {
            let answer = converted(convert, &file, room);
            assert_eq!(answer, Err(refusal), "{head:08x}");
        }
    }
}

/// The destination is held to word 0's k, not to what the file has elements for.
#[test]
fn destinations_of_a_short_reader() {
    let mut words = short_zero_words();
    for length in [0, 1, 4, 15, 17, 20, 28, 12292] {
        let refused = Err(Refusal::DestinationLength);
        assert_eq!(read_short(&bytes(&words), length), refused, "{length}");
    }
    words[0] = 0x20000002; // 28 words, and the file ends after 16
    let refused = Err(Refusal::DestinationLength);
    assert_eq!(read_short(&bytes(&words), 16), refused);
    assert_eq!(read_short(&bytes(&words), 28), Err(Refusal::FileLength));
    words.extend([0xC0000000; 12]);
    assert_eq!(read_short(&bytes(&words), 28), Ok([0; 4]));
    words[0] = 0x20000001;
    assert_eq!(read_short(&bytes(&words), 16), Err(Refusal::FileLength));
    for k in LARGER {
        words[0] = 0x20000000 + k as u32;
        for length in [0, 16, 28, 12292, 12 * k + 3, 12 * k + 5] {
            let refused = Err(Refusal::DestinationLength);
            let answer = unpack_short(&bytes(&words), &mut zeros(length));
            assert_eq!(answer, refused, "{length}");
        }
        let answer = unpack_short(&bytes(&words), &mut zeros(12 * k + 4));
        assert_eq!(answer, Err(Refusal::FileLength), "{k}");
    }
}

/// The last element of three words, whose first is word 20.
#[test]
fn short_elements_of_64_bits_and_more() {
    let unpacked = |high: u32| {
        let mut words = short_zero_words();
        words.truncate(20);
        words.extend([0x40000000 + high, 0x80000000, 0xC0000000]);
        read_short(&bytes(&words), 16)
    };
    assert_eq!(unpacked(0), Err(Refusal::LongElement { word: 20 }));
    for high in [1, 2] {
        // 2 x 2^60 is still below p
        assert_eq!(unpacked(high), Ok([0; 4]), "{high}");
    }
    for high in [3, 4, 8, 15, 16, 17, 32, 1 << 20, (1 << 30) - 1] {
        // 16 x 2^60 = 2^64 is no word any more
        assert_eq!(unpacked(high), Err(Refusal::Value { word: 20 }), "{high}");
    }
}
