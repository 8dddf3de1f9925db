//! The traps of document 02's U7, of the short edition, one test each, and those of U9
//! about its count and about the writers.
//! Each is a case where the mistake would give another answer than the one asserted.

mod common;
use common::files::*;
use common::*;
use second::field::P;
use second::{build, chain, check, pack, pack_short, unpack, unpack_short, Refusal};

/// 2^30 has 31 bits, and its low 30 are those of 0. It needs three words, 92 bytes in all,
/// and they are no fault.
#[test]
fn two_to_the_30_in_one_word() {
    let claim = [1 << 30, 0, 0, 0];
    let packed = pack_short(&[0; 16], claim, &mut [7; 84]);
    assert_eq!(packed, Err(Refusal::DestinationLength));
    let mut file = vec![7; 92];
    assert_eq!(pack_short(&[0; 16], claim, &mut file), Ok(()));
    let expected = short_zeros_with(1, &[0x40000000, 0x80000001, 0xC0000000]);
    assert_eq!(file, expected);
    assert_eq!(read_short(&expected), Ok(claim));
}

/// 2^30 - 1 fills the 30 bits, and in three words it is 18.
#[test]
fn two_to_the_30_less_1_in_three_words() {
    let claim = [(1 << 30) - 1, 0, 0, 0];
    let packed = pack_short(&[0; 16], claim, &mut [7; 92]);
    assert_eq!(packed, Err(Refusal::DestinationLength));
    let mut file = vec![7; 84];
    assert_eq!(pack_short(&[0; 16], claim, &mut file), Ok(()));
    assert_eq!(file, short_zeros_with(1, &[0xFFFFFFFF]));
    assert_eq!(read_short(&file), Ok(claim));
    let long = short_zeros_with(1, &[0x40000000, 0x80000000, 0xFFFFFFFF]);
    assert_eq!(read_short(&long), Err(Refusal::LongElement { word: 1 }));
}

/// 2^60 and 2^60 + 5 have nothing in their second word, and 2^31 nothing in its first.
#[test]
fn refusal_18_by_one_empty_word() {
    for (element, words) in [
        (1 << 60, [0x40000001, 0x80000000, 0xC0000000]),
        ((1 << 60) + 5, [0x40000001, 0x80000000, 0xC0000005]),
        (1 << 31, [0x40000000, 0x80000002, 0xC0000000]),
    ] {
        let answer = read_short(&short_zeros_with(1, &words));
        assert_eq!(answer, Ok([element, 0, 0, 0]));
    }
}

/// 2^64 is 0 again in 64 bits, and 2^64 + 2^30 is 2^30: one who adds up in 64 bits says
/// 18 to the first and accepts the second.
#[test]
fn two_to_the_64_that_wraps() {
    let refused = Err(Refusal::Value { word: 1 });
    let file = short_zeros_with(1, &[0x40000010, 0x80000000, 0xC0000000]);
    assert_eq!(read_short(&file), refused);
    let file = short_zeros_with(1, &[0x40000010, 0x80000001, 0xC0000000]);
    assert_eq!(read_short(&file), refused);
}

/// None of these is canonical, though the second word is empty and the third small.
#[test]
fn refusal_18_before_14() {
    for first in [0x40000003, 0x40000010, 0x7FFFFFFF] {
        let file = short_zeros_with(5, &[first, 0x80000000, 0xC0000005]);
        assert_eq!(read_short(&file), Err(Refusal::Value { word: 5 }));
    }
}

/// Element 0 is 5 in three words and element 1 is p, or the other way about: neither 18
/// nor 14 waits for the elements after it.
#[test]
fn refusal_18_for_all_elements_or_14_for_all() {
    let (five, p) = (
        [0x40000000, 0x80000000, 0xC0000005],
        [0x40000002, 0x80000050, 0xC0000001],
    );
    let mut words = vec![0x20000001];
    words.extend(five.iter().chain(&p));
    words.extend([0xC0000000; 18]);
    let refused = Err(Refusal::LongElement { word: 1 });
    assert_eq!(read_short(&bytes(&words)), refused);
    words[1..7].copy_from_slice(&[p, five].concat());
    assert_eq!(read_short(&bytes(&words)), Err(Refusal::Value { word: 1 }));
}

/// The wrong kind of a third word, in an element that would be 18 or 14.
#[test]
fn refusals_14_and_18_before_the_third_kind() {
    for first in [0x40000000, 0x40000003] {
        let file = short_zeros_with(1, &[first, 0x80000000, 0x80000005]);
        assert_eq!(read_short(&file), Err(Refusal::Kind { word: 3 }));
    }
}

/// Elements 0 and 1 are p - 1, so that element 2 begins at word 7, byte 28.
#[test]
fn a_place_counted_in_elements_or_bytes() {
    let mut words = short_zero_words();
    words.splice(1..3, [[0x40000002, 0x80000050, 0xC0000000]; 2].concat());
    assert_eq!(read_short(&bytes(&words)), Ok([P - 1, P - 1, 0, 0]));
    words[7] = 0x80000000;
    assert_eq!(read_short(&bytes(&words)), Err(Refusal::Kind { word: 7 }));
    words.splice(7..8, [0x40000000, 0x80000000, 0xC0000000]);
    let refused = Err(Refusal::LongElement { word: 7 });
    assert_eq!(read_short(&bytes(&words)), refused);
    words[7] = 0x40000003;
    assert_eq!(read_short(&bytes(&words)), Err(Refusal::Value { word: 7 }));
}

/// Word 0 is tested before the destination, which in turn comes before every element and
/// before the file's end.
#[test]
fn refusal_8_before_word_0_or_after_the_elements() {
    let refused = |head: u32| {
        let mut words = short_zero_words();
        words[0] = head;
        words[1] = 0; // no kind of an element
        unpack_short(&bytes(&words), &mut [7; 15]).expect_err("15 words")
    };
    assert_eq!(refused(0x60000001), Refusal::Kind { word: 0 });
    assert_eq!(refused(0x00000001), Refusal::Value { word: 0 });
    assert_eq!(refused(0x20100001), Refusal::Value { word: 0 });
    assert_eq!(refused(0x20000003), Refusal::Value { word: 0 });
    assert_eq!(refused(0x20000001), Refusal::DestinationLength);
    let head = bytes(&[0x20000001]);
    let answer = unpack_short(&head, &mut [7; 15]);
    assert_eq!(answer, Err(Refusal::DestinationLength));
    assert_eq!(read_short(&head), Err(Refusal::FileLength));
}

/// One who looks at the length first, as for a full file, says 12 to these: the file
/// ends early or goes on, and element 0 is wrong.
#[test]
fn refusal_12_before_the_elements() {
    let elements = [
        (&[0x80000000][..], Refusal::Kind { word: 1 }),
        (&[0x40000002, 0xC0000050], Refusal::Kind { word: 2 }),
        (
            &[0x40000002, 0x80000050, 0xC0000001],
            Refusal::Value { word: 1 },
        ),
        (
            &[0x40000000, 0x80000000, 0xC0000001],
            Refusal::LongElement { word: 1 },
        ),
    ];
    for (element, refusal) in elements {
        let mut file = short_zeros_with(1, element);
        file.push(0);
        assert_eq!(read_short(&file), Err(refusal));
        file.truncate(4 + 4 * element.len());
        assert_eq!(read_short(&file), Err(refusal));
    }
}

/// The twenty zeros are there, and then something more.
#[test]
fn the_tail_not_looked_at() {
    let honest = bytes(&short_zero_words());
    assert_eq!(read_short(&honest), Ok([0; 4]));
    for more in [&[0][..], &[0, 0, 0], &[0, 0, 0, 0], &[0, 0, 0, 0xC0]] {
        let file = [&honest, more].concat();
        assert_eq!(read_short(&file), Err(Refusal::FileLength), "{more:?}");
    }
    // As long as the full file of zeros.
    let mut file = honest;
    file.resize(244, 0);
    assert_eq!(read_short(&file), Err(Refusal::FileLength));
}

/// The last element has one word or two of its three. Filled up with zeros they would be
/// of a wrong kind; with the right kinds and nothing else they would be 2^61, accepted,
/// or 0 and 18.
#[test]
fn a_cut_element_filled_up() {
    for element in [
        &[0x40000002][..],
        &[0x40000002, 0x80000000],
        &[0x40000000],
        &[0x40000000, 0x80000000],
        &[0x40000010, 0x80000000],
    ] {
        let file = short_zeros_with(20, element);
        assert_eq!(read_short(&file), Err(Refusal::FileLength));
        for bytes in 1..4 {
            let file = [&file, &vec![0; bytes][..]].concat();
            assert_eq!(read_short(&file), Err(Refusal::FileLength));
        }
    }
}

/// A first word of kind 1 is followed by one of kind 2, or it is 13 there; a first word
/// of kind 2 or 0 is 13 itself.
#[test]
fn a_one_word_element_of_another_kind() {
    let answer = read_short(&short_zeros_with(1, &[0xC0000005]));
    assert_eq!(answer, Ok([5, 0, 0, 0]));
    let answer = read_short(&short_zeros_with(1, &[0x40000005]));
    assert_eq!(answer, Err(Refusal::Kind { word: 2 }));
    for element in [0x80000005, 0x00000005] {
        let answer = read_short(&short_zeros_with(1, &[element]));
        assert_eq!(answer, Err(Refusal::Kind { word: 1 }));
    }
    // As the last one: there is no next word.
    let answer = read_short(&short_zeros_with(20, &[0x40000005]));
    assert_eq!(answer, Err(Refusal::FileLength));
}

/// p - 1 with its first word of kind 3 is the element 2, and then a first word of kind 2.
#[test]
fn three_words_by_their_number_and_not_by_the_first_kind() {
    let file = short_zeros_with(1, &[0xC0000002, 0x80000050, 0xC0000000]);
    assert_eq!(read_short(&file), Err(Refusal::Kind { word: 2 }));
}

/// Four zeros of the claim in three words each, and sixteen zeros in one: 116 bytes.
#[test]
fn claim_elements_always_in_three_words() {
    let packed = pack_short(&[0; 16], [0; 4], &mut [7; 116]);
    assert_eq!(packed, Err(Refusal::DestinationLength));
    let mut words = vec![0x20000001];
    words.extend([[0x40000000, 0x80000000, 0xC0000000]; 4].concat());
    words.extend([0xC0000000; 16]);
    let refused = Err(Refusal::LongElement { word: 1 });
    assert_eq!(read_short(&bytes(&words)), refused);
}

/// 244 bytes are the full file's, and the short one of zeros has 84.
#[test]
fn the_length_of_the_full_edition() {
    let packed = pack_short(&[0; 16], [0; 4], &mut [7; 244]);
    assert_eq!(packed, Err(Refusal::DestinationLength));
}

/// p + 5 is 5 in the field, 2^62 + 5 is 5 in its low 30 bits, and both count 12 bytes:
/// the exact length is 92, and there they are 9 or 6.
#[test]
fn a_word_that_is_not_canonical_counted_as_one() {
    for word in [P, P + 5, (1 << 62) + 5, 1 << 63, u64::MAX] {
        let claim = [0, 0, word, 0];
        let mut taps = [0; 16];
        taps[7] = word;
        for (taps, claim, refusal) in [
            ([0; 16], claim, Refusal::ClaimWord { index: 2 }),
            (taps, [0; 4], Refusal::TapWord { index: 7 }),
        ] {
            for length in [80, 84, 88, 96] {
                let packed = pack_short(&taps, claim, &mut vec![7; length]);
                assert_eq!(packed, Err(Refusal::DestinationLength), "{word}");
            }
            let packed = pack_short(&taps, claim, &mut [7; 92]);
            assert_eq!(packed, Err(refusal), "{word}");
        }
    }
}

/// A full file where no element is below 2^30 becomes the short one by the mark alone,
/// and the other way about.
#[test]
fn the_mark_not_looked_at() {
    let mut words = vec![0x20000001];
    words.extend([[0x40000002, 0x80000050, 0xC0000000]; 20].concat());
    let (refused, claim) = (Err(Refusal::Value { word: 0 }), Ok([P - 1; 4]));
    assert_eq!(read_short(&bytes(&words)), claim);
    assert_eq!(unpack(&bytes(&words), &mut [7; 16]), refused);
    words[0] = 0x00000001;
    assert_eq!(read_short(&bytes(&words)), refused);
    assert_eq!(unpack(&bytes(&words), &mut [7; 16]), claim);
}

/// The last element is p, or 5 in three words, and the destination stays as it was.
#[test]
fn taps_written_before_the_last_refusal() {
    for element in [
        [0x40000002, 0x80000050, 0xC0000001],
        [0x40000000, 0x80000000, 0xC0000005],
    ] {
        let mut taps = [7; 16];
        let file = short_zeros_with(20, &element);
        assert!(unpack_short(&file, &mut taps).is_err());
        assert_eq!(taps, [7; 16]);
    }
    let mut taps = [7; 16];
    let mut file = bytes(&short_zero_words());
    file.push(0);
    assert!(unpack_short(&file, &mut taps).is_err());
    assert_eq!(taps, [7; 16]);
}

/// 2^16 to 2^18 stand above 16 bits. Cut to those they would be 0, and 14.
#[test]
fn a_short_count_of_16_bits() {
    for (head, list) in [
        (0x20008000, 393220),
        (0x20010000, 786436),
        (0x20020000, 1572868),
        (0x20040000, 3145732),
    ] {
        let file = bytes(&[head]);
        let answer = unpack_short(&file, &mut vec![0; list]);
        assert_eq!(answer, Err(Refusal::FileLength), "{head:08x}");
        let answer = unpack_short(&file, &mut [7; 4]);
        assert_eq!(answer, Err(Refusal::DestinationLength), "{head:08x}");
    }
}

/// A list of 24580 words gets 5 from the full writer, whatever the room and the words,
/// and from no one else.
#[test]
fn the_limit_of_the_full_edition_elsewhere_or_after_8() {
    let mut taps = vec![0; 24580];
    taps[3] = P;
    for room in [0, 244, 144 * 2048 + 100] {
        let packed = pack(&taps, [P; 4], &mut vec![7; room]);
        assert_eq!(packed, Err(Refusal::TapLength), "{room}");
    }
    let refused = Err(Refusal::TapWord { index: 3 });
    assert_eq!(chain(&z(), &taps), refused);
    assert_eq!(build(&z(), &taps, &mut vec![7; 384 * 2048]), refused);
    // 8 bytes more for p than for a zero.
    let packed = pack_short(&taps, [0; 4], &mut vec![7; 48 * 2048 + 44]);
    assert_eq!(packed, Err(Refusal::TapWord { index: 3 }));
    let answer = check(&z(), &vec![0; 384 * 2048], [0, P, 0, 0], 2048);
    assert_eq!(answer, Err(Refusal::ClaimWord { index: 1 }));
}
