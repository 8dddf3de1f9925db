//! The traps of document 02's U8, of the converters, one test each, and those of U9 about
//! the files that they and the readers refuse.
//! Each is a case where the mistake would give another answer than the one asserted.

mod common;
use common::files::*;
use common::*;
use second::{to_full, to_short, unpack, unpack_short, Refusal};

/// What the converters answer where there is room for the file of zeros.
fn short_of(file: &[u8]) -> Result<Vec<u8>, Refusal> {
    converted(to_short, file, 84)
}

fn full_of(short_file: &[u8]) -> Result<Vec<u8>, Refusal> {
    converted(to_full, short_file, 244)
}

/// Spare bits, a k that is not permitted, an end right after word 0: all that is looked
/// at later, and 19 goes by the mark alone.
#[test]
fn refusal_19_after_14_or_12() {
    let (full, short) = (zero_file(), bytes(&short_zero_words()));
    for rest in [0, 1, 3, 2048, 65535, 1 << 16, 1 << 28, (1 << 29) - 1] {
        let refused = Err(Refusal::SameEdition);
        let marked = with_head(0x20000000 + rest, &short);
        assert_eq!(short_of(&marked), refused, "{rest:08x}");
        assert_eq!(short_of(&marked[..4]), refused, "{rest:08x}");
        let unmarked = with_head(rest, &full);
        assert_eq!(full_of(&unmarked), refused, "{rest:08x}");
        assert_eq!(full_of(&unmarked[..4]), refused, "{rest:08x}");
    }
}

/// A file of the wanted edition that its own reader would not take either.
#[test]
fn refusal_19_for_whole_files_alone() {
    let refused = Err(Refusal::SameEdition);
    for file in [
        short_zeros_with(1, &[0x80000000]),
        short_zeros_with(1, &[0x40000002, 0x80000050, 0xC0000001]),
        short_zeros_with(20, &[0x40000000, 0x80000000, 0xC0000005]),
        with_head(0x20000001, &zero_file()),
    ] {
        assert_eq!(short_of(&file), refused);
    }
    for file in [
        full_zeros_with(1, [0; 3]),
        full_zeros_with(58, [0x40000002, 0x80000050, 0xC0000001]),
        with_head(0x00000001, &bytes(&short_zero_words())),
    ] {
        assert_eq!(full_of(&file), refused);
    }
}

/// A wrong kind comes first, with the mark and without it.
#[test]
fn refusal_19_before_13() {
    for kind in 1..4 {
        for rest in [0x00000001, 0x20000001] {
            let head = kind * 0x40000000 + rest;
            let refused = Err(Refusal::Kind { word: 0 });
            assert_eq!(short_of(&with_head(head, &zero_file())), refused);
            let file = with_head(head, &bytes(&short_zero_words()));
            assert_eq!(full_of(&file), refused, "{head:08x}");
        }
    }
}

/// 14 is what a reader says to the other edition. A converter never does: spare bits and
/// k are left to its 14.
#[test]
fn refusal_14_for_the_other_edition() {
    let (full, short) = (zero_file(), bytes(&short_zero_words()));
    assert_eq!(short_of(&short), Err(Refusal::SameEdition));
    assert_eq!(full_of(&full), Err(Refusal::SameEdition));
    for rest in [0, 3, 2048, 0x00010001, 0x10000001] {
        let refused = Err(Refusal::Value { word: 0 });
        assert_eq!(short_of(&with_head(rest, &full)), refused);
        let marked = with_head(0x20000000 + rest, &short);
        assert_eq!(full_of(&marked), refused);
    }
}

/// Fewer than four bytes have no mark yet, nor a kind, whatever the last of them is.
#[test]
fn refusal_19_or_13_before_12() {
    for byte in [0x00, 0x01, 0x20, 0x40, 0xC0, 0xFF] {
        for length in 0..4 {
            let file = vec![byte; length];
            assert_eq!(short_of(&file), Err(Refusal::FileLength));
            assert_eq!(full_of(&file), Err(Refusal::FileLength));
        }
    }
}

/// Word 0 and nothing else, in a destination that is wrong in any case.
#[test]
fn an_input_of_4_bytes() {
    for length in [0, 4, 84, 244] {
        let answer = converted(to_short, &[1, 0, 0, 0], length);
        assert_eq!(answer, Err(Refusal::FileLength), "{length}");
        let answer = converted(to_full, &[1, 0, 0, 0x20], length);
        assert_eq!(answer, Err(Refusal::FileLength), "{length}");
    }
}

/// The destination is wrong, and the last element or the end may be: 8 is the last.
#[test]
fn refusal_8_first_or_after_word_0() {
    let p = [0x40000002, 0x80000050, 0xC0000001];
    let kinds = [0x00000000, 0x80000000, 0xC0000000];
    let five = [0x40000000, 0x80000000, 0xC0000005];
    let long = Refusal::LongElement { word: 20 };
    let (full, short) = (zero_file(), bytes(&short_zero_words()));
    let full_files = [
        (full_zeros_with(58, p), Refusal::Value { word: 58 }),
        (full_zeros_with(58, kinds), Refusal::Kind { word: 58 }),
        (full[..243].to_vec(), Refusal::FileLength),
        (full, Refusal::DestinationLength),
    ];
    let short_files = [
        (short_zeros_with(20, &p), Refusal::Value { word: 20 }),
        (short_zeros_with(20, &kinds), Refusal::Kind { word: 20 }),
        (short_zeros_with(20, &five), long),
        (short[..83].to_vec(), Refusal::FileLength),
        (short, Refusal::DestinationLength),
    ];
    for length in [0, 15, 16, 83, 85, 128, 243, 245] {
        for (file, refusal) in &full_files {
            let answer = converted(to_short, file, length);
            assert_eq!(answer, Err(*refusal), "{length}");
        }
        for (file, refusal) in &short_files {
            let answer = converted(to_full, file, length);
            assert_eq!(answer, Err(*refusal), "{length}");
        }
    }
}

/// A converter is lent no room for taps: 16 words of them, in words or in bytes, are no
/// length that it asks for.
#[test]
fn refusal_8_of_the_reader() {
    let (full, short) = (zero_file(), bytes(&short_zero_words()));
    for length in [16, 64, 128] {
        let refused = Err(Refusal::DestinationLength);
        assert_eq!(converted(to_short, &full, length), refused, "{length}");
        assert_eq!(converted(to_full, &short, length), refused, "{length}");
    }
    assert_eq!(short_of(&full), Ok(short.clone()));
    assert_eq!(full_of(&short), Ok(full));
}

/// With word 0 of the other edition and nothing else done, the files of zeros are 18 at
/// word 1, and 12. Where no element is below 2^30, nothing else is to be done.
#[test]
fn word_0_rewritten_alone() {
    let (full, short) = (zero_file(), bytes(&short_zero_words()));
    let marked = with_head(0x20000001, &full);
    assert_eq!(read_short(&marked), Err(Refusal::LongElement { word: 1 }));
    let answer = converted(to_short, &full, marked.len());
    assert_eq!(answer, Err(Refusal::DestinationLength));
    let unmarked = with_head(0x00000001, &short);
    let answer = unpack(&unmarked, &mut [7; 16]);
    assert_eq!(answer, Err(Refusal::FileLength));
    let answer = converted(to_full, &short, unmarked.len());
    assert_eq!(answer, Err(Refusal::DestinationLength));

    let mut words = vec![0x00000001];
    words.extend([0x40000000, 0x80000001, 0xC0000000].repeat(20));
    let full = bytes(&words);
    let marked = with_head(0x20000001, &full);
    assert_eq!(converted(to_short, &full, 244), Ok(marked.clone()));
    assert_eq!(full_of(&marked), Ok(full));
}

/// 84 bytes of input make 244, and the other way about.
#[test]
fn the_length_of_the_input() {
    let (full, short) = (zero_file(), bytes(&short_zero_words()));
    let refused = Err(Refusal::DestinationLength);
    assert_eq!(converted(to_short, &full, 244), refused);
    assert_eq!(converted(to_full, &short, 84), refused);
    assert_eq!(converted(to_short, &full, 84), Ok(short.clone()));
    assert_eq!(converted(to_full, &short, 244), Ok(full));
}

/// A destination with room to spare is as wrong as one that is too short.
#[test]
fn room_to_spare() {
    let (full, short) = (zero_file(), bytes(&short_zero_words()));
    let refused = Err(Refusal::DestinationLength);
    for more in 1..=12 {
        assert_eq!(converted(to_short, &full, 84 + more), refused, "{more}");
        assert_eq!(converted(to_full, &short, 244 + more), refused, "{more}");
    }
}

/// p is 0 in the field, p + 5 is 5, and the low 30 bits of 2^62 + 5 are 5, as are the low
/// 64 of 2^64 + 5: none is an element, be the length that for one word or for three.
#[test]
fn p_counted_as_one_word() {
    for element in [
        [0x40000002, 0x80000050, 0xC0000001],
        [0x40000002, 0x80000050, 0xC0000006],
        [0x40000004, 0x80000000, 0xC0000005],
        [0x40000010, 0x80000000, 0xC0000005],
    ] {
        for length in [84, 92] {
            let answer = converted(to_short, &full_zeros_with(4, element), length);
            assert_eq!(answer, Err(Refusal::Value { word: 4 }), "{element:x?}");
        }
        let answer = full_of(&short_zeros_with(2, &element));
        assert_eq!(answer, Err(Refusal::Value { word: 2 }), "{element:x?}");
    }
}

/// The two empty words go only where both are empty, 2^30 and 2^60 + 5 having but one.
#[test]
fn a_single_empty_word_left_out() {
    for element in [
        [0x40000000, 0x80000001, 0xC0000000],
        [0x40000001, 0x80000000, 0xC0000005],
    ] {
        let (full, short) = (full_zeros_with(1, element), short_zeros_with(1, &element));
        assert_eq!(short.len(), 92);
        assert_eq!(converted(to_short, &full, 92), Ok(short.clone()));
        assert_eq!(full_of(&short), Ok(full.clone()));
        for length in [84, 88] {
            let answer = converted(to_short, &full, length);
            assert_eq!(answer, Err(Refusal::DestinationLength));
        }
    }
}

/// The words that are left out are tested too: each has its kind.
#[test]
fn empty_words_left_out_untested() {
    for (element, word) in [
        ([0x00000000, 0x80000000, 0xC0000005], 1),
        ([0x80000000, 0x40000000, 0xC0000005], 1),
        ([0x40000000, 0x40000000, 0xC0000005], 2),
        ([0x40000000, 0xC0000000, 0xC0000005], 2),
        ([0x40000000, 0x80000000, 0x00000005], 3),
    ] {
        let answer = short_of(&full_zeros_with(1, element));
        assert_eq!(answer, Err(Refusal::Kind { word }), "{element:x?}");
    }
}

/// A small element in three words is right in the full edition, and 18 in the short one,
/// though it would be written the same.
#[test]
fn three_words_copied_as_they_are() {
    let element = [0x40000000, 0x80000000, 0xC0000005];
    let full = full_zeros_with(1, element);
    let refused = Err(Refusal::LongElement { word: 1 });
    assert_eq!(full_of(&short_zeros_with(1, &element)), refused);
    let short = short_zeros_with(1, &[0xC0000005]);
    assert_eq!(short_of(&full), Ok(short.clone()));
    assert_eq!(full_of(&short), Ok(full));
}

/// Claim elements become shorter too: with theirs in three words it would be 116 bytes.
#[test]
fn the_claim_left_in_three_words() {
    let answer = converted(to_short, &zero_file(), 116);
    assert_eq!(answer, Err(Refusal::DestinationLength));
}

/// Element 0 is wrong, and the file goes on after the last: the full one's length comes
/// first, the short one's end last.
#[test]
fn one_order_of_12_for_both_editions() {
    let mut full = full_zeros_with(1, [0; 3]);
    full.push(0);
    assert_eq!(short_of(&full), Err(Refusal::FileLength));
    let mut short = short_zeros_with(1, &[0]);
    short.push(0);
    assert_eq!(full_of(&short), Err(Refusal::Kind { word: 1 }));
}

/// The full file of zeros of 2048 batches, and the short one.
fn zeros_of_2048_batches() -> (Vec<u8>, Vec<u8>) {
    let mut full = vec![0x00000800];
    full.extend([0x40000000, 0x80000000, 0xC0000000].repeat(12 * 2048 + 8));
    let mut short = vec![0x20000800];
    short.resize(12 * 2048 + 9, 0xC0000000);
    (bytes(&full), bytes(&short))
}

/// The full edition has no file of 2048 batches, whole as it is: it is not read, nor is
/// it made of the short one, which its own reader takes.
#[test]
fn more_than_1024_batches_in_the_full_edition() {
    let (full, short) = zeros_of_2048_batches();
    let refused = Refusal::Value { word: 0 };
    let mut taps = vec![7; 24580];
    assert_eq!(unpack(&full, &mut taps), Err(refused));
    assert_eq!(converted(to_short, &full, short.len()), Err(refused));
    assert_eq!(converted(to_full, &short, full.len()), Err(refused));
    assert_eq!(unpack_short(&short, &mut taps), Ok([0; 4]));
    assert_eq!(taps, [0; 24580]);
}

/// Bit 19 belongs to the count and is no k by itself; 20 to 28 do not belong to it, and
/// with them left out this would be the file of zeros.
#[test]
fn a_count_of_20_bits_or_more_taken_for_a_k() {
    let zeros = bytes(&short_zero_words());
    for bit in 19..29 {
        for head in [1 << bit, 1 + (1 << bit)] {
            let file = with_head(0x20000000 + head, &zeros);
            let refused = Err(Refusal::Value { word: 0 });
            assert_eq!(read_short(&file), refused, "{head:08x}");
            let refused = Err(Refusal::Value { word: 0 });
            assert_eq!(full_of(&file), refused, "{head:08x}");
        }
    }
}

/// The count of the full edition stays at 16 bits, and those above it are spare.
#[test]
fn the_full_count_widened_too() {
    let zeros = zero_file();
    for bit in 16..20 {
        for head in [1 << bit, 1 + (1 << bit)] {
            let file = with_head(head, &zeros);
            let refused = Err(Refusal::Value { word: 0 });
            assert_eq!(unpack(&file, &mut [7; 16]), refused, "{head:08x}");
            let refused = Err(Refusal::Value { word: 0 });
            assert_eq!(short_of(&file), refused, "{head:08x}");
        }
    }
}

/// Each with 14 at word 0 alone: one who says it with the elements, with the writer's 5
/// or with its 8 answers something else.
#[test]
fn a_larger_file_read_before_it_is_refused() {
    let (full, short) = zeros_of_2048_batches();
    let refused = Err(Refusal::Value { word: 0 });
    for at in [4, short.len() - 4] {
        for word in [0x00000000_u32, 0x80000000, 0x40000000] {
            let mut file = short.clone();
            file[at..at + 4].copy_from_slice(&word.to_le_bytes());
            assert_eq!(converted(to_full, &file, full.len()), refused);
            assert_eq!(full_of(&file), refused);
        }
    }
    for length in [4, 5, short.len() - 1] {
        let cut = &short[..length];
        assert_eq!(converted(to_full, cut, full.len()), refused, "{length}");
        assert_eq!(full_of(cut), refused, "{length}");
    }
    let longer = [&short[..], &[0]].concat();
    assert_eq!(full_of(&longer), refused);
}

/// 13 and 19 come before it, by the kind and the mark of word 0.
#[test]
fn a_larger_file_refused_before_its_kind_or_edition() {
    let (_, short) = zeros_of_2048_batches();
    for kind in 1..4 {
        let file = with_head(0x20000800 + kind * 0x40000000, &short);
        assert_eq!(full_of(&file), Err(Refusal::Kind { word: 0 }));
    }
    let file = with_head(0x00000800, &short);
    assert_eq!(full_of(&file), Err(Refusal::SameEdition));
    assert_eq!(short_of(&short), Err(Refusal::SameEdition));
}
