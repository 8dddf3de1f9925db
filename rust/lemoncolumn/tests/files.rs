//! Lengths and words of files (document 01, "The board file"; the short edition, the
//! converters and the k that only the short edition has: document 02, U7, U8 and U9).

use lemoncolumn::*;

/// The k of full files.
const OF_FULL: [usize; 11] = [1, 2, 4, 8, 16, 32, 64, 128, 256, 512, 1024];
/// Those that short files have beside them.
const OF_SHORT_ALONE: [usize; 8] = [2048, 4096, 8192, 16384, 32768, 65536, 131072, 262144];

/// The k of short files.
fn of_short() -> impl Iterator<Item = usize> {
    OF_FULL.into_iter().chain(OF_SHORT_ALONE)
}

/// No k above 1024 has a full file.
#[test]
fn batches_of_every_length() {
    for bytes in 0..144 * 2048 + 200 {
        let k = OF_FULL.into_iter().find(|k| 144 * k + 100 == bytes);
        assert_eq!(batches(bytes), k, "{bytes} bytes");
    }
    for k in OF_SHORT_ALONE.into_iter().chain([1 << 19, 1 << 32]) {
        assert_eq!(batches(144 * k + 100), None, "k = {k}");
    }
    assert_eq!(batches(usize::MAX), None);
    assert_eq!((MOST_FILE_BATCHES, MOST_BATCHES), (1024, 262144));
}

/// Where `batches` answers none, `unpack` refuses whatever the destination: with
/// word 0's 13 and 14, then with 12.
#[test]
fn other_lengths_are_refused_before_the_destination() {
    for (word, refusal) in [
        (0x4000_0001_u32, Refusal::WrongKind { word: 0 }),
        (0, Refusal::WrongValue { word: 0 }),
        (2048, Refusal::WrongValue { word: 0 }),
        (0x8000, Refusal::WrongValue { word: 0 }),
        (0x4_0000, Refusal::WrongValue { word: 0 }),
        (1, Refusal::FileLength),
    ] {
        for bytes in [4, 243, 245, 144 * 3 + 100, 144 * 2048 + 100] {
            let mut file = vec![0; bytes];
            file[..4].copy_from_slice(&word.to_le_bytes());
            assert_eq!(unpack(&file, &mut []), Err(refusal), "{bytes} bytes");
        }
    }
}

/// 4 bytes, and 4 or 12 for each element of a list of any length; 12 also for a word that
/// is not canonical.
#[test]
fn lengths_of_short_files() {
    for (element, bytes) in [
        (0, 4),
        (1, 4),
        ((1 << 30) - 1, 4),
        (1 << 30, 12),
        ((1 << 30) + 1, 12),
        (1 << 32, 12),
        (1 << 60, 12),
        (P - 1, 12),
        (P, 12),
        (1 << 63, 12),
        (u64::MAX, 12),
    ] {
        for count in [0, 1, 15, 16, 17, 12292, 24580, 12 * 262144 + 4] {
            let taps = vec![element; count];
            let of_taps = short_file_bytes(&taps, [0; 4]);
            assert_eq!(of_taps, 4 + 4 * 4 + count * bytes, "{element}, {count}");
            let with_claim = short_file_bytes(&taps, [element, 0, element, 1 << 30]);
            let of_claim = 2 * bytes + 4 + 12;
            assert_eq!(with_claim, 4 + of_claim + count * bytes, "{element}");
        }
    }
}

/// Each value of either half of word 0, the other as in the short files of k = 2^16 and of
/// k = 1. Where `short_batches` answers none, `unpack_short` refuses whatever the
/// destination.
#[test]
fn batches_of_short_files() {
    let halves = 0..1 << 16;
    let words = halves.flat_map(|half: u32| {
        let upper = half << 16;
        [0x2000_0000 + half, 0x2001_0000 + half, upper, upper + 1]
    });
    for word in words {
        let k = of_short().find(|&k| 0x2000_0000 + k as u32 == word);
        let refusal = match k {
            Some(_) => Refusal::DestinationLength,
            None if word >> 30 == 0 => Refusal::WrongValue { word: 0 },
            None => Refusal::WrongKind { word: 0 },
        };
        let mut file = word.to_le_bytes().to_vec();
        for more in [0, 1, 80] {
            file.resize(4 + more, 0xc0);
            assert_eq!(short_batches(&file), k, "{word:x}");
            assert_eq!(unpack_short(&file, &mut []), Err(refusal), "{word:x}");
        }
    }
    for bytes in 0..4 {
        let file = &[1, 0, 0, 0x20][..bytes];
        assert_eq!(short_batches(file), None, "{bytes} bytes");
        assert_eq!(unpack_short(file, &mut []), Err(Refusal::FileLength));
    }
}

/// Word 0 of a short file without a count, and each of its bits changed. Bits 0 to 18 are
/// a k, 0 to 10 one of the full edition too, and bit 19 alone is none. Bit 29 is the mark,
/// 30 and 31 are the kind. Nothing follows, so that 12 is what is left for the converter.
#[test]
fn each_bit_of_word_0() {
    let (kind, value) = (
        Refusal::WrongKind { word: 0 },
        Refusal::WrongValue { word: 0 },
    );
    let (same, length) = (Refusal::SameEdition, Refusal::FileLength);
    let no_room = Refusal::DestinationLength;
    for (bits, read, of_full, of_short) in [
        (0..11, no_room, length, same),
        (11..19, no_room, value, same),
        (19..29, value, value, same),
        (29..30, value, same, value),
        (30..32, kind, kind, kind),
    ] {
        for bit in bits {
            let file = (0x2000_0000_u32 ^ 1 << bit).to_le_bytes();
            let k = (bit < 19).then_some(1 << bit);
            assert_eq!(short_batches(&file), k, "bit {bit}");
            let bytes = k.filter(|_| bit < 11).map(|k| 144 * k + 100);
            assert_eq!(to_full_bytes(&file), bytes, "bit {bit}");
            assert_eq!(unpack_short(&file, &mut []), Err(read), "bit {bit}");
            assert_eq!(to_full(&file, &mut []), Err(of_full), "bit {bit}");
            assert_eq!(to_short(&file, &mut []), Err(of_short), "bit {bit}");
        }
    }
}

/// Elements, four of them over and over, and how many bytes the four take in a short file.
const FOURS: [([u64; 4], usize); 7] = {
    let (small, large) = ((1 << 30) - 1, 1 << 30);
    [
        ([0; 4], 16),
        ([small; 4], 16),
        ([small, large, small, large], 32),
        ([P - 1, 0, 7, 1 << 60], 32),
        ([large, large, 0, 1 << 60], 40),
        ([large; 4], 48),
        ([P - 1; 4], 48),
    ]
};

/// The taps of k batches, these elements over and over; the claim is the four.
fn taps_of(k: usize, four: [u64; 4]) -> Vec<u64> {
    four.repeat(3 * k + 1)
}

/// The short file of k batches of these elements.
fn short_file_of(k: usize, four: [u64; 4]) -> Vec<u8> {
    let taps = taps_of(k, four);
    let mut short = vec![0; short_file_bytes(&taps, four)];
    assert_eq!(pack_short(&taps, four, &mut short), Ok(()));
    short
}

/// The full file, and the short one.
fn files_of(k: usize, four: [u64; 4]) -> [Vec<u8>; 2] {
    let mut full = vec![0; 144 * k + 100];
    assert_eq!(pack(&taps_of(k, four), four, &mut full), Ok(()));
    [full, short_file_of(k, four)]
}

/// Of every k: 4 bytes, and 4 or 12 for each of 12k + 8 elements, a multiple of four.
#[test]
fn short_files_of_every_k() {
    for k in of_short() {
        for (four, bytes_of_four) in FOURS {
            let short = short_file_of(k, four);
            assert_eq!(
                short.len(),
                4 + (3 * k + 2) * bytes_of_four,
                "{k}, {four:?}"
            );
            assert_eq!(short[..4], (0x2000_0000 + k as u32).to_le_bytes(), "{k}");
            assert_eq!(short_batches(&short), Some(k));
            let mut taps = vec![7; 12 * k + 4];
            assert_eq!(unpack_short(&short, &mut taps), Ok(four), "{k}");
            assert!(taps == taps_of(k, four), "{k}, {four:?}");
        }
    }
}

/// Those above 1024 batches: the full edition's writer has 5 for the list, and the
/// converter 14 for the file, whatever the room. Nothing is written.
#[test]
fn short_files_without_a_full_one() {
    for k in OF_SHORT_ALONE {
        for (four, _) in FOURS {
            let (taps, mut short) = (taps_of(k, four), short_file_of(k, four));
            assert_eq!(to_full_bytes(&short), None, "{k}");
            let mut room = vec![7; 144 * k + 100];
            let whole = room.len();
            for length in [0, 144 * 1024 + 100, whole] {
                let room = &mut room[..length];
                let packed = pack(&taps, four, room);
                assert_eq!(packed, Err(Refusal::TapLength), "{k}, {length}");
                let packed = pack(&taps, [P; 4], room);
                assert_eq!(packed, Err(Refusal::TapLength), "{k}, {length}");
                let value = Err(Refusal::WrongValue { word: 0 });
                assert_eq!(to_full(&short, room), value, "{k}, {length}");
            }
            assert!(room.iter().all(|&byte| byte == 7), "{k}");
            // The first element of kind 0, which is not looked at.
            short[7] &= 0x3f;
            let mut taps = taps;
            let kind = Err(Refusal::WrongKind { word: 1 });
            assert_eq!(unpack_short(&short, &mut taps), kind, "{k}");
            let value = Err(Refusal::WrongValue { word: 0 });
            assert_eq!(to_full(&short, &mut []), value, "{k}");
        }
    }
}

/// Of every k that has both.
#[test]
fn lengths_of_converted_files() {
    for k in OF_FULL {
        for (elements, bytes_of_four) in FOURS {
            let [full, short] = files_of(k, elements);
            let length = 4 + (3 * k + 2) * bytes_of_four;
            assert_eq!(to_short_bytes(&full), Some(length), "{k}, {elements:?}");
            assert_eq!(to_full_bytes(&short), Some(144 * k + 100), "{k}");
            let mut taps = vec![7; 12 * k + 4];
            let claim = unpack(&full, &mut taps).expect("unpacked");
            assert_eq!(short_file_bytes(&taps, claim), length, "{k}, {elements:?}");
        }
    }
}

/// The payloads of the first two words decide, whatever the kinds and the third.
#[test]
fn lengths_by_the_payloads() {
    for (words, bytes) in [
        ([0x4000_0000_u32, 0x8000_0000, 0xc000_0000], 4),
        ([0x4000_0000, 0x8000_0000, 0xffff_ffff], 4),
        ([0, 0, 0], 4),
        ([0xc000_0000, 0x4000_0000, 0xffff_ffff], 4),
        ([0x4000_0000, 0x8000_0001, 0xc000_0000], 12),
        ([0x4000_0000, 0xa000_0000, 0xc000_0000], 12),
        ([0x4000_0001, 0x8000_0000, 0xc000_0000], 12),
        ([0x6000_0000, 0x8000_0000, 0xc000_0000], 12),
        ([0x4000_0000, 0x8000_0100, 0xc000_0000], 12),
        ([0x4001_0000, 0x8000_0000, 0xc000_0000], 12),
        ([0xffff_ffff, 0xffff_ffff, 0xffff_ffff], 12),
    ] {
        for element in [0, 7, 19] {
            let mut file = [0; 244];
            for (i, word) in words.into_iter().enumerate() {
                let place = 4 + 12 * element + 4 * i;
                file[place..place + 4].copy_from_slice(&word.to_le_bytes());
            }
            let length = 4 + 19 * 4 + bytes;
            assert_eq!(to_short_bytes(&file), Some(length), "{words:x?}");
        }
    }
}

/// Where there is no length, the converter refuses whatever the room: with word 0's 13,
/// 19 and 14, then with 12.
#[test]
fn what_has_no_other_edition() {
    let zeros = vec![0; 144 * 262144 + 100];
    for bytes in 0..144 * 2048 + 200 {
        let k = OF_FULL.into_iter().find(|k| 144 * k + 100 == bytes);
        let length = k.map(|k| 48 * k + 36);
        assert_eq!(to_short_bytes(&zeros[..bytes]), length, "{bytes} bytes");
    }
    for k in OF_SHORT_ALONE {
        assert_eq!(to_short_bytes(&zeros[..144 * k + 100]), None, "k = {k}");
    }
    let (kind, value) = (
        Refusal::WrongKind { word: 0 },
        Refusal::WrongValue { word: 0 },
    );
    let (same, length) = (Refusal::SameEdition, Refusal::FileLength);
    for (word, of_short, of_full) in [
        (0x4000_0001_u32, kind, kind),
        (0xe000_0001, kind, kind),
        (0x2000_0000, same, value),
        (0x2000_0003, same, value),
        (0x2000_0800, same, value),
        (0x2001_0001, same, value),
        (0x2004_0000, same, value),
        (0x2008_0000, same, value),
        (0, value, same),
        (0x0000_0800, value, same),
        (0x0001_0001, value, same),
        (0x0004_0000, value, same),
        (1, length, same),
    ] {
        for bytes in [4, 243, 245, 144 * 3 + 100, 144 * 2048 + 100] {
            let mut file = vec![0; bytes];
            file[..4].copy_from_slice(&word.to_le_bytes());
            assert_eq!(to_short_bytes(&file), None, "{bytes} bytes");
            assert_eq!(to_short(&file, &mut []), Err(of_short), "{word:x}");
            assert_eq!(to_full_bytes(&file), None, "{word:x}");
            assert_eq!(to_full(&file, &mut []), Err(of_full), "{word:x}");
        }
    }
    for bytes in 0..4 {
        let file = &[1, 0, 0, 0x20][..bytes];
        assert_eq!([to_short_bytes(file), to_full_bytes(file)], [None; 2]);
        assert_eq!(to_short(file, &mut []), Err(length), "{bytes} bytes");
        assert_eq!(to_full(file, &mut []), Err(length), "{bytes} bytes");
    }
}

/// With any bit changed, a file is refused by something else than 8, or converted into
/// the length that is said and no other. Files are left where of 0, 2^30 and 290 a bit below
/// 2^62 changes, and of p - 1 one of its three bits is cleared. In a short file 0 and 290 have
/// only the low 30, and the one bit of 2^30 may not be cleared.
#[test]
fn lengths_of_damaged_files() {
    let [full, short] = files_of(1, [0, 1 << 30, 290, P - 1]);
    let of_short = to_short_bytes as fn(&[u8]) -> Option<usize>;
    let to_short = to_short as fn(&[u8], &mut [u8]) -> Result<(), Refusal>;
    for (file, said, convert, left) in [
        (full, of_short, to_short, 5 * (62 + 62 + 62 + 3)),
        (short, to_full_bytes, to_full, 5 * (30 + 61 + 30 + 3)),
    ] {
        let mut files = 0;
        for bit in 0..8 * file.len() {
            let mut damaged = file.clone();
            damaged[bit / 8] ^= 1 << (bit % 8);
            let mut room = [0; 256];
            let lengths = 0..=room.len();
            let taken: Vec<usize> = lengths
                .filter(|&length| convert(&damaged, &mut room[..length]).is_ok())
                .collect();
            if convert(&damaged, &mut []) == Err(Refusal::DestinationLength) {
                assert_eq!(Some(taken), said(&damaged).map(|length| vec![length]));
                files += 1;
            } else {
                assert_eq!(taken, [], "bit {bit}");
            }
        }
        assert_eq!(files, left);
    }
}

#[test]
fn raw_tables() {
    let mut file = vec![0; 3168];
    file[8 * 395..].copy_from_slice(&[1, 2, 3, 4, 5, 6, 7, 8]);
    let mut raw = [0; 396];
    raw[395] = 0x0807_0605_0403_0201;
    assert_eq!(raw_table(&file), Ok(raw));
    for bytes in [0, 8, 3160, 3167, 3169, 3176] {
        file.resize(bytes, 0);
        assert_eq!(raw_table(&file), Err(Refusal::TableLength), "{bytes} bytes");
    }
}
