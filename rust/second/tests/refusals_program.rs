//! The numbers and places of the refusals (document 01, "What is turned back"; document
//! 02), and the lines in which the program prints them.

mod common;
use common::faults::*;
use common::*;
use second::field::P;
use second::{clear, pack, Refusal};

#[test]
fn numbers_and_places() {
    let listed = [
        (TABLE_LENGTH, 1, vec![]),
        (TABLE_WORD, 2, vec![200]),
        (Refusal::NoInverse, 3, vec![]),
        (INVERSE_CELL, 4, vec![15]),
        (Refusal::TapLength, 5, vec![]),
        (Refusal::TapWord { index: 8 }, 6, vec![8]),
        (Refusal::TraceLength, 7, vec![]),
        (Refusal::DestinationLength, 8, vec![]),
        (CLAIM_WORD, 9, vec![2]),
        (TRACE_WORD, 10, vec![17]),
        (FAILED, 11, vec![39, 23]),
        (Refusal::FileLength, 12, vec![]),
        (Refusal::Kind { word: 5 }, 13, vec![5]),
        (Refusal::Value { word: 7 }, 14, vec![7]),
        (Refusal::NoSuchTap, 15, vec![]),
        (Refusal::NoPair, 16, vec![]),
        (Refusal::ClaimBatches, 17, vec![]),
        (Refusal::LongElement { word: 9 }, 18, vec![9]),
        (Refusal::SameEdition, 19, vec![]),
    ];
    for (refusal, number, place) in listed {
        assert_eq!(refusal.number(), number);
        assert_eq!(refusal.place(), place);
    }
}

#[test]
fn the_programs_lines() {
    let zeros = |count| vec![0; count];
    // Both lengths come before anything else.
    assert_eq!(clear(&[]), "refused 1\n");
    assert_eq!(clear(&[255; 3167]), "refused 1\n");
    assert_eq!(clear(&[255; 5573]), "too long\n");
    // Then the table, then the file.
    assert_eq!(clear(&[255; 5572]), "refused 2 0\n");
    assert_eq!(clear(&zeros(3168)), "refused 3\n");
    assert_eq!(clear(&zeros(5572)), "refused 3\n");
    let mut raw = a_raw();
    raw[17] = P;
    assert_eq!(clear(&input(&raw, &[])), "refused 2 17\n");
    let with_file = |file: &[u8]| clear(&input(&a_raw(), file));
    for bytes in 0..4 {
        assert_eq!(with_file(&zeros(bytes)), "refused 12\n");
    }
    assert_eq!(with_file(&[0, 0, 0, 0]), "refused 14 0\n");
    assert_eq!(with_file(&[1, 0, 0, 0]), "refused 12\n");
    assert_eq!(with_file(&[1, 0, 0, 64]), "refused 13 0\n");
    // A permitted k above 16 cannot come with its length.
    assert_eq!(with_file(&[32, 0, 0, 0]), "refused 12\n");
    assert_eq!(with_file(&[0, 4, 0, 0]), "refused 12\n");
    assert_eq!(with_file(&[0, 8, 0, 0]), "refused 14 0\n");
    // The mark of the short edition.
    assert_eq!(with_file(&[1, 0, 0, 32]), "refused 14 0\n");
    let mut file = zero_file();
    file[23] = 0; // word 5's kind
    assert_eq!(with_file(&file), "refused 13 5\n");
    let mut file = zero_file();
    file[4] = 4; // the claim's first word is 2^62
    assert_eq!(with_file(&file), "refused 14 1\n");
    // Four zero taps under A chain to (3,0,0,0).
    let mut file = zero_file();
    assert_eq!(with_file(&file), "refused 11 31 49\n");
    file[12] = 3;
    assert_eq!(with_file(&file), "accepted 1 372\n");
    file[36 + 12] = 1; // the claim's last word
    assert_eq!(with_file(&file), "refused 11 31 52\n");
}

#[test]
fn the_program_takes_16_batches() {
    let mut file = vec![0; 144 * 16 + 100];
    assert_eq!(pack(&[0; 196], [48, 0, 0, 0], &mut file), Ok(()));
    let lent = input(&a_raw(), &file);
    assert_eq!(lent.len(), 5572);
    assert_eq!(clear(&lent), "accepted 16 5952\n");
    // 3 and 45 are claims of c = 1 and c = 15, and a board's has c = k.
    for cell in [3, 45, 47] {
        file[12] = cell;
        let lent = input(&a_raw(), &file);
        assert_eq!(clear(&lent), "refused 11 511 49\n", "{cell}");
    }
    let mut file = vec![0; 144 * 32 + 100];
    assert_eq!(pack(&[0; 388], [96, 0, 0, 0], &mut file), Ok(()));
    assert_eq!(clear(&input(&a_raw(), &file)), "too long\n");
}
