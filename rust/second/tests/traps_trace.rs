//! Document 01's "Traps" about traces, one test each, and those of document 02's U6, of
//! a claim that ends before the rows do.
//! Each is a case where the mistake would give another answer than the one asserted.

mod common;
use common::*;
use second::constraints::{tests, Test};
use second::field::P;
use second::{build, check, edit, read_off, Refusal};

/// Each hash of a zero tap adds K_0[0] = 1 to cell 0.
#[test]
fn k_0_forgotten_at_the_second_hash() {
    let mut trace = vec![0; 384];
    assert_eq!(build(&a(), &[0; 16], &mut trace), Ok([3, 0, 0, 0]));
    assert_eq!(check(&a(), &trace, [3, 0, 0, 0], 1), Ok(372));
    // The trace of one who forgot it: cell 0 stays 1 from row 1 on.
    let mut forgot = vec![0; 384];
    for row in 1..32 {
        forgot[12 * row] = 1;
    }
    // 16 tests at row 0, 108 at rows 1 to 9, 5 to 8 at row 10, and this one.
    let refused = check(&a(), &forgot, [1, 0, 0, 0], 1);
    assert_eq!(failed_at(refused), (10, 21, 129));
}

/// The known day (3,0,0,0) once more, with row 31 as one would have it who adds
/// K_0 after the third hash too.
#[test]
fn k_0_added_at_row_30_too() {
    let mut trace = vec![0; 384];
    build(&a(), &[0; 16], &mut trace).expect("builds");
    assert_eq!(trace[372], 3);
    trace[372] = 4;
    // The first test of row 30; 356 come before that row.
    let refused = check(&a(), &trace, [4, 0, 0, 0], 1);
    assert_eq!(failed_at(refused), (30, 33, 357));
}

/// The new tap enters in columns 4 to 7 at rows 10 and 20, so back differs from
/// forward there.
#[test]
fn constraints_25_to_32_kept_at_rows_10_and_20() {
    let taps: Vec<u64> = (0..16).collect();
    let mut trace = vec![0; 384];
    let claim = build(&z(), &taps, &mut trace).expect("builds");
    assert_eq!(check(&z(), &trace, claim, 1), Ok(372));
    for row in [10, 20] {
        let numbers: Vec<usize> = tests(1, 1)
            .iter()
            .filter(|test| test.row == row)
            .map(|test| test.constraint)
            .collect();
        assert_eq!(numbers, [5, 6, 7, 8, 21, 22, 23, 24]);
    }
}

/// With two batches, row 31 is compared with row 32, and the last row with the
/// claim and not with row 0.
#[test]
fn the_last_row_compared_with_row_0() {
    let taps: Vec<u64> = (1..=28).collect();
    let mut trace = vec![0; 768];
    let claim = build(&a(), &taps, &mut trace).expect("builds");
    assert_ne!(trace[12 * 63], trace[0]);
    assert_eq!(check(&a(), &trace, claim, 2), Ok(744));
    let order = tests(2, 2);
    for constraint in 45..=48 {
        assert!(order.contains(&Test {
            row: 31,
            constraint
        }));
        assert!(!order.contains(&Test {
            row: 63,
            constraint
        }));
    }
    for constraint in 49..=52 {
        assert!(!order.contains(&Test {
            row: 31,
            constraint
        }));
        assert!(order.contains(&Test {
            row: 63,
            constraint
        }));
    }
}

/// The known days' single cells once more, in the second batch. The counts: 372
/// tests in the first batch, of which 368 come before row 31; then as in a first
/// batch 16 at row 0, 124 before row 10, 132 before row 11, 356 before row 30.
#[test]
fn the_second_batch_waved_through() {
    let cases = [
        ((32, 0), (31, 45, 369)),
        ((32, 3), (31, 48, 372)),
        ((32, 8), (32, 1, 373)),
        ((32, 4), (32, 13, 381)),
        ((43, 5), (43, 26, 510)),
        ((43, 9), (42, 6, 498)),
        ((63, 5), (62, 38, 734)),
    ];
    for ((row, column), fails) in cases {
        let mut trace = vec![0; 768];
        trace[12 * row + column] = 1;
        assert_eq!(failed_at(check(&z(), &trace, [0; 4], 2)), fails);
    }
    let refused = check(&z(), &[0; 768], [0, 1, 0, 0], 2);
    assert_eq!(failed_at(refused), (63, 50, 742));
}

/// Read-off of a tap in a later batch needs that batch's row 0 and its backs.
#[test]
fn every_tap_of_two_batches_is_read_off() {
    let taps: Vec<u64> = (1..=28).collect();
    let mut trace = vec![0; 768];
    let claim = build(&s(), &taps, &mut trace).expect("builds");
    let mut read = vec![0; 28];
    assert_eq!(read_off(&s(), &trace, claim, 2, &mut read), Ok(744));
    assert_eq!(read, taps);
}

/// Under A the zero taps of two batches chain to (3, 0, 0, 0) by row 31 and to
/// (6, 0, 0, 0) by row 63.
#[test]
fn the_claim_compared_at_the_last_row_still() {
    let mut trace = vec![7; 768];
    let output = build(&a(), &[0; 28], &mut trace);
    assert_eq!(output, Ok([6, 0, 0, 0]));
    assert_eq!(check(&a(), &trace, [3, 0, 0, 0], 1), Ok(744));
    let refused = check(&a(), &trace, [6, 0, 0, 0], 1);
    assert_eq!(failed_at(refused), (31, 49, 373));
    let refused = check(&a(), &trace, [3, 0, 0, 0], 2);
    assert_eq!(failed_at(refused), (63, 49, 741));
}

/// Two batches under Z, the first of zeros, the second of the chain that starts with
/// 1 in this column, and there it stays: rows 31 and 32 differ, and nothing else does.
fn two_chains(column: usize) -> Vec<u64> {
    let mut trace = vec![0; 768];
    for row in 32..64 {
        trace[12 * row + column] = 1;
    }
    trace
}

/// The claim fits row 31, and still the batches are no chain. One who has 49 to 52
/// there in place of 45 to 48 accepts.
#[test]
fn constraints_45_to_48_dropped_at_the_claims_row() {
    for (column, place) in [(0, 369), (1, 370), (2, 371), (3, 372)] {
        let refused = check(&z(), &two_chains(column), [0; 4], 1);
        assert_eq!(failed_at(refused), (31, 45 + column as u64, place));
    }
}

/// Both fail at row 31, and 48 is named before 49.
#[test]
fn constraints_49_to_52_before_45_to_48() {
    for (column, place) in [(0, 369), (1, 370), (2, 371), (3, 372)] {
        let refused = check(&z(), &two_chains(column), [1, 1, 1, 1], 1);
        assert_eq!(failed_at(refused), (31, 45 + column as u64, place));
    }
    let numbers: Vec<usize> = tests(2, 1)
        .iter()
        .filter(|test| test.row == 31)
        .map(|test| test.constraint)
        .collect();
    assert_eq!(numbers, [45, 46, 47, 48, 49, 50, 51, 52]);
}

/// The batches after the claim's are tested as the others are, four places later
/// than where the claim comes last.
#[test]
fn the_batches_after_the_claim_waved_through() {
    let cases = [
        ((32, 8), (32, 1, 377)),
        ((32, 4), (32, 13, 385)),
        ((43, 5), (43, 26, 514)),
        ((43, 9), (42, 6, 502)),
        ((63, 0), (62, 33, 733)),
        ((63, 5), (62, 38, 738)),
    ];
    for ((row, column), fails) in cases {
        let mut trace = vec![0; 768];
        trace[12 * row + column] = 1;
        assert_eq!(failed_at(check(&z(), &trace, [0; 4], 1)), fails);
    }
    assert!(tests(2, 1).iter().all(|test| test.row != 63));
    assert_eq!(tests(2, 1).len(), 744);
}

/// With such a c no row is the claim's, and any claim would do.
#[test]
fn c_of_0_or_above_k_let_through() {
    for k in [1, 2, 4] {
        let mut trace = vec![0; 384 * k];
        for c in [0, k + 1, 2 * k, 1 << 32, (1 << 59) + 1, usize::MAX] {
            let refused = Err(Refusal::ClaimBatches);
            assert_eq!(check(&z(), &trace, [1; 4], c), refused, "{c}");
            let mut taps = vec![7; 12 * k + 4];
            let answer = read_off(&z(), &trace, [1; 4], c, &mut taps);
            assert_eq!(answer, refused, "{c}");
            assert_eq!(taps, vec![7; 12 * k + 4]);
            let answer = edit(&z(), &mut trace, [1; 4], c, 0, [1; 4]);
            assert_eq!(answer, Err(Refusal::ClaimBatches), "{c}");
            assert_eq!(trace, vec![0; 384 * k]);
        }
    }
}

/// The known day of zeros has k = 4 here, of which 3 is no permitted count.
#[test]
fn c_taken_for_a_permitted_count_of_batches() {
    assert_eq!(check(&z(), &[0; 1536], [0; 4], 3), Ok(1488));
}

#[test]
fn refusal_17_after_8_or_15_or_before_7() {
    let mut trace = vec![0; 768];
    let answer = read_off(&z(), &trace, [0; 4], 3, &mut [7; 27]);
    assert_eq!(answer, Err(Refusal::ClaimBatches));
    let answer = edit(&z(), &mut trace, [0; 4], 3, 7, [0; 4]);
    assert_eq!(answer, Err(Refusal::ClaimBatches));
    let refused = Err(Refusal::TraceLength);
    assert_eq!(check(&z(), &trace[1..], [0; 4], 0), refused);
}

/// Read-off writes 28 words for two batches, though the claim is about the first 16.
#[test]
fn the_taps_up_to_the_claim_alone() {
    let answer = read_off(&z(), &[0; 768], [0; 4], 1, &mut [7; 16]);
    assert_eq!(answer, Err(Refusal::DestinationLength));
}

/// Under S the output is the last tap: w_3 for c = 1. An edit of w_6 leaves it, and
/// one of w_3 answers the new tap, though the list's output is w_6.
#[test]
fn the_output_of_all_taps_from_an_edit() {
    let taps: Vec<u64> = (1..=28).collect();
    let (w_3, w_6, new) = ([13, 14, 15, 16], [25, 26, 27, 28], [5, 6, 7, 9]);
    let mut trace = vec![7; 768];
    assert_eq!(build(&s(), &taps, &mut trace), Ok(w_6));
    assert_eq!(edit(&s(), &mut trace, w_3, 1, 6, new), Ok(w_3));
    assert_eq!(check(&s(), &trace, new, 2), Ok(744));
    assert_eq!(edit(&s(), &mut trace, w_3, 1, 3, new), Ok(new));
    assert_eq!(check(&s(), &trace, new, 1), Ok(744));
}

/// The claim ends after more than 1024 batches, where c is counted in 11 bits or held to
/// the full edition's.
#[test]
fn c_held_to_1024() {
    let trace = vec![0; 384 * 2048];
    for c in [1025, 2047, 2048] {
        let answer = check(&z(), &trace, [0, 0, P, 0], c);
        assert_eq!(answer, Err(Refusal::ClaimWord { index: 2 }), "{c}");
    }
    for c in [0, 2049, 4096] {
        let answer = check(&z(), &trace, [0, 0, P, 0], c);
        assert_eq!(answer, Err(Refusal::ClaimBatches), "{c}");
    }
}
