//! Document 01's "Traps" about words, products and hashes, one test each, and those of
//! document 02's U3 and U5, of the final state and of Unhash.
//! Each is a case where the mistake would give another answer than the one asserted.

mod common;
use common::*;
use second::field::{mul, P};
use second::{build, chain, check, hash, unhash, unpack, Refusal};

/// S moves each cell one up at every step, twenty steps, so eight up; read
/// transposed it would move them down, and cells 0 to 3 would be the four zeros.
#[test]
fn m_read_transposed() {
    assert_eq!(
        hash(&s(), [1, 2, 3, 4, 5, 6, 7, 9]),
        Ok([5, 6, 7, 9, 0, 0, 0, 0, 1, 2, 3, 4]),
        "cells 4 to 7 reach 0 to 3"
    );
    let mut trace = vec![0; 384];
    build(&s(), &[1; 16], &mut trace).expect("builds");
    assert_eq!(check(&s(), &trace, [1; 4], 1), Ok(372));
}

#[test]
fn zero_and_p_taken_as_equal() {
    let mut trace = vec![0; 384];
    trace[100] = P;
    let refused = Err(Refusal::TraceWord { index: 100 });
    assert_eq!(check(&z(), &trace, [0; 4], 1), refused);
    let refused = Err(Refusal::ClaimWord { index: 3 });
    assert_eq!(check(&z(), &[0; 384], [0, 0, 0, P], 1), refused);
    let mut taps = vec![0; 16];
    taps[0] = P;
    assert_eq!(chain(&z(), &taps), Err(Refusal::TapWord { index: 0 }));
    let mut table = z();
    table[1] = P;
    let refused = Err(Refusal::TableWord { index: 1 });
    assert_eq!(chain(&table, &[0; 16]), refused);
    // In a file p = 2 x 2^60 + 80 x 2^30 + 1: words 4, 5, 6 are element 1.
    let mut file = zero_file();
    file[16] = 2;
    file[20] = 80;
    file[24] = 1;
    let refused = Err(Refusal::Value { word: 4 });
    assert_eq!(unpack(&file, &mut [0; 16]), refused);
    file[24] = 0; // p - 1
    assert_eq!(unpack(&file, &mut [0; 16]), Ok([0, P - 1, 0, 0]));
}

#[test]
fn a_product_that_overflows_64_bits() {
    assert_eq!(mul(1 << 31, 1 << 31), 2305842923314348031);
    // 2^32 x 2^32 = 2^64 = 8 (p - 20 x 2^32 - 1) = -(160 x 2^32 + 8).
    assert_eq!(mul(1 << 32, 1 << 32), P - (160 * (1 << 32) + 8));
    assert_eq!(mul(P - 1, 2), P - 2);
}

/// A hash whose final state is this, where the mistake gives another.
fn told_apart(table: &[u64], words: [u64; 8], state: [u64; 12], mistaken: [u64; 12]) {
    assert_ne!(mistaken, state);
    assert_eq!(hash(table, words), Ok(state));
}

/// S with K_20[j] = 100 + j. Up to K_20 a hash is that of S, which moves each cell
/// of its input eight up: (5, 6, 7, 9, 0, 0, 0, 0, 1, 2, 3, 4) for the one below.
fn s_with_last_constants() -> Vec<u64> {
    let mut raw = s_raw();
    for (j, word) in (0..).zip(&mut raw[144 + 12 * 20..]) {
        *word = 100 + j;
    }
    prepared(&raw)
}

const WORDS: [u64; 8] = [1, 2, 3, 4, 5, 6, 7, 9];
const STATE: [u64; 12] = [105, 107, 109, 112, 104, 105, 106, 107, 109, 111, 113, 115];

#[test]
fn the_old_answer_and_eight_zeros() {
    let mistaken = [105, 107, 109, 112, 0, 0, 0, 0, 0, 0, 0, 0];
    told_apart(&s_with_last_constants(), WORDS, STATE, mistaken);
}

/// In every column, or in those that the old answer did not have.
#[test]
fn the_state_before_the_last_constants() {
    let everywhere = [5, 6, 7, 9, 0, 0, 0, 0, 1, 2, 3, 4];
    let from_4_on = [105, 107, 109, 112, 0, 0, 0, 0, 1, 2, 3, 4];
    for mistaken in [everywhere, from_4_on] {
        told_apart(&s_with_last_constants(), WORDS, STATE, mistaken);
    }
}

#[test]
fn cells_4_to_11_of_the_input() {
    let mistaken = [105, 107, 109, 112, 5, 6, 7, 9, 0, 0, 0, 0];
    told_apart(&s_with_last_constants(), WORDS, STATE, mistaken);
}

/// Under Z the final state is the input, and each middle state its roots.
#[test]
fn the_middle_state_of_the_last_round() {
    let everywhere = [2, 3, 1, 0, 4, 5, 0, P - 1, 0, 0, 0, 0];
    let from_4_on = [8, 27, 1, 0, 4, 5, 0, P - 1, 0, 0, 0, 0];
    for mistaken in [everywhere, from_4_on] {
        told_apart(
            &z(),
            [8, 27, 1, 0, 64, 125, 0, P - 1],
            [8, 27, 1, 0, 64, 125, 0, P - 1, 0, 0, 0, 0],
            mistaken,
        );
    }
}

/// S turned about moves each cell eight down, so that (a, b, four zeros) ends as
/// (four zeros, a, b). Where a hash begins with four zeros in cells 8 to 11, the
/// output is zeros too; where it keeps those cells of the state before, the output
/// is w_2.
#[test]
fn a_chain_that_goes_on_with_all_twelve_cells() {
    let mut raw = vec![0; 396];
    for i in 0..12 {
        raw[12 * i + (i + 1) % 12] = 1;
    }
    let table = prepared(&raw);
    let taps: Vec<u64> = (1..=16).collect();
    assert_eq!(
        hash(&table, WORDS),
        Ok([0, 0, 0, 0, 1, 2, 3, 4, 5, 6, 7, 9])
    );
    assert_eq!(chain(&table, &taps), Ok([0; 4]));
    let mut trace = vec![7; 384];
    assert_eq!(build(&table, &taps, &mut trace), Ok([0; 4]));
    let row_31 = [0, 0, 0, 0, 0, 0, 0, 0, 13, 14, 15, 16];
    assert_eq!(trace[12 * 31..], row_31);
}

/// The inverse of S moves each cell one down, and in twenty steps eight down. S
/// itself, or its inverse read transposed, would move them eight up once more, and
/// (5, 6, 7, 9) would come to where the four zeros belong.
#[test]
fn m_in_place_of_its_inverse() {
    let state = [5, 6, 7, 9, 0, 0, 0, 0, 1, 2, 3, 4];
    assert_eq!(unhash(&s(), state), Ok(WORDS));
    assert_eq!(unhash(&s_with_last_constants(), STATE), Ok(WORDS));
}

/// Z with K_1[0] = 7, K_19[0] = 1 and K_20[0] = 4. From 8 in cell 0, round 0 comes to
/// (2 + 7)^3 = 729, and round 9 to (9 + 1)^3 + 4 = 1004; the rounds between change
/// nothing.
fn two_rounds_with_constants() -> Vec<u64> {
    let mut raw = z_raw();
    for (number, word) in [(1, 7), (19, 1), (20, 4)] {
        raw[144 + 12 * number] = word;
    }
    prepared(&raw)
}

/// Round 0 undone first, root and cube exchanged, the constants of a round exchanged,
/// or a neighbour's taken: none of them comes from 1004 to 8.
#[test]
fn steps_undone_in_another_order() {
    let table = two_rounds_with_constants();
    let state = [1004, 0, 0, 0, 0, 0, 0, 0, 0, 0, 0, 0];
    let pair = [8, 0, 0, 0, 0, 0, 0, 0];
    assert_eq!(hash(&table, pair), Ok(state));
    assert_eq!(unhash(&table, state), Ok(pair));
}

/// Under A the hash of zeros is 1 in cell 0.
#[test]
fn k_0_left_in_the_pair() {
    let state = [1, 0, 0, 0, 0, 0, 0, 0, 0, 0, 0, 0];
    assert_eq!(unhash(&a(), state), Ok([0; 8]));
}

/// Z with K_0[8 + j] = 5 + j: those stand where zeros are asked for before K_0 is
/// taken off.
#[test]
fn k_0_left_on_the_four_zeros() {
    let mut raw = z_raw();
    raw[144 + 8..144 + 12].copy_from_slice(&[5, 6, 7, 8]);
    let table = prepared(&raw);
    let state = [1, 2, 3, 4, 5, 6, 7, 9, 5, 6, 7, 8];
    assert_eq!(unhash(&table, state), Ok(WORDS));
    let state = [1, 2, 3, 4, 5, 6, 7, 9, 0, 0, 0, 0];
    assert_eq!(unhash(&table, state), Err(Refusal::NoPair));
}

/// Each by itself, and their sum is no test of all.
#[test]
fn one_of_the_four_zeros_not_tested() {
    let rests = [
        [1, 0, 0, 0],
        [0, 1, 0, 0],
        [0, 0, 1, 0],
        [0, 0, 0, 1],
        [1, P - 1, 0, 0],
        [0, 2, P - 1, P - 1],
    ];
    for [a, b, c, d] in rests {
        let state = [1, 2, 3, 4, 5, 6, 7, 9, a, b, c, d];
        assert_eq!(unhash(&z(), state), Err(Refusal::NoPair));
    }
}

#[test]
fn a_cell_p_taken_for_0() {
    for index in 0..12 {
        let mut state = [0; 12];
        state[index as usize] = P;
        let refused = Err(Refusal::TapWord { index });
        assert_eq!(unhash(&z(), state), refused);
    }
}
