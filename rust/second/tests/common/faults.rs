//! What the tests of the refusals share: damaged tables and traces, and refusals with
//! their places.

use super::*;
use second::build;

pub const TABLE_LENGTH: Refusal = Refusal::TableLength;
pub const TABLE_WORD: Refusal = Refusal::TableWord { index: 200 };
pub const INVERSE_CELL: Refusal = Refusal::InverseCell { cell: 15 };
pub const TRACE_WORD: Refusal = Refusal::TraceWord { index: 17 };
pub const CLAIM_WORD: Refusal = Refusal::ClaimWord { index: 2 };

/// A table in three states of damage, then mended: 1, 2, 4, none.
pub fn tables() -> [Vec<u64>; 4] {
    let mended = a();
    let mut cell = mended.clone();
    cell[144 + 15] = 1; // the stored inverse's row 1, column 3
    let mut word = cell.clone();
    word[539] = P + 1;
    word[200] = P;
    let mut length = word.clone();
    length.push(0);
    [length, word, cell, mended]
}

/// Trace and claim in four states of damage, then mended: 7, 9, 10, 11, none.
pub fn traces() -> [(Vec<u64>, [u64; 4]); 5] {
    let mut mended = vec![0; 768];
    let claim = build(&a(), &[0; 28], &mut mended).expect("builds");
    let mut cell = mended.clone();
    cell[12 * 40 + 2] = 9;
    let mut word = cell.clone();
    word[767] = u64::MAX;
    word[17] = P;
    let length = vec![P; 384 * 3];
    let bad_claim = [claim[0], claim[1], P, P];
    [
        (length, bad_claim),
        (word.clone(), bad_claim),
        (word, claim),
        (cell, claim),
        (mended, claim),
    ]
}

/// Under A, back of row 40 is the first to see its cell 2: row 39, the test
/// 21 + 2. Before it: 372 of batch 0, 16 at row 32, 6 x 12, and 2 at row 39.
pub const FAILED: Refusal = Refusal::Constraint {
    row: 39,
    constraint: 23,
    tests: 372 + 16 + 72 + 3,
};

/// Zeros of so many words, of which a call reads few: pages that nobody writes to take
/// no memory.
pub fn zeros(words: usize) -> Vec<u64> {
    vec![0; words]
}

/// Word 0, 0, p - 1, 0, p - 1 and so on: 41 words.
pub fn both_widths() -> Vec<u32> {
    let mut words = vec![0x20000001];
    for _ in 0..10 {
        words.extend([0xC0000000, 0x40000002, 0x80000050, 0xC0000000]);
    }
    words
}
