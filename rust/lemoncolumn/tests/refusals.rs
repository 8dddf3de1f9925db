//! The decoder of refusals beside document 01's table, "What is turned back", and
//! document 02.

use lemoncolumn::*;
use std::panic::catch_unwind;

/// Each number, and whether an index or a cell is named with it there.
const TABLE: [(u64, bool); 19] = [
    (1, false),
    (2, true),
    (3, false),
    (4, true),
    (5, false),
    (6, true),
    (7, false),
    (8, false),
    (9, true),
    (10, true),
    (11, false),
    (12, false),
    (13, true),
    (14, true),
    (15, false),
    (16, false),
    (17, false),
    (18, true),
    (19, false),
];

/// The largest constraint, row and index or count that a returned word has bits for: 6,
/// 24 and 28.
const CONSTRAINT: u64 = 63;
const ROW: u64 = 16777215;
const VALUE: u64 = 268435455;

/// The word that a call returns, every other part of it full.
fn code(number: u64) -> u64 {
    number | CONSTRAINT << 6 | ROW << 12 | VALUE << 36
}

#[test]
fn numbers_and_indices() {
    for (number, has_index) in TABLE {
        let refusal = decode(code(number)).expect_err("a refusal");
        assert_eq!(refusal.number(), number);
        assert_eq!(refusal.index(), has_index.then_some(VALUE), "{number}");
        let line = match (number, has_index) {
            (11, _) => "refused 11 16777215 63".to_string(),
            (_, true) => format!("refused {number} 268435455"),
            (_, false) => format!("refused {number}"),
        };
        assert_eq!(refusal.to_string(), line);
    }
}

/// All full, and each full alone: no part has a bit of another's.
#[test]
fn a_constraint_has_row_number_and_tests() {
    for (constraint, row, tests) in [
        (CONSTRAINT, ROW, VALUE),
        (CONSTRAINT, 0, 0),
        (0, ROW, 0),
        (0, 0, VALUE),
    ] {
        let code = 11 + 64 * constraint + 4096 * row + 68719476736 * tests;
        let refusal = Refusal::Constraint {
            row,
            constraint,
            tests,
        };
        assert_eq!(decode(code), Err(refusal), "{code:x}");
    }
}

#[test]
fn no_refusal_has_a_higher_number() {
    for number in TABLE.len() as u64 + 1..1 << 6 {
        assert!(catch_unwind(|| decode(code(number))).is_err(), "{number}");
    }
}

#[test]
fn acceptance() {
    for tests in [0, 372, 372 * 262144, VALUE] {
        assert_eq!(decode(tests << 36), Ok(tests));
    }
}
