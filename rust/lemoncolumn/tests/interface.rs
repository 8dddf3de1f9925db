//! The number of the interface is the same in the library, in the header for C
//! and here, so are the calls, and every safe call goes by the number.

use lemoncolumn::*;
use std::collections::BTreeSet;

const HEADER: &str = include_str!("../../../include/lemoncolumn.h");
const SAFE: &str = include_str!("../src/lib.rs");
const CALLS: &str = include_str!("../src/calls.rs");

#[test]
fn numbers_agree() {
    // SAFETY: it takes nothing.
    assert_eq!(unsafe { calls::lemoncolumn_interface() }, INTERFACE);
    let mut defined = HEADER
        .lines()
        .filter_map(|line| line.strip_prefix("#define LEMONCOLUMN_INTERFACE "));
    assert_eq!(defined.next(), Some(INTERFACE.to_string().as_str()));
    assert_eq!(defined.next(), None);
}

/// The names of the functions that are declared on lines which begin so.
fn names<'a>(lines: &'a str, beginning: &str) -> BTreeSet<&'a str> {
    let begun = lines
        .lines()
        .filter_map(|line| line.strip_prefix(beginning));
    begun.filter_map(|rest| rest.split('(').next()).collect()
}

#[test]
fn calls_agree() {
    let mut declared = names(HEADER, "lemoncolumn_code ");
    declared.extend(names(HEADER, "uint64_t "));
    assert_eq!(declared, names(CALLS, "    pub fn "));
    assert!(declared.contains("lemoncolumn_interface"));
}

/// A call of the library stands in `call`, which compares the numbers first:
/// `unsafe` is written nowhere else. There is one for each declared function but
/// the one that says the number.
#[test]
fn every_safe_call_compares_them() {
    let compared = SAFE.matches("call(|| unsafe {").count();
    assert_eq!(compared, SAFE.matches("unsafe").count());
    assert_eq!(compared, CALLS.matches("pub fn ").count() - 1);
}
