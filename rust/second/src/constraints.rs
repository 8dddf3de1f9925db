//! The 52 constraints (document 01, "The 52 constraints"; document 02, U6; 004,
//! 3.3.2).
//!
//! Read literally: the ordered list of tests, one function that evaluates one
//! test from the lent words, and a walk. c is lent with the claim, which is about
//! the first 3c + 1 taps; c = k is document 01's claim.

use crate::field::{add, cube, first_not_canonical, mul, sub};
use crate::hash::{list_words, ROUNDS, TAP};
use crate::refusal::Refusal;
use crate::table::{Table, CELLS};
use crate::trace::{k_of_trace, ROWS};

/// How many constraints there are.
pub const LAST_CONSTRAINT: usize = 52;

/// A test: one constraint at one row of the trace where it applies.
#[derive(Clone, Copy, Debug, PartialEq, Eq)]
pub struct Test {
    /// Row number in the whole trace, from 0.
    pub row: usize,
    /// Constraint number, from 1.
    pub constraint: usize,
}

/// Does the constraint apply at this row of a trace of k batches, under a claim
/// with this c?
pub fn applies(k: usize, c: usize, test: Test) -> bool {
    let batch = test.row / ROWS;
    let row = test.row % ROWS;
    match test.constraint {
        1..=4 => row == 0,
        5..=8 => row == 10 || row == 20,
        9..=20 => row == 0,
        21..=24 => (1..=29).contains(&row),
        25..=32 => (1..=29).contains(&row) && row != 10 && row != 20,
        33..=44 => row == 30,
        45..=48 => row == 31 && batch + 1 < k,
        49..=52 => row == 31 && batch + 1 == c,
        _ => false,
    }
}

/// All tests of a trace of k batches under a claim with this c, in their order:
/// rows of the whole trace rising, constraint numbers rising within a row. They are
/// made one by one, since 2^18 batches have 97517568 (document 02, U9).
fn in_order(k: usize, c: usize) -> impl Iterator<Item = Test> {
    let at_row = |row| (1..=LAST_CONSTRAINT).map(move |constraint| Test { row, constraint });
    let all = (0..ROWS * k).flat_map(at_row);
    all.filter(move |&test| applies(k, c, test))
}

/// The same as a list.
pub fn tests(k: usize, c: usize) -> Vec<Test> {
    in_order(k, c).collect()
}

/// A lent trace with its table, claim and c, all tested.
#[derive(Clone, Copy)]
pub struct Lent<'a> {
    pub table: Table<'a>,
    pub trace: &'a [u64],
    pub claim: [u64; TAP],
    pub c: usize,
}

impl Lent<'_> {
    /// A cell of the trace; the row counts in the whole trace.
    pub fn cell(&self, row: usize, column: usize) -> u64 {
        self.trace[CELLS * row + column]
    }

    /// Forward of a row: its cells cubed, times M, plus that round's
    /// second-step constant; at rows 10 and 20 K_0 is added too, in columns 0
    /// to 3 only.
    pub fn forward(&self, row: usize, column: usize) -> u64 {
        let round = round_of(row);
        let mut sum = self.table.k(2 * round + 2, column);
        for j in 0..CELLS {
            let cubed = cube(self.cell(row, j));
            sum = add(sum, mul(self.table.m(column, j), cubed));
        }
        if (row % ROWS == 10 || row % ROWS == 20) && column < TAP {
            sum = add(sum, self.table.k(0, column));
        }
        sum
    }

    /// Back of a row: its cells less that round's first-step constant, times
    /// the inverse of M, then cubed.
    pub fn back(&self, row: usize, column: usize) -> u64 {
        let round = round_of(row);
        let mut sum = 0;
        for j in 0..CELLS {
            let less = sub(self.cell(row, j), self.table.k(2 * round + 1, j));
            sum = add(sum, mul(self.table.inverse(column, j), less));
        }
        cube(sum)
    }

    /// Does the test hold?
    pub fn holds(&self, test: Test) -> bool {
        let Test { row, constraint } = test;
        match constraint {
            1..=4 => self.cell(row, constraint - 1 + 8) == 0,
            5..=8 => {
                let column = constraint - 5 + 8;
                self.back(row + 1, column) == self.table.k(0, column)
            }
            9..=20 => {
                let column = constraint - 9;
                add(self.cell(row, column), self.table.k(0, column)) == self.back(row + 1, column)
            }
            21..=32 => self.forward(row, constraint - 21) == self.back(row + 1, constraint - 21),
            33..=44 => self.forward(row, constraint - 33) == self.cell(row + 1, constraint - 33),
            45..=48 => self.cell(row, constraint - 45) == self.cell(row + 1, constraint - 45),
            49..=52 => self.cell(row, constraint - 49) == self.claim[constraint - 49],
            _ => unreachable!("constraints are numbered 1 to 52"),
        }
    }

    /// The walk: how many tests there are, or the first one that fails.
    pub fn walk(&self, k: usize) -> Result<u64, Refusal> {
        let mut walked = 0;
        for test in in_order(k, self.c) {
            walked += 1;
            if !self.holds(test) {
                return Err(Refusal::Constraint {
                    row: test.row as u64,
                    constraint: test.constraint as u64,
                    tests: walked,
                });
            }
        }
        Ok(walked)
    }

    /// The taps: w_0 and w_1 from the first row 0; further ones from columns 4
    /// to 7 of each later row 0, and of back less K_0 at rows 10 and 20.
    pub fn taps(&self, k: usize) -> Vec<u64> {
        let mut taps: Vec<u64> = (0..TAP).map(|column| self.cell(0, column)).collect();
        for batch in 0..k {
            let first = ROWS * batch;
            taps.extend((TAP..2 * TAP).map(|column| self.cell(first, column)));
            for row in [first + 10, first + 20] {
                taps.extend((TAP..2 * TAP).map(|column| {
                    // "at" a row is the back that its constraints compare.
                    sub(self.back(row + 1, column), self.table.k(0, column))
                }));
            }
        }
        taps
    }
}

/// The round whose middle state stands in this row: rows 1 to 10, 11 to 20 and
/// 21 to 30 of a batch are rounds 0 to 9.
fn round_of(row: usize) -> usize {
    (row % ROWS - 1) % ROUNDS
}

/// Check: the table's refusals, 7, 17, 9, 10, 11. Returns the number of tests.
pub fn check(table: &[u64], trace: &[u64], claim: [u64; TAP], c: usize) -> Result<u64, Refusal> {
    let table = Table::test(table)?;
    let k = test_batches(trace, c)?;
    test_words(trace, claim)?;
    Lent {
        table,
        trace,
        claim,
        c,
    }
    .walk(k)
}

/// Read-off: the table's refusals, 7, 17, 8, 9, 10, 11. Does what Check does and writes the
/// taps, all 3k + 1 of them whatever c is.
pub fn read_off(
    table: &[u64],
    trace: &[u64],
    claim: [u64; TAP],
    c: usize,
    destination: &mut [u64],
) -> Result<u64, Refusal> {
    let table = Table::test(table)?;
    let k = test_batches(trace, c)?;
    if destination.len() != list_words(k) {
        return Err(Refusal::DestinationLength);
    }
    test_words(trace, claim)?;
    let lent = Lent {
        table,
        trace,
        claim,
        c,
    };
    let tests = lent.walk(k)?;
    destination.copy_from_slice(&lent.taps(k));
    Ok(tests)
}

/// 7, then 17: the k of the trace, where c is from 1 to k.
pub fn test_batches(trace: &[u64], c: usize) -> Result<usize, Refusal> {
    let k = k_of_trace(trace.len()).ok_or(Refusal::TraceLength)?;
    if (1..=k).contains(&c) {
        Ok(k)
    } else {
        Err(Refusal::ClaimBatches)
    }
}

/// 9, then 10.
pub fn test_words(trace: &[u64], claim: [u64; TAP]) -> Result<(), Refusal> {
    test_claim(claim)?;
    match first_not_canonical(trace) {
        Some(index) => Err(Refusal::TraceWord {
            index: index as u64,
        }),
        None => Ok(()),
    }
}

/// 9: the lowest index of a claim word that is not canonical.
pub fn test_claim(claim: [u64; TAP]) -> Result<(), Refusal> {
    match first_not_canonical(&claim) {
        Some(index) => Err(Refusal::ClaimWord {
            index: index as u64,
        }),
        None => Ok(()),
    }
}
