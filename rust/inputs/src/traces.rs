//! Traces (document 01, "The trace" and "The 52 constraints"; document 02, U6):
//! honest ones, ones that fail just the tests one wishes, and altered cells. c is
//! lent with the claim, which is about the first 3c + 1 taps.
//!
//! A trace is written here from its first row to its last, and each row is
//! chosen so that the next tests come out as wished. That is possible for every
//! accepted table, because M and the root can be undone: whatever twelve words
//! back shall be, one row has that back. So for each of the 372k tests there is
//! a trace that fails it and no other, and but for 49 to 52 the same for every c:
//!
//! - 1 to 4: row 0 gets a word other than 0 in that column, and the rows after
//!   it are computed from there.
//! - 5 to 8: at row 10 or 20 the next hash starts from K_0 plus something in
//!   that column of the capacity.
//! - 9 to 20: row 1 is computed from row 0 plus K_0 plus something.
//! - 21 to 32: the next row is computed from forward plus something.
//! - 33 to 44: row 31 is forward of row 30 plus something; what follows, the
//!   next row 0 and the claim, is taken from that row 31.
//! - 45 to 48: the next row 0 takes the output plus something.
//! - 49 to 52: the claim is the output of batch c - 1 plus something.

use crate::random::Random;
use crate::tables::{dense, good, Good};
use crate::taps::{list, some_c};
use second::field::{add, cube, mul, root, P};
use second::Refusal;
use std::collections::BTreeSet;
use std::ops::RangeInclusive;

/// A row, or a state of a hash.
pub type Cells = [u64; 12];

/// A test that shall fail, and by how much.
#[derive(Clone, Copy, Debug)]
pub struct Fault {
    /// Row number in the whole trace.
    pub row: usize,
    pub constraint: usize,
    /// Not 0.
    pub by: u64,
}

impl Fault {
    /// Whether it is one under a claim with this c: 49 to 52 apply at one row.
    fn applies(&self, c: usize) -> bool {
        self.constraint < 49 || self.row + 1 == 32 * c
    }
}

/// By how much a test shall fail; 0 where it shall hold.
fn wished(faults: &[Fault], row: usize, constraint: usize) -> u64 {
    let wanted = |fault: &&Fault| fault.row == row && fault.constraint == constraint;
    faults.iter().find(wanted).map_or(0, |fault| fault.by)
}

/// The trace of a list with these tests failing and no others, and the claim
/// with this c that goes with it. Without faults it is the list's section 3.1
/// trace, and the output of the first 3c + 1 taps.
pub fn with_faults(table: &Good, taps: &[u64], c: usize, faults: &[Fault]) -> (Vec<u64>, [u64; 4]) {
    let trace = trace_with(table, taps, faults);
    let claim = claim_with(&trace, c, faults);
    (trace, claim)
}

/// Cells 0 to 3 of row 31 of batch c - 1: in a list's trace, what the first 3c + 1
/// taps chain to.
pub fn output_after(trace: &[u64], c: usize) -> [u64; 4] {
    let row_31 = 384 * c - 12;
    std::array::from_fn(|j| trace[row_31 + j])
}

fn claim_with(trace: &[u64], c: usize, faults: &[Fault]) -> [u64; 4] {
    let output = output_after(trace, c);
    std::array::from_fn(|j| add(output[j], wished(faults, 32 * c - 1, 49 + j)))
}

fn trace_with(table: &Good, taps: &[u64], faults: &[Fault]) -> Vec<u64> {
    let by = |row: usize, constraint: usize| wished(faults, row, constraint);
    let tap = |number: usize, column: usize| taps[4 * number + column];
    let k_0 = |column: usize| table.k(0, column);
    let k = (taps.len() - 4) / 12;
    let mut trace: Vec<u64> = vec![];
    let mut last: Cells = std::array::from_fn(|j| if j < 4 { tap(0, j) } else { 0 });
    for batch in 0..k {
        let first = 32 * batch;
        let row_0: Cells = std::array::from_fn(|j| match j {
            0..=3 if batch == 0 => last[j],
            0..=3 => add(last[j], by(first - 1, 45 + j)),
            4..=7 => tap(3 * batch + 1, j - 4),
            _ => by(first, 1 + j - 8),
        });
        trace.extend(row_0);
        let mut start: Cells =
            std::array::from_fn(|j| add(add(row_0[j], k_0(j)), by(first, 9 + j)));
        for row in 1..=30 {
            let round = (row - 1) % 10;
            let middle = times_m(table, start.map(root), 2 * round + 1);
            trace.extend(middle);
            let next = times_m(table, middle.map(cube), 2 * round + 2);
            let at = first + row;
            start = std::array::from_fn(|j| match (row, j) {
                (10 | 20, 0..=3) => add(add(next[j], k_0(j)), by(at, 21 + j)),
                (10 | 20, 4..=7) => add(tap(3 * batch + 1 + row / 10, j - 4), k_0(j)),
                (10 | 20, _) => add(k_0(j), by(at, 5 + j - 8)),
                (30, _) => add(next[j], by(at, 33 + j)),
                _ => add(next[j], by(at, 21 + j)),
            });
        }
        trace.extend(start);
        last = start;
    }
    trace
}

/// M times the cells, plus K_number.
pub fn times_m(table: &Good, cells: Cells, number: usize) -> Cells {
    std::array::from_fn(|i| {
        let products = (0..12).map(|j| mul(table.m(i, j), cells[j]));
        products.fold(table.k(number, i), add)
    })
}

/// The rows of a trace of k batches at which a constraint applies, under a claim
/// with this c.
pub fn rows_of(k: usize, c: usize, constraint: usize) -> Vec<usize> {
    let within: Vec<usize> = match constraint {
        1..=4 | 9..=20 => vec![0],
        5..=8 => vec![10, 20],
        21..=24 => (1..30).collect(),
        25..=32 => (1..30).filter(|row| row % 10 != 0).collect(),
        33..=44 => vec![30],
        _ => vec![31],
    };
    let batches = match constraint {
        45..=48 => 0..k - 1,
        49..=52 => c - 1..c,
        _ => 0..k,
    };
    batches
        .flat_map(|batch| within.iter().map(move |row| 32 * batch + row))
        .collect()
}

/// The rows at which it applies under some claim.
pub fn rows_for_some_c(k: usize, constraint: usize) -> Vec<usize> {
    let rows = (1..=k).flat_map(|c| rows_of(k, c, constraint));
    BTreeSet::from_iter(rows).into_iter().collect()
}

/// The c of the claims under which one of those tests is in the order.
pub fn cs_of(k: usize, (row, constraint): (usize, usize)) -> RangeInclusive<usize> {
    match constraint {
        49..=52 => row / 32 + 1..=row / 32 + 1,
        _ => 1..=k,
    }
}

/// The place of a test in the order, counted from 1: 372 tests a batch; 16 at
/// row 0, 12 at rows 1 to 30 but 8 at 10 and 20, 4 at row 31. Where the claim's four
/// do not stand in the last row, they come after the four that row 31 of batch c - 1
/// has, and before all later batches.
pub fn place(k: usize, c: usize, (row, constraint): (usize, usize)) -> usize {
    let (batch, row) = (row / 32, row % 32);
    let claims = 4 * usize::from(batch >= c);
    let shorter = 4 * (usize::from(row > 10) + usize::from(row > 20));
    let before = if row == 0 {
        0
    } else {
        16 + 12 * (row - 1) - shorter
    };
    let within = match constraint {
        1..=4 => constraint,
        5..=8 => constraint - 4,
        9..=20 => constraint - 4,
        21..=24 if row % 10 == 0 => constraint - 16,
        21..=32 => constraint - 20,
        33..=44 => constraint - 32,
        45..=48 => constraint - 44,
        _ if c < k => constraint - 44,
        _ => constraint - 48,
    };
    372 * batch + claims + before + within
}

/// Refusal 11 of this test.
pub fn failed(k: usize, c: usize, test: (usize, usize)) -> Refusal {
    let (row, constraint) = test;
    Refusal::Constraint {
        row: row as u64,
        constraint: constraint as u64,
        tests: place(k, c, test) as u64,
    }
}

/// The first test that fails when one cell of an accepted trace is altered.
///
/// A cell of rows 1 to 30 reaches back through its column of the inverse; the
/// columns where that is not 0 change, for cubes of different words differ. At
/// rows 11 and 21 back is compared in columns 8 to 11 and 0 to 3 only; a cell
/// that reaches none of these shows one row later, in forward.
pub fn first_failure_of_cell(table: &Good, row: usize, column: usize) -> (usize, usize) {
    let reached = |c: &usize| table.inverse(*c, column) != 0;
    let backward = || (0..12).find(reached).expect("no column of zeros");
    match row % 32 {
        0 if row > 0 && column < 4 => (row - 1, 45 + column),
        0 if column >= 8 => (row, 1 + column - 8),
        0 => (row, 9 + column),
        1 => (row - 1, 9 + backward()),
        11 | 21 => {
            if let Some(c) = (8..12).find(reached) {
                (row - 1, 5 + c - 8)
            } else if let Some(c) = (0..4).find(reached) {
                (row - 1, 21 + c)
            } else {
                let reached = |c: &usize| table.m(*c, column) != 0;
                let forward = (0..12).find(reached).expect("no column of zeros");
                (row, 21 + forward)
            }
        }
        31 => (row - 1, 33 + column),
        _ => (row - 1, 21 + backward()),
    }
}

/// The first test that fails when a constant is another than the one that the
/// trace was written with.
fn first_failure_of_constant(table: &Good, number: usize, column: usize) -> (usize, usize) {
    let reached = |c: &usize| table.inverse(*c, column) != 0;
    let backward = || (0..12).find(reached).expect("no column of zeros");
    match number {
        0 => (0, 9 + column),
        1 => (0, 9 + backward()),
        20 if column < 4 => (10, 21 + column),
        20 => (30, 33 + column), // new taps hide it at rows 10 and 20
        _ if number % 2 == 1 => ((number - 1) / 2, 21 + backward()),
        _ => (number / 2, 21 + column),
    }
}

/// A table, a trace and a claim with its c, all of canonical words, and the first
/// test that fails, if any.
#[derive(Clone, Debug)]
pub struct Day {
    pub name: String,
    pub table: Good,
    pub taps: Vec<u64>,
    pub trace: Vec<u64>,
    pub claim: [u64; 4],
    pub c: usize,
    pub fails: Option<(usize, usize)>,
}

impl Day {
    pub fn k(&self) -> usize {
        self.taps.len() / 12
    }

    /// 11, if a test fails.
    pub fn refusal(&self) -> Option<Refusal> {
        self.fails.map(|test| failed(self.k(), self.c, test))
    }
}

/// The honest day of a list.
pub fn day(table: Good, taps: Vec<u64>, c: usize) -> Day {
    faulty_day(table, taps, c, &[])
}

/// An honest day under any table.
pub fn honest(random: &mut Random, k: usize) -> Day {
    let table = good(random);
    let taps = list(random, k);
    let c = some_c(random, k);
    day(table, taps, c)
}

/// An honest day whose cells are all likely to differ from any other day's.
fn busy(random: &mut Random, k: usize) -> Day {
    let table = dense(random);
    let taps = random.uniform(12 * k + 4);
    let c = some_c(random, k);
    day(table, taps, c)
}

/// A day that fails; `kind` is taken in turn.
pub fn broken(random: &mut Random, k: usize, kind: usize) -> Day {
    match kind % 10 {
        0 => {
            let constraint = 1 + random.below(52);
            faulty(random, k, &[constraint])
        }
        1 => {
            let count = 2 + random.below(3);
            let constraints: Vec<usize> = (0..count).map(|_| 1 + random.below(52)).collect();
            faulty(random, k, &constraints)
        }
        2 => altered_cells(random, k, 1),
        3 => {
            let count = 2 + random.below(8);
            altered_cells(random, k, count)
        }
        4 => wrong_claim(random, k),
        5 => wrong_constant(random, k),
        6 => spliced(random, k),
        7 => batches_moved(random, k.max(2)),
        8 => foreign(random, k),
        _ => rows_moved(random, k),
    }
}

/// These constraints fail, each at one row, and nothing else.
fn faulty(random: &mut Random, k: usize, constraints: &[usize]) -> Day {
    let joins = constraints.iter().any(|c| (45..=48).contains(c));
    let k = if joins { k.max(2) } else { k };
    let c = some_c(random, k);
    let mut faults: Vec<Fault> = vec![];
    for &constraint in constraints {
        let row = random.pick(&rows_of(k, c, constraint));
        let by = random.unit();
        faults.retain(|fault| (fault.row, fault.constraint) != (row, constraint));
        faults.push(Fault {
            row,
            constraint,
            by,
        });
    }
    let table = good(random);
    let taps = list(random, k);
    faulty_day(table, taps, c, &faults)
}

/// The day of a list with these faults.
pub fn faulty_day(table: Good, taps: Vec<u64>, c: usize, faults: &[Fault]) -> Day {
    let trace = trace_with(&table, &taps, faults);
    day_of(table, taps, trace, c, faults)
}

/// The same for each c. The trace is written once, since c decides about the claim
/// alone; a fault of 49 to 52 is one for the c whose row it names.
pub fn faulty_days<'a>(
    table: &'a Good,
    taps: &'a [u64],
    cs: impl IntoIterator<Item = usize> + 'a,
    faults: &'a [Fault],
) -> impl Iterator<Item = Day> + 'a {
    let trace = trace_with(table, taps, faults);
    let day = move |c| day_of(table.clone(), taps.to_vec(), trace.clone(), c, faults);
    cs.into_iter().map(day)
}

/// The same without a fault.
pub fn honest_days<'a>(
    table: &'a Good,
    taps: &'a [u64],
    cs: impl IntoIterator<Item = usize> + 'a,
) -> impl Iterator<Item = Day> + 'a {
    faulty_days(table, taps, cs, &[])
}

/// The day of a trace that was made with these faults.
fn day_of(table: Good, taps: Vec<u64>, trace: Vec<u64>, c: usize, faults: &[Fault]) -> Day {
    let under_c = faults.iter().filter(|fault| fault.applies(c));
    let places: Vec<(usize, usize)> = under_c.map(|f| (f.row, f.constraint)).collect();
    let fails = match places[..] {
        [] => String::new(),
        _ => format!(", fails {places:?}"),
    };
    Day {
        name: format!("{}, k = {}, c = {c}{fails}", table.name, taps.len() / 12),
        table,
        taps,
        claim: claim_with(&trace, c, faults),
        trace,
        c,
        fails: places.iter().min().copied(),
    }
}

/// Cells of an honest trace, altered by themselves. Several of them are altered
/// by words that are not likely to cancel out.
fn altered_cells(random: &mut Random, k: usize, count: usize) -> Day {
    let mut day = honest(random, k);
    for _ in 0..count {
        let row = random.below(32 * k);
        let column = random.below(12);
        let by = match count {
            1 => random.unit(),
            _ => 1 + random.word() % (P - 1),
        };
        let cell = &mut day.trace[12 * row + column];
        *cell = add(*cell, by);
        let fails = first_failure_of_cell(&day.table, row, column);
        day.fails = Some(day.fails.map_or(fails, |earlier| earlier.min(fails)));
        day.name += &format!(", cell {row}, {column} altered");
    }
    day
}

fn wrong_claim(random: &mut Random, k: usize) -> Day {
    let mut day = honest(random, k);
    let column = random.below(4);
    for j in column..4 {
        if j == column || random.one_in(2) {
            day.claim[j] = add(day.claim[j], random.unit());
        }
    }
    day.fails = Some((32 * day.c - 1, 49 + column));
    day.name += &format!(", claim wrong from column {column} on");
    day
}

fn wrong_constant(random: &mut Random, k: usize) -> Day {
    let mut day = honest(random, k);
    let number = random.below(21);
    let column = random.below(12);
    let word = add(day.table.k(number, column), random.unit());
    day.table = day.table.with_constant(number, column, word);
    day.fails = Some(first_failure_of_constant(&day.table, number, column));
    day.name += &format!(", other K_{number}[{column}]");
    day
}

/// The first rows of one honest trace and the other rows of another, under the
/// claim of the latter: it fails where they meet, or before that at the claim's row.
fn spliced(random: &mut Random, k: usize) -> Day {
    let head = busy(random, k);
    let taps = random.uniform(12 * k + 4);
    let mut day = day(head.table, taps, head.c);
    let row = 1 + random.below(32 * k - 1);
    day.trace[..12 * row].copy_from_slice(&head.trace[..12 * row]);
    let constraint = match row % 32 {
        0 => 45,
        1 => 9,
        31 => 33,
        _ => 21,
    };
    day.fails = Some((row - 1, constraint).min((32 * day.c - 1, 49)));
    day.name += &format!(", another trace before row {row}");
    day
}

/// Two batches change places, or one is written twice.
fn batches_moved(random: &mut Random, k: usize) -> Day {
    let mut day = busy(random, k);
    let one = random.below(k - 1);
    let other = one + 1 + random.below(k - 1 - one);
    let (left, right) = day.trace.split_at_mut(384 * other);
    let earlier = &mut left[384 * one..384 * (one + 1)];
    if random.one_in(2) {
        earlier.swap_with_slice(&mut right[..384]);
        day.name += &format!(", batches {one} and {other} swapped");
        day.fails = Some((32 * one.max(1) - 1, 45));
    } else {
        right[..384].copy_from_slice(earlier);
        day.name += &format!(", batch {one} again in place of {other}");
        day.fails = Some((32 * other - 1, 45));
    }
    day
}

/// Anything, nothing, or the trace of another table.
fn foreign(random: &mut Random, k: usize) -> Day {
    let mut day = busy(random, k);
    let (name, fails) = match random.below(4) {
        0 => {
            day.trace = random.uniform(384 * k);
            ("random trace", (0, 1))
        }
        1 => {
            day.trace = random.uniform(384 * k);
            day.trace[8..12].fill(0);
            ("random trace with capacity zero", (0, 9))
        }
        2 => {
            day.trace.fill(0);
            ("zero trace", (0, 9))
        }
        _ => {
            day.table = dense(random);
            ("trace of another table", (0, 9))
        }
    };
    day.fails = Some(fails);
    day.name += &format!(", {name}");
    day
}

/// All rows one up or one down, the odd row coming round.
fn rows_moved(random: &mut Random, k: usize) -> Day {
    let mut day = busy(random, k);
    if random.one_in(2) {
        day.trace.rotate_left(12);
        day.name += ", rows one up";
    } else {
        day.trace.rotate_right(12);
        day.name += ", rows one down";
    }
    // Row 1 or the last row stands in row 0: no zeros in columns 8 to 11.
    day.fails = Some((0, 1));
    day
}
