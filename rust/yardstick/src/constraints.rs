//! Check and Read-off: forward and back once a row.
//!
//! The trace stays in plain words. Two Montgomery products give the cube of a
//! plain word divided by R^2, called thin here; forward and back are both thin,
//! so they can be compared as they are.

use crate::hash::permitted;
use crate::montgomery::{canonical, cube, dot, thicken, thin, P};
use crate::table::{first_not_canonical, inverse, k, m, test, Cells, Matrix};
use second::Refusal;

/// The table as the walk needs it, all values below p.
struct Walked {
    m: Matrix,
    inverse: Matrix,
    /// The constants of the first steps, K_1, K_3, .., in plain words.
    first: [Cells; 10],
    /// Those of the second steps, K_2, K_4, .., thin.
    second: [Cells; 10],
    /// K_0, thin.
    zero: Cells,
}

impl Walked {
    /// From an accepted table.
    fn convert(words: &[u64]) -> Walked {
        Walked {
            m: m(words),
            inverse: inverse(words),
            first: std::array::from_fn(|round| k(words, 2 * round + 1)),
            second: std::array::from_fn(|round| k(words, 2 * round + 2).map(thin)),
            zero: k(words, 0).map(thin),
        }
    }
}

#[inline(always)]
fn load(trace: &[u64], row: usize) -> &Cells {
    trace[12 * row..12 * row + 12].try_into().expect("a row")
}

/// The first N columns of forward, thin.
#[inline(always)]
fn forward<const LATE: bool, const N: usize>(
    table: &Walked,
    cells: &Cells,
    round: usize,
) -> [u64; N] {
    let mut cubed = *cells;
    for cell in cubed.iter_mut() {
        *cell = cube(*cell);
    }
    let k = &table.second[round];
    let mut answer = [0; N];
    for (i, cell) in answer.iter_mut().enumerate() {
        *cell = canonical(dot::<LATE>(&table.m[i], &cubed, k[i]));
    }
    answer
}

/// Back of a row, thin.
#[inline(always)]
fn back<const LATE: bool>(table: &Walked, cells: &Cells, round: usize) -> Cells {
    let k = &table.first[round];
    let mut start = *cells;
    for (j, cell) in start.iter_mut().enumerate() {
        *cell += P - k[j];
    }
    let mut answer = [0; 12];
    for (i, cell) in answer.iter_mut().enumerate() {
        *cell = canonical(cube(dot::<LATE>(&table.inverse[i], &start, 0)));
    }
    answer
}

/// a + b, below p.
#[inline]
fn sum(a: u64, b: u64) -> u64 {
    canonical(a + b)
}

/// The walk so far: how many tests have been passed.
struct Walk<const LATE: bool> {
    passed: u64,
}

impl<const LATE: bool> Walk<LATE> {
    /// As many tests as there are columns, from `constraint` on.
    #[inline]
    fn equal(
        &mut self,
        row: usize,
        constraint: usize,
        one: &[u64],
        other: &[u64],
    ) -> Result<(), Refusal> {
        if one == other {
            self.passed += one.len() as u64;
            return Ok(());
        }
        let column = one.iter().zip(other).take_while(|(a, b)| a == b).count();
        Err(Refusal::Constraint {
            row: row as u64,
            constraint: (constraint + column) as u64,
            tests: self.passed + column as u64 + 1,
        })
    }

    /// Row 0 of a batch: 1 to 4 and 9 to 20.
    #[inline]
    fn first_row(&mut self, table: &Walked, trace: &[u64], row: usize) -> Result<(), Refusal> {
        let cells = load(trace, row);
        self.equal(row, 1, &cells[8..], &[0; 4])?;
        let back = back::<LATE>(table, load(trace, row + 1), 0);
        let start: Cells = std::array::from_fn(|j| sum(thin(cells[j]), table.zero[j]));
        self.equal(row, 9, &start, &back)
    }

    /// Rows 10 and 20 of a batch: 5 to 8 and 21 to 24. Answers the tap that
    /// enters here.
    #[inline]
    fn entry(&mut self, table: &Walked, trace: &[u64], row: usize) -> Result<[u64; 4], Refusal> {
        let back = back::<LATE>(table, load(trace, row + 1), 0);
        self.equal(row, 5, &back[8..], &table.zero[8..])?;
        let output: [u64; 4] = forward::<LATE, 4>(table, load(trace, row), 9);
        let left: [u64; 4] = std::array::from_fn(|j| sum(output[j], table.zero[j]));
        self.equal(row, 21, &left, &back[..4])?;
        let tap = std::array::from_fn(|j| thicken(back[4 + j] + P - table.zero[4 + j]));
        Ok(tap)
    }

    /// Rows 1 to 30 of a batch.
    #[inline]
    fn rows(
        &mut self,
        table: &Walked,
        trace: &[u64],
        first: usize,
        mut tap: impl FnMut(&[u64]),
    ) -> Result<(), Refusal> {
        for row in 1..30 {
            let at = first + row;
            if row % 10 == 0 {
                tap(&self.entry(table, trace, at)?);
            } else {
                let forward = forward::<LATE, 12>(table, load(trace, at), (row - 1) % 10);
                let back = back::<LATE>(table, load(trace, at + 1), row % 10);
                self.equal(at, 21, &forward, &back)?;
            }
        }
        let forward = forward::<LATE, 12>(table, load(trace, first + 30), 9);
        let last = load(trace, first + 31).map(thin);
        self.equal(first + 30, 33, &forward, &last)
    }
}

/// All tests in their order, the claim's at row 31 of batch c - 1; `tap` is shown
/// w_0, w_1, .. as they come by.
#[inline]
fn walk<const LATE: bool>(
    table: &[u64],
    trace: &[u64],
    claim: &[u64],
    c: usize,
    mut tap: impl FnMut(&[u64]),
) -> Result<u64, Refusal> {
    let table = Walked::convert(table);
    let rows = trace.len() / 12;
    let mut walk = Walk::<LATE> { passed: 0 };
    tap(&trace[..4]);
    for first in (0..rows).step_by(32) {
        walk.first_row(&table, trace, first)?;
        tap(&trace[12 * first + 4..12 * first + 8]);
        walk.rows(&table, trace, first, &mut tap)?;
        let last = first + 31;
        let output = &trace[12 * last..12 * last + 4];
        if last + 1 < rows {
            let next = &trace[12 * last + 12..12 * last + 16];
            walk.equal(last, 45, output, next)?;
        }
        if last + 1 == 32 * c {
            walk.equal(last, 49, output, claim)?;
        }
    }
    Ok(walk.passed)
}

/// 7, then 17.
fn test_batches(trace: &[u64], c: usize) -> Result<usize, Refusal> {
    let k = permitted(trace.len(), 384).ok_or(Refusal::TraceLength)?;
    if c == 0 || c > k {
        return Err(Refusal::ClaimBatches);
    }
    Ok(k)
}

/// 9, then 10.
fn test_words(trace: &[u64], claim: &[u64]) -> Result<(), Refusal> {
    if let Some(index) = first_not_canonical(claim) {
        return Err(Refusal::ClaimWord { index });
    }
    match first_not_canonical(trace) {
        Some(index) => Err(Refusal::TraceWord { index }),
        None => Ok(()),
    }
}

/// Check: the table's refusals, 7, 17, 9, 10, 11.
pub fn check<const LATE: bool>(
    table: &[u64],
    trace: &[u64],
    claim: [u64; 4],
    c: usize,
) -> Result<u64, Refusal> {
    test::<LATE>(table)?;
    test_batches(trace, c)?;
    test_words(trace, &claim)?;
    walk::<LATE>(table, trace, &claim, c, |_| {})
}

/// Read-off: the table's refusals, 7, 17, 8, 9, 10, 11. The taps are kept aside until the
/// last test has passed.
pub fn read_off<const LATE: bool>(
    table: &[u64],
    trace: &[u64],
    claim: [u64; 4],
    c: usize,
    destination: &mut [u64],
) -> Result<u64, Refusal> {
    test::<LATE>(table)?;
    let k = test_batches(trace, c)?;
    if destination.len() != 12 * k + 4 {
        return Err(Refusal::DestinationLength);
    }
    test_words(trace, &claim)?;
    let mut taps = Vec::with_capacity(12 * k + 4);
    let tests = walk::<LATE>(table, trace, &claim, c, |tap| taps.extend_from_slice(tap))?;
    destination.copy_from_slice(&taps);
    Ok(tests)
}
