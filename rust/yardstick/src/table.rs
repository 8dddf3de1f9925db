//! The table test, and the table in Montgomery form.

use crate::montgomery::{canonical, dot, from_word, reduce, P};
use second::Refusal;

pub type Cells = [u64; 12];
pub type Matrix = [Cells; 12];

/// 1, 2, 4. The products are of plain words, so each sum comes out divided by R
/// and is compared with 1 / R or 0.
pub fn test<const LATE: bool>(words: &[u64]) -> Result<(), Refusal> {
    if words.len() != 540 {
        return Err(Refusal::TableLength);
    }
    if let Some(index) = first_not_canonical(words) {
        return Err(Refusal::TableWord { index });
    }
    let one = canonical(reduce(1));
    let m = matrix(words, 0);
    let columns: Matrix = std::array::from_fn(|j| std::array::from_fn(|i| words[144 + 12 * i + j]));
    for (i, row) in m.iter().enumerate() {
        for (j, column) in columns.iter().enumerate() {
            let expected = if i == j { one } else { 0 };
            if canonical(dot::<LATE>(row, column, 0)) != expected {
                let cell = (12 * i + j) as u64;
                return Err(Refusal::InverseCell { cell });
            }
        }
    }
    Ok(())
}

/// The lowest index of a word that is not below p.
pub fn first_not_canonical(words: &[u64]) -> Option<u64> {
    let found = words.iter().position(|&word| word >= P);
    found.map(|index| index as u64)
}

/// Twelve words from `at` on.
pub fn cells(words: &[u64], at: usize) -> Cells {
    words[at..at + 12].try_into().expect("twelve words")
}

fn matrix(words: &[u64], at: usize) -> Matrix {
    std::array::from_fn(|i| cells(words, at + 12 * i))
}

/// K_number in plain words.
pub fn k(words: &[u64], number: usize) -> Cells {
    cells(words, 288 + 12 * number)
}

/// Cells in Montgomery form, below p.
fn form(cells: Cells) -> Cells {
    cells.map(|word| canonical(from_word(word)))
}

/// M in Montgomery form.
pub fn m(words: &[u64]) -> Matrix {
    matrix(words, 0).map(form)
}

/// The stored inverse in Montgomery form.
pub fn inverse(words: &[u64]) -> Matrix {
    matrix(words, 144).map(form)
}

/// The table as a hash needs it, in Montgomery form.
pub struct Table<const LATE: bool> {
    pub m: Matrix,
    pub k: [Cells; 21],
}

impl<const LATE: bool> Table<LATE> {
    /// From an accepted table.
    pub fn convert(words: &[u64]) -> Self {
        Table {
            m: m(words),
            k: std::array::from_fn(|number| form(k(words, number))),
        }
    }

    /// M times cells plus K_number, short.
    #[inline(always)]
    pub fn step(&self, cells: &Cells, number: usize) -> Cells {
        let k = &self.k[number];
        let mut answer = [0; 12];
        for (i, cell) in answer.iter_mut().enumerate() {
            *cell = dot::<LATE>(&self.m[i], cells, k[i]);
        }
        answer
    }
}
