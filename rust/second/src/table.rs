//! The table (document 01, "The table").

use crate::field::{add, first_not_canonical, mul, reciprocal, sub};
use crate::refusal::Refusal;

/// Cells of a row, columns of the trace, side of M.
pub const CELLS: usize = 12;
/// Words of a matrix.
pub const MATRIX: usize = CELLS * CELLS;
/// K_0 to K_20.
pub const CONSTANTS: usize = 21;
/// Words of a raw table: M, then K.
pub const RAW: usize = MATRIX + CONSTANTS * CELLS;
/// Words of a prepared table: M, its inverse, then K.
pub const PREPARED: usize = RAW + MATRIX;

/// A prepared table that has passed the table test.
#[derive(Clone, Copy)]
pub struct Table<'a> {
    words: &'a [u64],
}

impl<'a> Table<'a> {
    /// The table test: 1, 2, 4. Every operation but Prepare and those on board files
    /// begins with it.
    pub fn test(words: &'a [u64]) -> Result<Table<'a>, Refusal> {
        if words.len() != PREPARED {
            return Err(Refusal::TableLength);
        }
        if let Some(index) = first_not_canonical(words) {
            let index = index as u64;
            return Err(Refusal::TableWord { index });
        }
        let table = Table { words };
        for row in 0..CELLS {
            for column in 0..CELLS {
                let mut sum = 0;
                for j in 0..CELLS {
                    sum = add(sum, mul(table.m(row, j), table.inverse(j, column)));
                }
                if sum != u64::from(row == column) {
                    let cell = (CELLS * row + column) as u64;
                    return Err(Refusal::InverseCell { cell });
                }
            }
        }
        Ok(table)
    }

    /// M[row, column].
    pub fn m(&self, row: usize, column: usize) -> u64 {
        self.words[CELLS * row + column]
    }

    /// The stored inverse's [row, column].
    pub fn inverse(&self, row: usize, column: usize) -> u64 {
        self.words[MATRIX + CELLS * row + column]
    }

    /// K_number[column].
    pub fn k(&self, number: usize, column: usize) -> u64 {
        self.words[2 * MATRIX + CELLS * number + column]
    }
}

/// Prepare: 1, 8, 2, 3.
pub fn prepare(raw: &[u64], destination: &mut [u64]) -> Result<(), Refusal> {
    if raw.len() != RAW {
        return Err(Refusal::TableLength);
    }
    if destination.len() != PREPARED {
        return Err(Refusal::DestinationLength);
    }
    if let Some(index) = first_not_canonical(raw) {
        let index = index as u64;
        return Err(Refusal::TableWord { index });
    }
    let (m, k) = raw.split_at(MATRIX);
    let inverse = invert(m).ok_or(Refusal::NoInverse)?;
    destination[..MATRIX].copy_from_slice(m);
    destination[MATRIX..2 * MATRIX].copy_from_slice(&inverse);
    destination[2 * MATRIX..].copy_from_slice(k);
    Ok(())
}

/// The inverse of a 12 x 12 matrix by elimination: (M, identity) is brought to
/// (identity, inverse) by steps on whole rows. Without a pivot in some column
/// there is no inverse.
fn invert(m: &[u64]) -> Option<Vec<u64>> {
    let mut rows: Vec<Vec<u64>> = (0..CELLS)
        .map(|i| {
            let mut row = m[CELLS * i..CELLS * (i + 1)].to_vec();
            row.extend((0..CELLS).map(|j| u64::from(i == j)));
            row
        })
        .collect();
    for column in 0..CELLS {
        let pivot = (column..CELLS).find(|&i| rows[i][column] != 0)?;
        rows.swap(column, pivot);
        let scale = reciprocal(rows[column][column]);
        for cell in rows[column].iter_mut() {
            *cell = mul(*cell, scale);
        }
        let pivot_row = rows[column].clone();
        for (i, row) in rows.iter_mut().enumerate() {
            let factor = row[column];
            if i != column && factor != 0 {
                for (cell, &pivot_cell) in row.iter_mut().zip(&pivot_row) {
                    *cell = sub(*cell, mul(factor, pivot_cell));
                }
            }
        }
    }
    Some(rows.iter().flat_map(|row| row[CELLS..].to_vec()).collect())
}
