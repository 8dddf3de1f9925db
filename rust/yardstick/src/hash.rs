//! Hash and Build.

use crate::montgomery::{cube, from_word, root, short, to_word};
use crate::table::{first_not_canonical, test, Cells, Table};
use second::Refusal;

/// The largest permitted k.
const MOST_BATCHES: usize = 1 << 18;

/// Ten rounds on short cells; `see` is shown each middle state.
#[inline]
fn rounds<const LATE: bool>(
    table: &Table<LATE>,
    input: &Cells,
    mut see: impl FnMut(&Cells),
) -> Cells {
    let mut state: Cells = std::array::from_fn(|j| short(input[j] + table.k[0][j]));
    for round in 0..10 {
        for cell in state.iter_mut() {
            *cell = root(*cell);
        }
        state = table.step(&state, 2 * round + 1);
        see(&state);
        for cell in state.iter_mut() {
            *cell = cube(*cell);
        }
        state = table.step(&state, 2 * round + 2);
    }
    state
}

/// Hash: the table's refusals, 6. Hands out the whole final state, as `second` does.
pub fn hash<const LATE: bool>(table: &[u64], words: [u64; 8]) -> Result<Cells, Refusal> {
    test::<LATE>(table)?;
    if let Some(index) = first_not_canonical(&words) {
        return Err(Refusal::TapWord { index });
    }
    let table = Table::<LATE>::convert(table);
    let mut input = [0; 12];
    for (cell, word) in input.iter_mut().zip(words) {
        *cell = from_word(word);
    }
    let state = rounds(&table, &input, |_| {});
    Ok(state.map(to_word))
}

/// Build: the table's refusals, 5, 8, 6.
pub fn build<const LATE: bool>(
    table: &[u64],
    taps: &[u64],
    destination: &mut [u64],
) -> Result<[u64; 4], Refusal> {
    test::<LATE>(table)?;
    let k = permitted(taps.len().wrapping_sub(4), 12).ok_or(Refusal::TapLength)?;
    if destination.len() != 384 * k {
        return Err(Refusal::DestinationLength);
    }
    if let Some(index) = first_not_canonical(taps) {
        return Err(Refusal::TapWord { index });
    }
    let table = Table::<LATE>::convert(table);
    let mut taps = taps.chunks_exact(4);
    let mut rows = destination.chunks_exact_mut(12);
    let mut write = |cells: &Cells| {
        let row = rows.next().expect("32 rows a batch");
        for (word, &cell) in row.iter_mut().zip(cells) {
            *word = to_word(cell);
        }
    };
    let mut load = |cells: &mut [u64]| {
        let tap = taps.next().expect("3k + 1 taps");
        for (cell, &word) in cells.iter_mut().zip(tap) {
            *cell = from_word(word);
        }
    };
    let mut state = [0; 12];
    load(&mut state[..4]);
    for _ in 0..k {
        for hash in 0..3 {
            load(&mut state[4..8]);
            state[8..].fill(0);
            if hash == 0 {
                write(&state);
            }
            state = rounds(&table, &state, &mut write);
        }
        write(&state);
    }
    Ok(std::array::from_fn(|j| to_word(state[j])))
}

/// The permitted k with `each` words times k in all.
pub fn permitted(words: usize, each: usize) -> Option<usize> {
    let k = words / each;
    (words.is_multiple_of(each) && k.is_power_of_two() && k <= MOST_BATCHES).then_some(k)
}
