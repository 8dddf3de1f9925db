//! From a final state back to two taps (document 02, U5).

use crate::field::{add, cube, mul, root, sub};
use crate::hash::{test_tap_words, State, ROUNDS, TAP};
use crate::refusal::Refusal;
use crate::table::{Table, CELLS};

/// Unhash: the table's refusals, 6, 16. Answers the two taps whose Hash ends in this state,
/// the first tap first; the index of 6 is that of the cell, 0 to 11.
///
/// Whatever a hash does to its state can be undone in just one way: adding
/// constants, multiplying by M, rooting and cubing. So ten rounds lead here from one
/// input only, and where that is not (a, b, four zeros), no pair ends here.
pub fn unhash(table: &[u64], state: State) -> Result<[u64; 2 * TAP], Refusal> {
    let table = Table::test(table)?;
    test_tap_words(&state)?;
    let input = input_of(&table, state);
    let (pair, rest) = input.split_at(2 * TAP);
    if rest != [0; CELLS - 2 * TAP] {
        return Err(Refusal::NoPair);
    }
    Ok(pair.try_into().expect("two taps"))
}

/// The input from which ten rounds lead to this state, no constant added.
fn input_of(table: &Table, last: State) -> State {
    let mut state = last;
    for round in (0..ROUNDS).rev() {
        let middle = step_back(table, state, 2 * round + 2).map(root);
        state = step_back(table, middle, 2 * round + 1).map(cube);
    }
    less(table, state, 0)
}

/// The cells less K_number, times the inverse of M.
fn step_back(table: &Table, cells: State, number: usize) -> State {
    let cells = less(table, cells, number);
    std::array::from_fn(|i| {
        let mut sum = 0;
        for (j, &cell) in cells.iter().enumerate() {
            sum = add(sum, mul(table.inverse(i, j), cell));
        }
        sum
    })
}

/// The cells less K_number.
fn less(table: &Table, cells: State, number: usize) -> State {
    std::array::from_fn(|j| sub(cells[j], table.k(number, j)))
}
