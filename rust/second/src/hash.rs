//! Hash and chain (document 01, "Hash and chain"; document 02, U3 and U9; 004,
//! Algorithm 1 and equation (1)).

use crate::field::{add, cube, first_not_canonical, mul, root};
use crate::refusal::Refusal;
use crate::table::{Table, CELLS};

/// Words of a tap, of a chain's output and of a claim.
pub const TAP: usize = 4;
/// Rounds of a hash.
pub const ROUNDS: usize = 10;
/// Hashes of a batch.
pub const HASHES: usize = 3;
/// The most batches, which is the largest permitted k (document 02, U9).
pub const MOST_BATCHES: usize = 1 << 18;

/// The twelve cells of a hash under way, and of its final state.
pub type State = [u64; CELLS];

/// Is k permitted: from 1 to 2^18, with exactly one set bit?
pub fn is_permitted(k: usize) -> bool {
    (1..=MOST_BATCHES).contains(&k) && k.count_ones() == 1
}

/// Words of a list of 3k + 1 taps.
pub fn list_words(k: usize) -> usize {
    TAP * (HASHES * k + 1)
}

/// The permitted k whose lists have this many words.
pub fn k_of_list(words: usize) -> Option<usize> {
    let k = words / (TAP * HASHES); // 12k + 4 words, of which the division leaves 4
    (is_permitted(k) && list_words(k) == words).then_some(k)
}

/// The state before the first round: (left, right, four zeros) plus K_0.
pub fn start(table: &Table, left: [u64; TAP], right: [u64; TAP]) -> State {
    let mut state = input(left, right);
    for (j, cell) in state.iter_mut().enumerate() {
        *cell = add(*cell, table.k(0, j));
    }
    state
}

/// (left, right, four zeros), no constant added.
pub fn input(left: [u64; TAP], right: [u64; TAP]) -> State {
    let mut cells = [0; CELLS];
    cells[..TAP].copy_from_slice(&left);
    cells[TAP..2 * TAP].copy_from_slice(&right);
    cells
}

/// First step of a round: root every cell, multiply by M, add K_(2r+1). The
/// answer is the middle state of the round.
pub fn first_step(table: &Table, state: State, round: usize) -> State {
    step(table, state.map(root), 2 * round + 1)
}

/// Second step of a round: cube every cell, multiply by M, add K_(2r+2).
pub fn second_step(table: &Table, middle: State, round: usize) -> State {
    step(table, middle.map(cube), 2 * round + 2)
}

/// M times the cells, plus K_number.
fn step(table: &Table, cells: State, number: usize) -> State {
    std::array::from_fn(|i| {
        let mut sum = table.k(number, i);
        for (j, &cell) in cells.iter().enumerate() {
            sum = add(sum, mul(table.m(i, j), cell));
        }
        sum
    })
}

/// All rounds of a hash: its final state. `see` is shown each middle state, in
/// order.
pub fn rounds(table: &Table, start: State, mut see: impl FnMut(State)) -> State {
    let mut state = start;
    for round in 0..ROUNDS {
        let middle = first_step(table, state, round);
        see(middle);
        state = second_step(table, middle, round);
    }
    state
}

/// Cells 0 to 3 of a final state: what the chain goes on with.
pub fn output(state: State) -> [u64; TAP] {
    tap(&state, 0)
}

/// Tap `number` of a list.
pub fn tap(list: &[u64], number: usize) -> [u64; TAP] {
    let first = TAP * number;
    [
        list[first],
        list[first + 1],
        list[first + 2],
        list[first + 3],
    ]
}

/// The final state of the hash of two taps, under an accepted table.
fn final_state(table: &Table, left: [u64; TAP], right: [u64; TAP]) -> State {
    rounds(table, start(table, left, right), |_| {})
}

/// What the taps chain to, under an accepted table. Here a list may have any number
/// of them, since a claim is about 3c + 1 with any c up to k (document 02, U6).
pub fn chain_of(table: &Table, taps: &[u64]) -> [u64; TAP] {
    let mut last = tap(taps, 0);
    for number in 1..taps.len() / TAP {
        last = output(final_state(table, last, tap(taps, number)));
    }
    last
}

/// Hash: the table's refusals, 6. Answers the whole final state (document 02, U3); document
/// 01's answer is its cells 0 to 3.
pub fn hash(table: &[u64], words: [u64; 2 * TAP]) -> Result<State, Refusal> {
    let table = Table::test(table)?;
    test_tap_words(&words)?;
    Ok(final_state(&table, tap(&words, 0), tap(&words, 1)))
}

/// Chain: the table's refusals, 5, 6. Answers cells 0 to 3 of the last final state.
pub fn chain(table: &[u64], taps: &[u64]) -> Result<[u64; TAP], Refusal> {
    let table = Table::test(table)?;
    k_of_list(taps.len()).ok_or(Refusal::TapLength)?;
    test_tap_words(taps)?;
    Ok(chain_of(&table, taps))
}

/// 6: the lowest index of a tap word that is not canonical.
pub fn test_tap_words(taps: &[u64]) -> Result<(), Refusal> {
    match first_not_canonical(taps) {
        Some(index) => Err(Refusal::TapWord {
            index: index as u64,
        }),
        None => Ok(()),
    }
}
