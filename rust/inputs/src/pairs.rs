//! The cases of Unhash (document 02, U5).
//!
//! A state is made forwards, from an input of twelve cells. Each step of a hash can
//! be undone, so no other input ends in that state: with four zeros at its end, the
//! input is the pair to be answered; with anything else there, no pair ends in the
//! state.

use crate::cases::{damage, first_of, join, tap_word, UnhashCase};
use crate::random::Random;
use crate::tables::{damaged_tables, dense, good, lent, special_tables, Good};
use crate::traces::{times_m, Cells};
use second::field::{add, cube, root, P};
use second::Refusal;

/// The state in which ten rounds end that begin with (pair, rest) plus K_0. In a hash
/// the rest is four zeros.
pub fn end_of(table: &Good, pair: [u64; 8], rest: [u64; 4]) -> Cells {
    let input = |j: usize| if j < 8 { pair[j] } else { rest[j - 8] };
    let mut state: Cells = std::array::from_fn(|j| add(input(j), table.k(0, j)));
    for round in 0..10 {
        let middle = times_m(table, state.map(root), 2 * round + 1);
        state = times_m(table, middle.map(cube), 2 * round + 2);
    }
    state
}

/// Four cells that are not all zeros, mostly one of them alone.
fn not_zeros(random: &mut Random) -> [u64; 4] {
    let mut rest = match random.below(4) {
        0 => std::array::from_fn(|_| random.canonical()),
        _ => [0; 4],
    };
    rest[random.below(4)] = random.unit();
    rest
}

fn unhash_corners(seed: u64) -> Vec<UnhashCase> {
    let mut random = Random::new(seed);
    let mut cases = vec![];
    for table in special_tables(&mut random) {
        cases.extend(honest_states(&table));
        cases.extend(states_without_a_pair(&table));
    }
    let good = dense(&mut random);
    for table in damaged_tables(&good) {
        cases.push(UnhashCase {
            name: table.name,
            table: table.words,
            state: [P; 12],
            refusal: table.refusal,
            pair: [0; 8],
        });
    }
    cases.extend(refused_cells(&good));
    // Every choice of what is damaged, each several times.
    for choice in 0..1 << 6 {
        let damaged = std::array::from_fn(|thing| choice >> thing & 1 == 1);
        cases.push(lent_case(&mut random, damaged));
    }
    cases
}

/// Pairs at the ends of the field, zero taps, and eight different words, which tell
/// the cells apart.
fn honest_states(table: &Good) -> Vec<UnhashCase> {
    let pairs = [
        [0; 8],
        [1; 8],
        [P - 1; 8],
        [0, 0, 0, 0, 5, 6, 7, 9],
        [1, 2, 3, 4, 0, 0, 0, 0],
        [1, 2, 3, 4, 5, 6, 7, 8],
    ];
    let case = |pair| UnhashCase {
        name: format!("{}, the state of {pair:?}", table.name),
        table: table.prepared.clone(),
        state: end_of(table, pair, [0; 4]),
        refusal: None,
        pair,
    };
    pairs.map(case).into()
}

/// 16, by each of the four cells alone, and by two that add up to 0.
fn states_without_a_pair(table: &Good) -> Vec<UnhashCase> {
    let mut rests = vec![[1, P - 1, 0, 0]];
    for place in 0..4 {
        for word in [1, P - 1] {
            let mut rest = [0; 4];
            rest[place] = word;
            rests.push(rest);
        }
    }
    let case = |rest| UnhashCase {
        name: format!("{}, cells 8 to 11 were {rest:?}", table.name),
        table: table.prepared.clone(),
        state: end_of(table, [1, 2, 3, 4, 5, 6, 7, 8], rest),
        refusal: Some(Refusal::NoPair),
        pair: [0; 8],
    };
    rests.into_iter().map(case).collect()
}

/// 6, in states in which no pair ends.
fn refused_cells(table: &Good) -> Vec<UnhashCase> {
    let state = end_of(table, [1; 8], [1; 4]);
    let mut cases = vec![];
    for index in 0..12 {
        for (name, cells) in [("at", index..index + 1), ("from", index..12)] {
            let mut state = state;
            state[cells].fill(P);
            cases.push(UnhashCase {
                name: format!("p {name} cell {index}"),
                table: table.prepared.clone(),
                state,
                refusal: Some(tap_word(index)),
                pair: [0; 8],
            });
        }
    }
    cases
}

/// A case with these things damaged, in the order of the refusals.
fn lent_case(random: &mut Random, [table, cell, pair]: [bool; 3]) -> UnhashCase {
    let good = good(random);
    let table = lent(random, &good, table);
    let words = std::array::from_fn(|_| random.canonical());
    let (rest, no_pair) = match pair {
        true => (not_zeros(random), Some(Refusal::NoPair)),
        false => ([0; 4], None),
    };
    let mut state = end_of(&good, words, rest);
    let cell = cell.then(|| tap_word(random.spoil(&mut state)));
    let not_canonical = cell.map_or("", |_| "cell not canonical");
    let no_zeros = no_pair.map_or("", |_| "no pair");
    UnhashCase {
        name: join(&[&table.name, not_canonical, no_zeros]),
        table: table.words,
        state,
        refusal: first_of(&[table.refusal, cell, no_pair]),
        pair: words,
    }
}

/// Unhash: the table's refusals, 6, 16. The corner cases and `n` others.
pub fn unhash_cases(seed: u64, n: usize) -> Vec<UnhashCase> {
    let mut random = Random::new(seed);
    let make = |number| {
        let damaged = damage(&mut random, number);
        lent_case(&mut random, damaged)
    };
    let mut cases = unhash_corners(seed);
    cases.extend((0..n).map(make));
    cases
}
