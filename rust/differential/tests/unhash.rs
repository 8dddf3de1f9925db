//! Unhash (document 02, U5) on final states of hashes and of traces, on such states
//! damaged, and on cells that are no final state.

use differential::{named, same_verdict, seeds, words};
use inputs::pairs::end_of;
use inputs::tables::{damaged_tables, dense, good, special_tables, Good};
use inputs::*;
use lemoncolumn::{PAIR_WORDS, STATE_WORDS};
use second::field::{add, P};
use second::Refusal;

type State = [u64; STATE_WORDS];
type Pair = [u64; PAIR_WORDS];

/// What both answer. A pair that they find hashes to the state, by both.
fn both(table: &[u64], state: State, about: &str) -> Result<Pair, Refusal> {
    let proved = lemoncolumn::unhash(table, state);
    same_verdict(proved, second::unhash(table, state), about);
    if let Ok(pair) = proved {
        assert_eq!(lemoncolumn::hash(table, pair), Ok(state), "{about}");
        assert_eq!(second::hash(table, pair), Ok(state), "{about}");
    }
    proved.map_err(named)
}

/// Pairs at the ends of the field, with a zero tap first, last and twice, and others.
fn pairs(random: &mut Random, others: usize) -> Vec<Pair> {
    let mut pairs = vec![
        [0; 8],
        [1; 8],
        [P - 1; 8],
        [0, 0, 0, 0, 1, 2, 3, 4],
        [1, 2, 3, 4, 0, 0, 0, 0],
        [0, 0, 0, 0, P - 1, P - 1, P - 1, P - 1],
        [P - 1, 0, P - 1, 0, 0, P - 1, 0, P - 1],
    ];
    pairs.extend((0..others).map(|_| std::array::from_fn(|_| random.canonical())));
    pairs
}

/// Z, A, S, a table of each shape, and others.
fn tables(random: &mut Random, others: usize) -> Vec<Good> {
    let mut tables = special_tables(random);
    tables.extend((0..others).map(|_| good(random)));
    tables
}

#[test]
fn hashes_undone() {
    for seed in seeds("unhash, hashes undone") {
        let mut random = Random::new(seed);
        for table in tables(&mut random, 20) {
            for pair in pairs(&mut random, 20) {
                let about = format!("seed {seed}: {}, {pair:?}", table.name);
                let state = lemoncolumn::hash(&table.prepared, pair).expect("hashed");
                assert_eq!(both(&table.prepared, state, &about), Ok(pair), "{about}");
            }
        }
    }
}

/// Row 31 of each batch of a built trace: the batch's last tap, and before it the
/// output to which the list had chained by then.
fn rows_31_of(table: &[u64], k: usize, taps: &[u64], about: &str) {
    let mut trace = words(lemoncolumn::trace_words(k));
    lemoncolumn::build(table, taps, &mut trace).expect("built");
    let mut left = taps[..4].to_vec();
    for (number, right) in (1..).zip(taps[4..].chunks(4)) {
        let pair: Pair = [&left, right].concat().try_into().expect("two taps");
        if number % 3 == 0 {
            let end = 128 * number;
            let row_31 = trace[end - 12..end].try_into().expect("twelve cells");
            let about = format!("{about}, batch {}", number / 3 - 1);
            assert_eq!(both(table, row_31, &about), Ok(pair), "{about}");
        }
        let state = lemoncolumn::hash(table, pair).expect("hashed");
        left = state[..4].to_vec();
    }
}

#[test]
fn rows_31() {
    for seed in seeds("unhash, rows 31") {
        let mut random = Random::new(seed);
        for table in tables(&mut random, 4) {
            for k in [1, 2, 4] {
                let count = lemoncolumn::tap_words(k);
                let any = random.canonicals(count);
                for taps in [vec![0; count], vec![P - 1; count], any] {
                    let about = format!("seed {seed}: {}, k = {k}", table.name);
                    rows_31_of(&table.prepared, k, &taps, &about);
                }
            }
        }
    }
}

/// Every k up to 1024, each under any accepted table.
#[test]
fn every_k() {
    for seed in seeds("unhash, every k") {
        let mut random = Random::new(seed);
        for k in (0..=10).map(|exponent| 1 << exponent) {
            let table = good(&mut random);
            let taps = random.canonicals(lemoncolumn::tap_words(k));
            let about = format!("seed {seed}: {}, k = {k}", table.name);
            rows_31_of(&table.prepared, k, &taps, &about);
        }
    }
}

/// Under a dense table no other row of a batch is one in which a hash ends.
#[test]
fn other_rows() {
    for seed in seeds("unhash, other rows") {
        let mut random = Random::new(seed);
        let table = dense(&mut random).prepared;
        let taps = random.uniform(lemoncolumn::tap_words(2));
        let mut trace = words(lemoncolumn::trace_words(2));
        lemoncolumn::build(&table, &taps, &mut trace).expect("built");
        for (number, row) in trace.chunks(12).enumerate() {
            let about = format!("seed {seed}: row {number}");
            let answer = both(&table, row.try_into().expect("twelve cells"), &about);
            match number % 32 {
                31 => assert!(answer.is_ok(), "{about}"),
                _ => assert_eq!(answer, Err(Refusal::NoPair), "{about}"),
            }
        }
    }
}

/// A state with one cell altered by 1, by any number, to p - 1 or to 0, or changed
/// about with each of those after it.
fn damaged(random: &mut Random, state: State) -> Vec<State> {
    let mut all = vec![];
    for cell in 0..STATE_WORDS {
        let any = random.unit();
        for word in [add(state[cell], 1), add(state[cell], any), P - 1, 0] {
            let mut altered = state;
            altered[cell] = word;
            all.push(altered);
        }
        for other in cell + 1..STATE_WORDS {
            let mut altered = state;
            altered.swap(cell, other);
            all.push(altered);
        }
    }
    all.retain(|altered| *altered != state);
    all
}

/// A damaged state has no pair, or another one. Which, depends on the table: under Z
/// and its like a cell stays by itself, under a dense one all go together.
#[test]
fn damaged_states() {
    for seed in seeds("unhash, damaged states") {
        let mut random = Random::new(seed);
        let (mut with, mut without) = (0, 0);
        for table in tables(&mut random, 4) {
            for pair in pairs(&mut random, 3) {
                let honest = end_of(&table, pair, [0; 4]);
                for state in damaged(&mut random, honest) {
                    let about = format!("seed {seed}: {}, {pair:?}, {state:?}", table.name);
                    match both(&table.prepared, state, &about) {
                        Ok(other) => {
                            assert_ne!(other, pair, "{about}");
                            with += 1;
                        }
                        Err(refusal) => {
                            assert_eq!(refusal, Refusal::NoPair, "{about}");
                            without += 1;
                        }
                    }
                }
            }
        }
        assert!(
            with > 1000 && without > 1000,
            "{with} with, {without} without"
        );
    }
}

/// Under a dense table one state in p^4 has a pair, and no alteration meets it.
#[test]
fn damaged_states_under_a_dense_table() {
    for seed in seeds("unhash, damaged states under a dense table") {
        let mut random = Random::new(seed);
        let table = dense(&mut random);
        for pair in pairs(&mut random, 10) {
            let honest = end_of(&table, pair, [0; 4]);
            for state in damaged(&mut random, honest) {
                let about = format!("seed {seed}: {pair:?}, {state:?}");
                let answer = both(&table.prepared, state, &about);
                assert_eq!(answer, Err(Refusal::NoPair), "{about}");
            }
        }
    }
}

#[test]
fn random_states() {
    for seed in seeds("unhash, random states") {
        let mut random = Random::new(seed);
        let table = dense(&mut random).prepared;
        for _ in 0..1000 {
            let state = random.uniform(12).try_into().expect("twelve cells");
            let about = format!("seed {seed}: {state:?}");
            let answer = both(&table, state, &about);
            assert_eq!(answer, Err(Refusal::NoPair), "{about}");
        }
        // Under other tables some have one.
        let (mut with, mut without) = (0, 0);
        for table in tables(&mut random, 20) {
            for _ in 0..40 {
                let state = std::array::from_fn(|_| match random.one_in(2) {
                    true => 0,
                    false => random.canonical(),
                });
                let about = format!("seed {seed}: {}, {state:?}", table.name);
                match both(&table.prepared, state, &about) {
                    Ok(_) => with += 1,
                    Err(refusal) => {
                        assert_eq!(refusal, Refusal::NoPair, "{about}");
                        without += 1;
                    }
                }
            }
        }
        assert!(with > 0 && without > 0, "{with} with, {without} without");
    }
}

/// Ten rounds from an input whose last four cells are not all zeros.
#[test]
fn inputs_without_four_zeros() {
    for seed in seeds("unhash, inputs without four zeros") {
        let mut random = Random::new(seed);
        for table in tables(&mut random, 10) {
            let refused = |pair: Pair, rest: [u64; 4]| {
                let about = format!("seed {seed}: {}, {pair:?}, {rest:?}", table.name);
                let state = end_of(&table, pair, rest);
                let answer = both(&table.prepared, state, &about);
                assert_eq!(answer, Err(Refusal::NoPair), "{about}");
            };
            for pair in pairs(&mut random, 3) {
                for place in 0..4 {
                    for word in [1, P - 1, random.unit()] {
                        let mut rest = [0; 4];
                        rest[place] = word;
                        refused(pair, rest);
                    }
                }
                refused(pair, [1; 4]);
                refused(pair, [1, P - 1, 0, 0]);
                refused(pair, [P - 1; 4]);
            }
        }
    }
}

/// 6, in states that have a pair and in others: each cell by itself, those after it
/// too, and several anywhere.
#[test]
fn cells_that_are_not_canonical() {
    for seed in seeds("unhash, cells that are not canonical") {
        let mut random = Random::new(seed);
        let table = dense(&mut random);
        let refused = |state: State, index: usize| {
            let about = format!("seed {seed}: {state:?}");
            let answer = both(&table.prepared, state, &about);
            assert_eq!(answer, Err(tap_word(index)), "{about}");
        };
        for rest in [[0; 4], [1; 4]] {
            let pair = std::array::from_fn(|_| random.canonical());
            let canonical = end_of(&table, pair, rest);
            for word in [P, P + 1, 1 << 62, 1 << 63, u64::MAX] {
                for index in 0..STATE_WORDS {
                    let mut state = canonical;
                    state[index] = word;
                    refused(state, index);
                    state[index..].fill(word);
                    refused(state, index);
                }
            }
            for _ in 0..400 {
                let mut state = canonical;
                let index = random.spoil(&mut state);
                refused(state, index);
            }
        }
    }
}

/// 1, 2 and 4, whatever the state.
#[test]
fn damaged_tables_refused() {
    for seed in seeds("unhash, damaged tables") {
        let mut random = Random::new(seed);
        let honest = dense(&mut random);
        let pair = std::array::from_fn(|_| random.canonical());
        let state = end_of(&honest, pair, [0; 4]);
        let none = end_of(&honest, pair, [0, 0, 0, 1]);
        for table in damaged_tables(&honest) {
            for state in [state, none, [P; STATE_WORDS]] {
                let about = format!("seed {seed}: {}, {state:?}", table.name);
                let answer = both(&table.words, state, &about);
                assert_eq!(answer.err(), table.refusal, "{about}");
            }
        }
    }
}
