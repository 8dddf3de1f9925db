//! Final states (document 02, U3): the proved Hash beside the proved Chain and
//! Build, which go on with cells 0 to 3 and show all twelve in row 31 of a batch.

use differential::{seeds, words};
use inputs::tables::{s, special_tables, Good};
use inputs::traces::day;
use inputs::*;
use lemoncolumn::STATE_WORDS;
use second::field::P;

type State = [u64; STATE_WORDS];

/// The final state of each hash of a list, by both: cells 0 to 3 of one are the
/// first tap of the next.
fn final_states(table: &[u64], taps: &[u64], about: &str) -> Vec<State> {
    let mut left = taps[..4].to_vec();
    let mut hash = |right: &[u64]| {
        let words = [&left, right].concat().try_into().expect("two taps");
        let state = lemoncolumn::hash(table, words).expect("hashed");
        assert_eq!(second::hash(table, words), Ok(state), "{about}");
        left = state[..4].to_vec();
        state
    };
    taps[4..].chunks(4).map(&mut hash).collect()
}

/// Hashed one by one, a list comes to the output of its chain and of its trace; row
/// 31 of each batch is the final state of its third hash, and the row 0 after it
/// has cells 0 to 3 of that, the next tap and four zeros.
fn hashed_one_by_one(table: Good, taps: Vec<u64>, seed: u64) {
    let k = taps.len() / 12;
    let honest = day(table, taps, k);
    let about = format!("seed {seed}: {}", honest.name);
    let (table, taps) = (&honest.table.prepared, &honest.taps);
    let states = final_states(table, taps, &about);
    assert_eq!(states.len(), 3 * k, "{about}");

    let output = Ok(honest.claim);
    assert_eq!(states[3 * k - 1][..4], honest.claim, "{about}");
    assert_eq!(lemoncolumn::chain(table, taps), output, "{about}");
    let mut trace = words(lemoncolumn::trace_words(k));
    let built = lemoncolumn::build(table, taps, &mut trace);
    assert_eq!(built, output, "{about}");
    assert!(trace[..] == honest.trace[..], "{about}: another trace");

    let rows: Vec<&[u64]> = trace.chunks(12).collect();
    for batch in 0..k {
        let third = states[3 * batch + 2];
        assert_eq!(rows[32 * batch + 31], third, "{about}, batch {batch}");
        if batch + 1 < k {
            let next = 4 * (3 * batch + 4);
            let row_0 = [&third[..4], &taps[next..next + 4], &[0; 4]].concat();
            assert_eq!(rows[32 * batch + 32], row_0, "{about}, batch {batch}");
        }
    }
}

/// Every k up to 1024, each under any accepted table.
#[test]
fn every_k() {
    for seed in seeds("states, every k") {
        let mut random = Random::new(seed);
        for k in (0..=10).map(|exponent| 1 << exponent) {
            let table = tables::good(&mut random);
            let taps = random.canonicals(lemoncolumn::tap_words(k));
            hashed_one_by_one(table, taps, seed);
        }
    }
}

/// Z, A, S and a table of each shape, with equal words and with words at random.
#[test]
fn every_table() {
    for seed in seeds("states, every table") {
        let mut random = Random::new(seed);
        for table in special_tables(&mut random) {
            let any = random.canonicals(28);
            for taps in [vec![0; 28], vec![1; 28], vec![P - 1; 28], any] {
                hashed_one_by_one(table.clone(), taps, seed);
            }
        }
    }
}

/// Under S a hash of (5, 6, 7, 9) ends in that, four zeros and the first tap,
/// whichever it is: each cell moves one up at every step, and there are twenty.
#[test]
fn under_s_for_any_first_tap() {
    let table = s().prepared;
    for seed in seeds("states, under S") {
        let mut random = Random::new(seed);
        let mut first = vec![[0; 4], [P - 1; 4]];
        first.extend((0..1000).map(|_| std::array::from_fn(|_| random.canonical())));
        for [a, b, c, d] in first {
            let hashed = lemoncolumn::hash(&table, [a, b, c, d, 5, 6, 7, 9]);
            let state = [5, 6, 7, 9, 0, 0, 0, 0, a, b, c, d];
            assert_eq!(hashed, Ok(state), "seed {seed}");
        }
    }
}
