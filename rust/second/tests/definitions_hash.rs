//! Field, table, Hash and Unhash against document 01's definitions, 004's Algorithm 1 and
//! document 02, written a second time in another manner (`common/algorithm.rs`).

mod common;
use common::algorithm::*;
use common::*;
use second::field::{self, P};
use second::{build, chain, hash, prepare, unhash, Refusal};

#[test]
fn arithmetic() {
    let mut random = Random(2);
    let edges = [0, 1, 2, 1 << 31, 1 << 32, 1 << 60, P - 2, P - 1];
    let mut pairs: Vec<(u64, u64)> = vec![];
    for &a in &edges {
        pairs.extend(edges.iter().map(|&b| (a, b)));
    }
    pairs.extend((0..2000).map(|_| (random.canonical(), random.canonical())));
    for (a, b) in pairs {
        assert_eq!(field::mul(a, b), times(a, b), "{a} x {b}");
        assert_eq!(field::add(field::sub(a, b), b), a, "{a} - {b} + {b}");
        let sum = a as u128 + b as u128;
        let wrapped = if sum >= P as u128 {
            sum - P as u128
        } else {
            sum
        };
        assert_eq!(field::add(a, b) as u128, wrapped, "{a} + {b}");
    }
}

#[test]
fn powers_and_roots() {
    let mut random = Random(3);
    for _ in 0..200 {
        let x = random.canonical();
        let exponent = random.word() >> (random.word() % 64);
        assert_eq!(field::power(x, exponent), halving_power(x, exponent));
        assert_eq!(field::root(x), halving_power(x, 1537228730075359915));
        assert_eq!(field::cube(field::root(x)), x);
        assert_eq!(field::root(field::cube(x)), x);
        assert_eq!(times(field::reciprocal(x), x), 1);
    }
    assert_eq!(field::power(0, 0), 1);
}

#[test]
fn prepare_finds_the_inverse() {
    let mut random = Random(4);
    for _ in 0..10 {
        let raw = random_raw(&mut random);
        let table = prepared(&raw);
        assert_eq!(table[..144], raw[..144]);
        assert_eq!(table[288..], raw[144..]);
        for column in 0..12 {
            let unit: Vec<u64> = (0..12).map(|i| u64::from(i == column)).collect();
            let there = matrix_times(&table, 0, &unit);
            assert_eq!(matrix_times(&table, 144, &there), unit);
            let back = matrix_times(&table, 144, &unit);
            assert_eq!(matrix_times(&table, 0, &back), unit);
        }
    }
}

/// A column that goes to all zeros is put into M first; then there is no
/// inverse.
#[test]
fn prepare_refuses_exactly_where_a_column_goes_to_zeros() {
    let mut random = Random(5);
    for place in 0..12 {
        let mut raw = random_raw(&mut random);
        let mut column = random.canonicals(12);
        column[place] = 1;
        for i in 0..12 {
            let mut sum = 0;
            for j in (0..12).filter(|&j| j != place) {
                sum = (sum + times(raw[12 * i + j], column[j])) % P;
            }
            raw[12 * i + place] = (P - sum) % P;
        }
        assert_eq!(matrix_times(&raw, 0, &column), [0; 12]);
        let mut table = vec![7; 540];
        assert_eq!(prepare(&raw, &mut table), Err(Refusal::NoInverse));
        assert_eq!(table, [7; 540]);
    }
}

#[test]
fn hash_is_algorithm_1() {
    let mut random = Random(6);
    for _ in 0..4 {
        let raw = random_raw(&mut random);
        let words: [u64; 8] = std::array::from_fn(|_| random.canonical());
        let (_, last) = algorithm_1(&raw, &words[..4], &words[4..]);
        let answer = hash(&prepared(&raw), words).expect("hashes");
        assert_eq!(answer[..], last);
    }
}

/// Unhash finds the pair again, and by Algorithm 1 that ends in the cells lent. Where
/// the algorithm has started from other cells than zeros behind the pair, there is
/// none: no step brings two states to the same one.
#[test]
fn unhash_undoes_algorithm_1() {
    let mut random = Random(14);
    for _ in 0..4 {
        let raw = random_raw(&mut random);
        let table = prepared(&raw);
        let any: [u64; 8] = std::array::from_fn(|_| random.canonical());
        let ends = [0, 0, 0, 0, P - 1, 1, 0, P - 1];
        for words in [any, ends, [0; 8], [P - 1; 8]] {
            let ended = |rest: [u64; 4]| -> [u64; 12] {
                let (_, last) = algorithm_1_from(&raw, &[&words[..], &rest].concat());
                last.try_into().expect("twelve cells")
            };
            assert_eq!(unhash(&table, ended([0; 4])), Ok(words));
            for place in 0..4 {
                let mut rest = [0; 4];
                for word in [1, P - 1, random.canonical()] {
                    rest[place] = word;
                    let refused = Err(Refusal::NoPair);
                    assert_eq!(unhash(&table, ended(rest)), refused, "{rest:?}");
                }
            }
        }
    }
}

/// Twelve cells at random have no pair: one state in p^4 has one.
#[test]
fn cells_at_random_have_no_pair() {
    let mut random = Random(15);
    let table = prepared(&random_raw(&mut random));
    for _ in 0..100 {
        let cells = std::array::from_fn(|_| random.canonical());
        assert_eq!(unhash(&table, cells), Err(Refusal::NoPair), "{cells:?}");
    }
}

/// Cells 0 to 3 of the last final state are the chain's output, and row 31 of each
/// batch is the final state of its third hash.
#[test]
fn final_states_of_a_list() {
    let mut random = Random(13);
    for k in [1, 2, 4, 8] {
        let raw = random_raw(&mut random);
        let table = prepared(&raw);
        let taps = random.canonicals(12 * k + 4);
        let states = final_states(&table, &taps);
        assert_eq!(states.len(), 3 * k);
        let last = states[3 * k - 1];
        assert_eq!(chain(&table, &taps).expect("chains"), last[..4]);
        let mut trace = vec![7; 384 * k];
        let output = build(&table, &taps, &mut trace).expect("builds");
        assert_eq!(output, last[..4]);
        let (rows, _) = section_3_1(&raw, &taps);
        for batch in 0..k {
            let row_31 = 384 * batch + 12 * 31..384 * (batch + 1);
            let third = states[3 * batch + 2];
            assert_eq!(trace[row_31.clone()], third, "batch {batch}, k = {k}");
            assert_eq!(rows[row_31], third, "batch {batch}, k = {k}");
        }
    }
}

/// Row 31 of a batch gives back the batch's last tap, and before it the output to
/// which the list had chained by then.
#[test]
fn row_31_undone() {
    let mut random = Random(16);
    for k in [1, 2, 4, 8] {
        let raw = random_raw(&mut random);
        let table = prepared(&raw);
        let taps = random.canonicals(12 * k + 4);
        let states = final_states(&table, &taps);
        let (rows, _) = section_3_1(&raw, &taps);
        for batch in 0..k {
            let row_31 = &rows[384 * batch + 12 * 31..384 * (batch + 1)];
            let pair = unhash(&table, row_31.try_into().expect("twelve cells"));
            let pair = pair.expect("a pair");
            let before = &states[3 * batch + 1][..4];
            let last_tap = &taps[12 * (batch + 1)..12 * (batch + 1) + 4];
            assert_eq!(pair[..4], *before, "batch {batch}, k = {k}");
            assert_eq!(pair[4..], *last_tap, "batch {batch}, k = {k}");
        }
    }
}
