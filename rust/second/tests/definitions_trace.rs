//! Chain, Build, Check, Read-off and Edit against document 01's definitions, 004's trace
//! and document 02, written a second time in another manner (`common/algorithm.rs`).

mod common;
use common::algorithm::*;
use common::*;
use second::constraints::{tests, Test};
use second::field::P;
use second::hash::{is_permitted, k_of_list};
use second::trace::k_of_trace;
use second::{build, chain, check, edit, read_off, Refusal};

#[test]
fn chain_trace_and_read_off() {
    let mut random = Random(7);
    for k in [1, 2, 4] {
        let raw = random_raw(&mut random);
        let table = prepared(&raw);
        let taps = random.canonicals(12 * k + 4);
        let (rows, outputs) = section_3_1(&raw, &taps);
        assert_eq!(rows.len(), 384 * k);
        assert_eq!(chain(&table, &taps), Ok(outputs[k - 1]));
        let mut trace = vec![7; 384 * k];
        assert_eq!(build(&table, &taps, &mut trace), Ok(outputs[k - 1]));
        assert_eq!(trace, rows);
        for (c, claim) in (1..).zip(outputs) {
            let tests = Ok(372 * k as u64);
            assert_eq!(check(&table, &trace, claim, c), tests, "c = {c}, k = {k}");
            let mut read = vec![7; 12 * k + 4];
            let answer = read_off(&table, &trace, claim, c, &mut read);
            assert_eq!(answer, tests, "c = {c}, k = {k}");
            assert_eq!(read, taps, "c = {c}, k = {k}");
        }
    }
}

/// Only the output of the first 3c + 1 taps is accepted with c, and the list that is
/// read off has it.
#[test]
fn no_other_claim() {
    let mut random = Random(18);
    for k in [2, 4, 8] {
        let table = prepared(&random_raw(&mut random));
        let taps = random.canonicals(12 * k + 4);
        let mut trace = vec![7; 384 * k];
        build(&table, &taps, &mut trace).expect("builds");
        let states = final_states(&table, &taps);
        for c in 1..=k {
            for (hash, state) in states.iter().enumerate() {
                let claim = state[..4].try_into().expect("four words");
                let accepted = check(&table, &trace, claim, c).is_ok();
                assert_eq!(accepted, hash + 1 == 3 * c, "hash {hash}, c = {c}");
            }
        }
    }
}

/// "Row 0 for taps 0 and 1; for a later tap i it lies in batch (i - 1) div 3, at
/// row 0, 11 or 21 as (i - 1) mod 3 is 0, 1 or 2." Counted in the whole trace.
fn first_touched(tap: usize) -> usize {
    match tap {
        0 | 1 => 0,
        i => 32 * ((i - 1) / 3) + [0, 11, 21][(i - 1) % 3],
    }
}

/// Every tap of k = 1, 2, 4, replaced by another, under the claim of each c. The trace
/// is the built one each time, and the output that of the first 3c + 1 taps; where the
/// tap is above 3c, the claim.
#[test]
fn an_edit_is_a_build_of_the_altered_list() {
    let mut random = Random(10);
    for k in [1, 2, 4] {
        let raw = random_raw(&mut random);
        let table = prepared(&raw);
        let mut taps = random.canonicals(12 * k + 4);
        let (mut before, mut claims) = section_3_1(&raw, &taps);
        for tap in 0..=3 * k {
            let new: [u64; 4] = std::array::from_fn(|_| random.canonical());
            taps[4 * tap..4 * tap + 4].copy_from_slice(&new);
            let (rows, outputs) = section_3_1(&raw, &taps);
            for c in 1..=k {
                let about = format!("tap {tap}, c = {c}, k = {k}");
                let mut trace = before.clone();
                let output = edit(&table, &mut trace, claims[c - 1], c, tap, new);
                assert_eq!(output, Ok(outputs[c - 1]), "{about}");
                let kept = outputs[c - 1] == claims[c - 1];
                assert_eq!(kept, tap > 3 * c, "{about}");
                assert_eq!(trace, rows, "{about}");
            }
            // Earlier rows keep their cells, and the first row touched does not.
            let touched = (0..32 * k).find(|row| {
                let cells = 12 * row..12 * (row + 1);
                rows[cells.clone()] != before[cells]
            });
            assert_eq!(touched, Some(first_touched(tap)), "tap {tap}, k = {k}");
            (before, claims) = (rows, outputs);
        }
    }
}

/// Under the returned output and the same c, the edited trace is accepted and reads
/// off to the altered list.
#[test]
fn an_edited_trace_under_the_same_c() {
    let mut random = Random(19);
    let k = 4;
    let table = prepared(&random_raw(&mut random));
    let mut taps = random.canonicals(12 * k + 4);
    let mut trace = vec![7; 384 * k];
    build(&table, &taps, &mut trace).expect("builds");
    for c in 1..=k {
        for tap in 0..=3 * k {
            let about = format!("tap {tap}, c = {c}");
            let claim = trace[384 * c - 12..384 * c - 8].try_into().expect("four");
            let new: [u64; 4] = std::array::from_fn(|_| random.canonical());
            taps[4 * tap..4 * tap + 4].copy_from_slice(&new);
            let output = edit(&table, &mut trace, claim, c, tap, new).expect("edits");
            let mut read = vec![7; 12 * k + 4];
            let answer = read_off(&table, &trace, output, c, &mut read);
            assert_eq!(answer, Ok(372 * k as u64), "{about}");
            assert_eq!(check(&table, &trace, output, c), answer, "{about}");
            assert_eq!(read, taps, "{about}");
        }
    }
}

/// An edit by the same tap changes nothing, and an edit back undoes the first.
#[test]
fn edits_there_and_back() {
    let mut random = Random(11);
    for k in [1, 2, 8] {
        let table = prepared(&random_raw(&mut random));
        let taps = random.canonicals(12 * k + 4);
        let mut built = vec![7; 384 * k];
        let claim = build(&table, &taps, &mut built).expect("builds");
        for (tap, words) in taps.chunks(4).enumerate() {
            let old = words.try_into().expect("four words");
            let mut trace = built.clone();
            assert_eq!(edit(&table, &mut trace, claim, k, tap, old), Ok(claim));
            assert_eq!(trace, built, "tap {tap}, k = {k}");
            let output = edit(&table, &mut trace, claim, k, tap, [P - 1; 4]).expect("edits");
            assert_ne!(trace, built, "tap {tap}, k = {k}");
            assert_eq!(edit(&table, &mut trace, output, k, tap, old), Ok(claim));
            assert_eq!(trace, built, "tap {tap}, k = {k}");
        }
    }
}

/// More than 1024 batches (document 02, U9), with claims that end after more, too.
#[test]
fn a_trace_of_2048_batches() {
    let mut random = Random(8);
    let table = prepared(&random_raw(&mut random));
    let taps = random.canonicals(24580);
    let mut trace = vec![7; 384 * 2048];
    let claim = build(&table, &taps, &mut trace).expect("builds");
    let mut read = vec![7; 24580];
    let answer = read_off(&table, &trace, claim, 2048, &mut read);
    assert_eq!(answer, Ok(372 * 2048));
    assert_eq!(read, taps);
    let row = 384 * 2048 - 12;
    trace[row] = (trace[row] + 1) % P;
    assert_eq!(
        check(&table, &trace, claim, 2048),
        Err(Refusal::Constraint {
            row: 32 * 2048 - 2,
            constraint: 33,
            tests: 372 * 2048 - 4 - 11,
        })
    );
    // Under a claim that ends earlier the last row has no test of its own.
    let row_31 = 384 * 1025 - 12;
    let claim = trace[row_31..row_31 + 4].try_into().expect("four words");
    assert_eq!(
        check(&table, &trace, claim, 1025),
        Err(Refusal::Constraint {
            row: 32 * 2048 - 2,
            constraint: 33,
            tests: 372 * 2048 - 11,
        })
    );
}

/// "Permit k to 2^18": every number to 2^20, and every length of a list and of a trace
/// of fewer than 4096 batches, and beside those of more.
#[test]
fn permitted_counts_and_their_lengths() {
    let all: Vec<usize> = permitted().collect();
    let found: Vec<usize> = (0..=1 << 20).filter(|&k| is_permitted(k)).collect();
    assert_eq!(found, all);
    assert!((20..64).all(|bit| !is_permitted(1 << bit)));
    let list = |words: usize| all.iter().copied().find(|k| 12 * k + 4 == words);
    let trace = |words: usize| all.iter().copied().find(|k| 384 * k == words);
    let beside = |exact: usize| exact - 400..exact + 400;
    let lists = (12..21).flat_map(|bit| beside((12 << bit) + 4));
    for words in (0..12 * 4096).chain(lists) {
        assert_eq!(k_of_list(words), list(words), "{words}");
    }
    let traces = (12..21).flat_map(|bit| beside(384 << bit));
    for words in (0..384 * 4096).chain(traces).chain([usize::MAX]) {
        assert_eq!(k_of_trace(words), trace(words), "{words}");
    }
    assert_eq!(k_of_list(usize::MAX), None);
}

/// Every k up to 8 with every c from 1 to k. Row 31 of batch c - 1 has four tests more
/// than row 31 of the others, and the last row four fewer.
#[test]
fn the_order_of_tests() {
    let permitted = [1, 2, 4, 8].into_iter();
    for (k, c) in permitted.flat_map(|k| (1..=k).map(move |c| (k, c))) {
        let order = tests(k, c);
        assert_eq!(order.len(), 372 * k);
        let risen =
            |pair: &[Test]| (pair[0].row, pair[0].constraint) < (pair[1].row, pair[1].constraint);
        assert!(order.windows(2).all(risen));
        for row in 0..32 * k {
            let count = order.iter().filter(|test| test.row == row).count();
            let expected = match row % 32 {
                0 => 4 + 12,
                10 | 20 => 4 + 4,
                31 => 4 + 4 * usize::from(row + 1 == 32 * c) - 4 * usize::from(row + 1 == 32 * k),
                _ => 12,
            };
            assert_eq!(count, expected, "row {row}, c = {c}, k = {k}");
        }
        assert!((49..=52).all(|constraint| {
            let row = 32 * c - 1;
            order.contains(&Test { row, constraint })
        }));
        for constraint in 1..=52 {
            let count = order.iter().filter(|t| t.constraint == constraint).count();
            let expected = match constraint {
                1..=4 | 9..=20 | 33..=44 => k,
                5..=8 => 2 * k,
                21..=24 => 29 * k,
                25..=32 => 27 * k,
                45..=48 => k - 1,
                _ => 1,
            };
            assert_eq!(count, expected, "constraint {constraint}");
        }
    }
}
