//! The traces made to fail: exactly the tests they were made to fail, at the
//! place foretold.

use inputs::tables::{self, Good};
use inputs::traces::{
    failed, faulty_days, first_failure_of_cell, output_after, place, rows_of, with_faults, Day,
    Fault,
};
use inputs::{fault_cases, Random};
use second::constraints::{tests, Lent, Test};
use second::field::{add, mul, reciprocal, sub};
use second::{Refusal, Table};

const SEED: u64 = 52;

/// All tests of the order that fail, not only the first.
fn all_that_fail(table: &[u64], trace: &[u64], claim: [u64; 4], c: usize) -> Vec<(usize, usize)> {
    let table = Table::test(table).expect("an accepted table");
    let lent = Lent {
        table,
        trace,
        claim,
        c,
    };
    let fails = |test: &&Test| !lent.holds(**test);
    let order = tests(trace.len() / 384, c);
    let failing = order.iter().filter(fails);
    failing.map(|test| (test.row, test.constraint)).collect()
}

#[test]
fn each_constraint_fails_alone() {
    let mut seen = std::collections::BTreeSet::new();
    for case in fault_cases(SEED) {
        let Some(Refusal::Constraint {
            row, constraint, ..
        }) = case.refusal
        else {
            panic!("seed {SEED}: {} is not made to fail", case.name);
        };
        let failing = all_that_fail(&case.table, &case.trace, case.claim, case.c);
        let expected = vec![(row as usize, constraint as usize)];
        assert_eq!(failing, expected, "seed {SEED}: {}", case.name);
        let answer = second::check(&case.table, &case.trace, case.claim, case.c);
        assert_eq!(answer.err(), case.refusal, "seed {SEED}: {}", case.name);
        for yardstick in yardstick::BOTH {
            let other = (yardstick.check)(&case.table, &case.trace, case.claim, case.c);
            assert_eq!(other, answer, "seed {SEED}: {}", case.name);
        }
        seen.insert((case.trace.len() / 384, case.c, constraint));
    }
    for constraint in 1..=52 {
        for k in [1, 2, 4, 8] {
            for c in 1..=k {
                let applies = k > 1 || !(45..=48).contains(&constraint);
                assert_eq!(seen.contains(&(k, c, constraint)), applies);
            }
        }
    }
}

/// Every test of two batches, under the claim of each c: 740 that are the same for
/// both, and the claim's four at row 31 or at row 63.
#[test]
fn each_test_fails_alone() {
    let mut random = Random::new(SEED);
    let table = tables::dense(&mut random);
    let taps = random.canonicals(28);
    let orders = [1, 2].map(|c| tests(2, c));
    let mut alone = [0; 2];
    for row in 0..64 {
        for constraint in 1..=52 {
            let test = Test { row, constraint };
            let by = random.unit();
            let fault = Fault {
                row,
                constraint,
                by,
            };
            if !orders.iter().any(|order| order.contains(&test)) {
                continue;
            }
            for day in faulty_days(&table, &taps, 1..=2, &[fault]) {
                let failing = all_that_fail(&day.table.prepared, &day.trace, day.claim, day.c);
                let expected = match orders[day.c - 1].contains(&test) {
                    true => vec![(row, constraint)],
                    false => vec![],
                };
                assert_eq!(failing, expected, "{}", day.name);
                alone[day.c - 1] += failing.len();
            }
        }
    }
    assert_eq!(alone, [744, 744]);
}

#[test]
fn several_faults_fail_together() {
    let mut random = Random::new(SEED);
    for turn in 0..60 {
        let table = tables::good(&mut random);
        let taps = random.canonicals(28);
        let c = 1 + turn % 2;
        let order = tests(2, c);
        let mut faults = vec![];
        let mut places = vec![];
        for Test { row, constraint } in order {
            if random.one_in(100) {
                let by = random.unit();
                faults.push(Fault {
                    row,
                    constraint,
                    by,
                });
                places.push((row, constraint));
            }
        }
        let (trace, claim) = with_faults(&table, &taps, c, &faults);
        let failing = all_that_fail(&table.prepared, &trace, claim, c);
        assert_eq!(failing, places);
    }
}

#[test]
fn without_faults_the_trace_is_the_built_one() {
    let mut random = Random::new(SEED);
    for k in [1, 2, 4, 8] {
        let table = tables::good(&mut random);
        let taps = random.canonicals(12 * k + 4);
        let mut trace = vec![0; 384 * k];
        let output = second::build(&table.prepared, &taps, &mut trace).expect("builds");
        assert_eq!(with_faults(&table, &taps, k, &[]), (trace.clone(), output));
        // The claim of a lower c, from the hashes of the first 3c + 1 taps.
        let mut left = taps[..4].to_vec();
        for (number, right) in (1..).zip(taps[4..].chunks(4)) {
            let words = [&left, right].concat().try_into().expect("two taps");
            left = second::hash(&table.prepared, words).expect("hashes")[..4].to_vec();
            if number % 3 == 0 {
                let c = number / 3;
                let (_, claim) = with_faults(&table, &taps, c, &[]);
                assert_eq!(claim[..], left, "c = {c}, k = {k}");
                assert_eq!(output_after(&trace, c), claim, "c = {c}, k = {k}");
            }
        }
    }
}

#[test]
fn places_and_rows_are_those_of_the_order() {
    let permitted = [1, 2, 4, 8].into_iter();
    for (k, c) in permitted.flat_map(|k| (1..=k).map(move |c| (k, c))) {
        let order = tests(k, c);
        for (before, test) in order.iter().enumerate() {
            let test = (test.row, test.constraint);
            assert_eq!(place(k, c, test), before + 1, "{test:?}, k = {k}, c = {c}");
        }
        for constraint in 1..=52 {
            let rows: Vec<usize> = order
                .iter()
                .filter(|test| test.constraint == constraint)
                .map(|test| test.row)
                .collect();
            assert_eq!(rows_of(k, c, constraint), rows);
        }
    }
}

/// Every cell of a trace, altered alone, under the claim of each c.
fn alter_every_cell(table: Good, k: usize, random: &mut Random) {
    let taps = random.canonicals(12 * k + 4);
    for mut day in faulty_days(&table, &taps, 1..=k, &[]) {
        for row in 0..32 * k {
            for column in 0..12 {
                alter_cell(&mut day, row, column, random.unit());
            }
        }
    }
}

fn alter_cell(day: &mut Day, row: usize, column: usize, by: u64) {
    let cell = 12 * row + column;
    let honest = day.trace[cell];
    day.trace[cell] = add(honest, by);
    let answer = second::check(&day.table.prepared, &day.trace, day.claim, day.c);
    let test = first_failure_of_cell(&day.table, row, column);
    let expected = failed(day.k(), day.c, test);
    assert_eq!(answer, Err(expected), "{}, {row}, {column}", day.name);
    day.trace[cell] = honest;
}

#[test]
fn every_cell_altered_alone() {
    let mut random = Random::new(SEED);
    alter_every_cell(tables::z(), 1, &mut random);
    alter_every_cell(tables::a(), 2, &mut random);
    alter_every_cell(tables::s(), 2, &mut random);
    let table = tables::dense(&mut random);
    alter_every_cell(table, 2, &mut random);
    for _ in 0..12 {
        let table = tables::good(&mut random);
        alter_every_cell(table, 1, &mut random);
    }
}

/// Rank by elimination.
fn rank(m: &[u64]) -> usize {
    let mut rows: Vec<Vec<u64>> = m.chunks(12).map(|row| row.to_vec()).collect();
    let mut rank = 0;
    for column in 0..12 {
        let Some(pivot) = (rank..12).find(|&i| rows[i][column] != 0) else {
            continue;
        };
        rows.swap(rank, pivot);
        let pivot_row = rows[rank].clone();
        for row in &mut rows[rank + 1..] {
            let factor = mul(row[column], reciprocal(pivot_row[column]));
            for (cell, &pivot_cell) in row.iter_mut().zip(&pivot_row) {
                *cell = sub(*cell, mul(factor, pivot_cell));
            }
        }
        rank += 1;
    }
    rank
}

#[test]
fn matrices_have_the_rank_they_were_made_with() {
    let mut random = Random::new(SEED);
    for wanted in 0..12 {
        for _ in 0..3 {
            let m = tables::of_rank(&mut random, wanted);
            assert_eq!(rank(&m), wanted);
            let raw = [m, random.canonicals(252)].concat();
            let answer = second::prepare(&raw, &mut [0; 540]);
            assert_eq!(answer, Err(Refusal::NoInverse), "rank {wanted}");
        }
    }
    for _ in 0..24 {
        let (name, m) = tables::dependent(&mut random);
        assert!(rank(&m) < 12, "{name}");
        let table = tables::good(&mut random);
        assert_eq!(rank(&table.raw[..144]), 12, "{}", table.name);
    }
}

/// One cell of the stored inverse altered: its column of the product changes in
/// the rows where M has something in that cell's row.
#[test]
fn first_cell_unlike_the_identity() {
    let mut random = Random::new(SEED);
    for _ in 0..200 {
        let table = tables::good(&mut random);
        let (row, column) = (random.below(12), random.below(12));
        let mut words = table.prepared.clone();
        let cell = 144 + 12 * row + column;
        words[cell] = add(words[cell], random.unit());
        let first = (0..12).find(|&i| table.m(i, row) != 0).expect("a cell");
        let cell = 12 * first + column;
        assert_eq!(tables::first_unlike_identity(&words), Some(cell));
        let refused = Refusal::InverseCell { cell: cell as u64 };
        assert_eq!(Table::test(&words).err(), Some(refused));
        assert_eq!(tables::first_unlike_identity(&table.prepared), None);
    }
}
