//! The count in refusal 11 is the failing test's place (document 02, U4), in the order
//! that c leaves (U6). Traces that fail each test of the order alone, taken in the
//! order, are refused with 1, 2, 3 and so on to 372k, by Check, Read-off and Edit of
//! both implementations.

use differential::{few_cs, holding, same_verdict, seeds, words};
use inputs::tables::{dense, good};
use inputs::traces::{cs_of, faulty_day, faulty_days, rows_for_some_c, rows_of, Day, Fault};
use inputs::*;
use second::Refusal;
use std::collections::BTreeSet;

/// Row and constraint.
type Test = (usize, usize);

/// The tests at the rows that are given for each constraint: rows rising, constraint
/// numbers rising within a row. Neither implementation's list is used.
fn sorted(rows: impl Fn(usize) -> Vec<usize>) -> Vec<Test> {
    let at = |constraint| rows(constraint).into_iter();
    let mut tests: Vec<Test> = (1..=52)
        .flat_map(|constraint| at(constraint).map(move |row| (row, constraint)))
        .collect();
    tests.sort();
    tests
}

/// The order for this c.
fn order(k: usize, c: usize) -> Vec<Test> {
    let order = sorted(|constraint| rows_of(k, c, constraint));
    assert_eq!(order.len(), 372 * k);
    order
}

/// All tests that the order of some c has.
fn tests_for_some_c(k: usize) -> Vec<Test> {
    sorted(|constraint| rows_for_some_c(k, constraint))
}

fn fault(random: &mut Random, (row, constraint): Test) -> Fault {
    Fault {
        row,
        constraint,
        by: random.unit(),
    }
}

/// Check, Read-off and Edit of both refuse the day with this test and count, and
/// write nothing.
fn refused_alike(seed: u64, day: &Day, tap: usize, (row, constraint): Test, count: usize) {
    let about = format!("seed {seed}: {}, tap {tap}", day.name);
    let refusal = Refusal::Constraint {
        row: row as u64,
        constraint: constraint as u64,
        tests: count as u64,
    };
    let (table, trace, claim, c) = (&day.table.prepared, &day.trace, day.claim, day.c);
    let answer = lemoncolumn::check(table, trace, claim, c);
    same_verdict(answer, Err(refusal), &about);
    let answer = second::check(table, trace, claim, c);
    assert_eq!(answer, Err(refusal), "{about}");

    let mut taps = words(day.taps.len());
    let answer = lemoncolumn::read_off(table, trace, claim, c, &mut taps);
    same_verdict(answer, Err(refusal), &about);
    let answer = second::read_off(table, trace, claim, c, &mut taps);
    assert_eq!(answer, Err(refusal), "{about}");
    assert!(taps.is_untouched(), "{about}");

    let mut lent = holding(trace);
    let answer = lemoncolumn::edit(table, &mut lent, claim, c, tap, [1; 4]);
    same_verdict(answer, Err(refusal), &about);
    let answer = second::edit(table, &mut lent, claim, c, tap, [1; 4]);
    assert_eq!(answer, Err(refusal), "{about}");
    assert!(lent.is_untouched(), "{about}");
}

/// For every c.
#[test]
fn each_test_alone() {
    for seed in seeds("each_test_alone") {
        let mut random = Random::new(seed);
        for k in [1, 2, 4] {
            let table = dense(&mut random);
            let taps = random.canonicals(12 * k + 4);
            let mut counts = vec![0; k];
            for test in tests_for_some_c(k) {
                let fault = [fault(&mut random, test)];
                for day in faulty_days(&table, &taps, cs_of(k, test), &fault) {
                    let count = &mut counts[day.c - 1];
                    refused_alike(seed, &day, *count % (3 * k + 1), test, *count + 1);
                    *count += 1;
                }
            }
            assert_eq!(counts, vec![372 * k; k]);
        }
    }
}

/// Of each of eight batches the first test, the last one before row 31, and all of row
/// 31, for every c.
#[test]
fn tests_where_batches_meet() {
    for seed in seeds("tests_where_batches_meet") {
        let mut random = Random::new(seed);
        let k = 8;
        let table = dense(&mut random);
        let taps = random.canonicals(12 * k + 4);
        let orders: Vec<Vec<Test>> = (1..=k).map(|c| order(k, c)).collect();
        let meet = |test: &Test| test.0 % 32 == 31 || matches!(test.1, 1 | 44);
        for test in tests_for_some_c(k).into_iter().filter(meet) {
            let fault = [fault(&mut random, test)];
            for day in faulty_days(&table, &taps, cs_of(k, test), &fault) {
                let order = &orders[day.c - 1];
                let before = order.binary_search(&test).expect("in the order");
                refused_alike(seed, &day, 3 * k, test, before + 1);
            }
        }
    }
}

/// Two tests or more that fail: the count is the place of the first.
#[test]
fn several_at_once() {
    for seed in seeds("several_at_once") {
        let mut random = Random::new(seed);
        let batches = [1, 2, 4, 8].into_iter();
        for (k, c) in batches.flat_map(|k| (1..=k).map(move |c| (k, c))) {
            let order = order(k, c);
            for turn in 0..200 / k {
                let first = random.below(order.len() - 1);
                let mut failing = vec![first];
                for _ in 0..1 + turn % 4 {
                    failing.push(first + 1 + random.below(order.len() - first - 1));
                }
                failing.sort();
                failing.dedup();
                let faults: Vec<Fault> = failing
                    .iter()
                    .map(|&before| fault(&mut random, order[before]))
                    .collect();
                let table = good(&mut random);
                let day = faulty_day(table, random.canonicals(12 * k + 4), c, &faults);
                let tap = random.below(3 * k + 1);
                refused_alike(seed, &day, tap, order[first], first + 1);
            }
        }
    }
}

/// For every k up to 1024 and a few c: the first test and the last of the first batch's
/// 372, the last of the claim's row, the first test of the last batch, and the last of
/// all.
#[test]
fn every_k() {
    for seed in seeds("every_k, counts") {
        let mut random = Random::new(seed);
        for k in (0..=10).map(|exponent| 1 << exponent) {
            let table = dense(&mut random);
            let taps = random.canonicals(12 * k + 4);
            for c in few_cs(k) {
                let claims = if c < k { 372 * c + 4 } else { 372 * k };
                let moved = if c < k { 4 } else { 0 };
                let last_batch = 372 * (k - 1) + moved + 1;
                let places = BTreeSet::from([1, 372, claims, last_batch, 372 * k]);
                let order = order(k, c);
                for count in places {
                    let test = order[count - 1];
                    let fault = fault(&mut random, test);
                    let day = faulty_day(table.clone(), taps.clone(), c, &[fault]);
                    refused_alike(seed, &day, 3 * k, test, count);
                }
            }
        }
    }
}
