//! Traces of every kind that a checker could wave through: each cell altered by
//! itself, each of the 52 constraints failing alone, claims of another c, words that
//! are not canonical at either end, every length, and every k up to 1024. Those of more
//! batches are in larger.rs.

use differential::{same_verdict, seeds, some_cs, words};
use inputs::tables::{dense, good, s, z, Good};
use inputs::traces::{day, failed, first_failure_of_cell, honest_days, output_after, Day};
use inputs::*;
use second::field::{add, P};
use second::Refusal;

/// Check and Read-off of both, the buffers of Read-off included. Answers what all say.
fn judge(
    table: &[u64],
    trace: &[u64],
    claim: [u64; 4],
    c: usize,
    taps: usize,
    about: &str,
) -> Result<u64, Refusal> {
    let proved = lemoncolumn::check(table, trace, claim, c);
    let second = second::check(table, trace, claim, c);
    same_verdict(proved, second, about);
    let mut left = words(taps);
    let mut other = words(taps);
    let read = lemoncolumn::read_off(table, trace, claim, c, &mut left);
    assert!(left.is_guarded(), "{about}");
    assert!(read.is_ok() || left.is_untouched(), "{about}");
    same_verdict(
        read,
        second::read_off(table, trace, claim, c, &mut other),
        about,
    );
    assert_eq!(left[..], other[..], "{about}");
    second
}

fn judge_day(day: &Day, about: &str) -> Result<u64, Refusal> {
    let (table, taps) = (&day.table.prepared, day.taps.len());
    judge(table, &day.trace, day.claim, day.c, taps, about)
}

/// Cells of the rows of an honest trace altered, one at a time, under the claim of
/// each c. Within a batch it is these rows of the 32.
fn alter_cells(random: &mut Random, table: Good, k: usize, rows: &[usize]) {
    let taps = random.canonicals(12 * k + 4);
    for honest in honest_days(&table, &taps, 1..=k) {
        for row in (0..32 * k).filter(|row| rows.contains(&(row % 32))) {
            for column in 0..12 {
                let mut altered = honest.clone();
                let cell = &mut altered.trace[12 * row + column];
                *cell = add(*cell, random.unit());
                let about = format!("{}, cell {row}, {column} altered", honest.name);
                let fails = first_failure_of_cell(&table, row, column);
                let refusal = failed(k, honest.c, fails);
                assert_eq!(judge_day(&altered, &about), Err(refusal), "{about}");
            }
        }
    }
}

#[test]
fn each_cell() {
    let all: Vec<usize> = (0..32).collect();
    for seed in seeds("each_cell") {
        let mut random = Random::new(seed);
        for table in [z(), s(), dense(&mut random), good(&mut random)] {
            alter_cells(&mut random, table, 1, &all);
        }
        let table = dense(&mut random);
        alter_cells(&mut random, table, 2, &all);
    }
}

/// The rows in which a batch starts and ends, for every c.
#[test]
fn each_cell_where_batches_meet() {
    for seed in seeds("each_cell_where_batches_meet") {
        let mut random = Random::new(seed);
        for k in [4, 8] {
            let table = dense(&mut random);
            alter_cells(&mut random, table, k, &[0, 31]);
        }
    }
}

/// The claim of each c, lent with each c and with numbers that are none: it is accepted
/// where row 31 of batch c - 1 has it.
#[test]
fn every_c() {
    for seed in seeds("every_c") {
        let mut random = Random::new(seed);
        for k in [1, 2, 4, 8] {
            let table = good(&mut random);
            let taps = random.uniform(12 * k + 4);
            for mut day in honest_days(&table, &taps, 1..=k) {
                for c in (1..=k).chain(no_c(k)) {
                    day.c = c;
                    let about = format!("seed {seed}: {}, lent c = {c}", day.name);
                    assert_eq!(judge_day(&day, &about), claimed(&day), "{about}");
                }
            }
        }
    }
}

/// What is answered of an honest trace with this claim and this c.
fn claimed(day: &Day) -> Result<u64, Refusal> {
    let (k, c) = (day.k(), day.c);
    if c == 0 || c > k {
        return Err(Refusal::ClaimBatches);
    }
    let output = output_after(&day.trace, c);
    match (0..4).find(|&column| output[column] != day.claim[column]) {
        None => Ok(372 * k as u64),
        Some(column) => Err(failed(k, c, (32 * c - 1, 49 + column))),
    }
}

#[test]
fn each_constraint() {
    for seed in seeds("each_constraint") {
        let mut alone = [0; 53];
        for case in fault_cases(seed) {
            let about = format!("seed {seed}: {}", case.name);
            let taps = 12 * (case.trace.len() / 384) + 4;
            let answer = judge(&case.table, &case.trace, case.claim, case.c, taps, &about);
            let refusal = case.refusal.expect("a fault");
            assert_eq!(answer, Err(refusal), "{about}");
            let Refusal::Constraint { constraint, .. } = refusal else {
                panic!("{about}");
            };
            alone[constraint as usize] += 1;
        }
        assert!(alone[1..].iter().all(|&count| count > 0), "{alone:?}");
    }
}

/// p, and the largest word, at either end of each input.
#[test]
fn ends() {
    for seed in seeds("ends") {
        let mut random = Random::new(seed);
        let table = dense(&mut random);
        let taps = random.canonicals(28);
        let honest = day(table, taps, 2);
        let refused = |altered: &Day, refusal: Refusal| {
            let about = format!("seed {seed}: {refusal:?}");
            assert_eq!(judge_day(altered, &about), Err(refusal), "{about}");
        };
        for word in [P, P + 1, 1 << 62, 1 << 63, u64::MAX] {
            for at in [0, 143, 144, 287, 288, 539] {
                let mut altered = honest.clone();
                altered.table.prepared[at] = word;
                refused(&altered, table_word(at));
            }
            for at in [0, 1, 383, 384, 766, 767] {
                let mut altered = honest.clone();
                altered.trace[at] = word;
                refused(&altered, trace_word(at));
            }
            for at in 0..4 {
                let mut altered = honest.clone();
                altered.claim[at] = word;
                refused(&altered, claim_word(at));
            }
        }
    }
}

/// Every length of a trace, of a list and of a destination up to a few batches.
#[test]
fn lengths() {
    for seed in seeds("lengths") {
        let mut random = Random::new(seed);
        let table = dense(&mut random).prepared;
        for length in 0..1600 {
            let trace = random.uniform(length);
            let taps = 12 * (length / 384) + 4;
            let about = format!("seed {seed}: {length} trace words");
            let expected = match length {
                384 | 768 | 1536 => failed(length / 384, 1, (0, 1)),
                _ => Refusal::TraceLength,
            };
            let answer = judge(&table, &trace, [0; 4], 1, taps, &about);
            assert_eq!(answer, Err(expected), "{about}");
        }
        for length in 0..120 {
            let about = format!("seed {seed}: {length} tap words");
            let taps = random.uniform(length);
            let k = length / 12;
            for destination in [384 * k, 384 * k + 1] {
                let mut left = words(destination);
                let mut other = words(destination);
                let proved = lemoncolumn::build(&table, &taps, &mut left);
                let second = second::build(&table, &taps, &mut other);
                assert!(proved.is_ok() || left.is_untouched(), "{about}");
                assert_eq!(left[..], other[..], "{about}");
                same_verdict(proved, second, &about);
            }
            same_verdict(
                lemoncolumn::chain(&table, &taps),
                second::chain(&table, &taps),
                &about,
            );
        }
    }
}

/// From the taps to the trace and back, for every k up to 1024 and some c.
#[test]
fn every_k() {
    for seed in seeds("every_k") {
        let mut random = Random::new(seed);
        let table = dense(&mut random).prepared;
        for k in (0..=10).map(|exponent| 1 << exponent) {
            let about = format!("seed {seed}: k = {k}");
            let taps = random.canonicals(lemoncolumn::tap_words(k));
            let mut trace = words(lemoncolumn::trace_words(k));
            let output = lemoncolumn::build(&table, &taps, &mut trace).expect("built");
            let mut other = words(lemoncolumn::trace_words(k));
            let second = second::build(&table, &taps, &mut other);
            assert_eq!(second, Ok(output), "{about}");
            assert!(trace[..] == other[..], "{about}");
            assert_eq!(lemoncolumn::chain(&table, &taps), Ok(output), "{about}");
            assert_eq!(output_after(&trace, k), output, "{about}");
            for c in some_cs(k) {
                let about = format!("{about}, c = {c}");
                let claim = output_after(&trace, c);
                let tests = judge(&table, &trace, claim, c, taps.len(), &about);
                assert_eq!(tests, Ok(372 * k as u64), "{about}");
                let mut read = words(taps.len());
                let tests = lemoncolumn::read_off(&table, &trace, claim, c, &mut read);
                assert_eq!(tests, Ok(372 * k as u64), "{about}");
                assert!(read[..] == taps[..], "{about}");
            }
            let row = random.below(32 * k);
            let cell = &mut trace[12 * row + random.below(12)];
            *cell = add(*cell, random.unit());
            let answer = judge(&table, &trace, output, k, taps.len(), &about);
            assert!(answer.is_err(), "{about}");
        }
    }
}
