//! Edits of honest traces there and back, tap by tap and under the claim of each c,
//! and of traces that no edit may take.

use differential::{few_cs, holding, named, same_verdict, seeds, words};
use inputs::edits::{tap_of, with_tap};
use inputs::tables::{dense, good, s, z, Good};
use inputs::traces::{day, failed, honest_days, output_after, Day};
use inputs::*;
use second::field::{add, P};
use second::Refusal;

/// An edit by both. The answers and the traces that they leave agree, and a
/// refused edit has touched nothing. Answers what is left, and what both say.
fn both(
    table: &[u64],
    trace: &[u64],
    (claim, c): ([u64; 4], usize),
    tap: usize,
    new: [u64; 4],
    about: &str,
) -> (Vec<u64>, Result<[u64; 4], Refusal>) {
    let mut left = holding(trace);
    let mut other = holding(trace);
    let proved = lemoncolumn::edit(table, &mut left, claim, c, tap, new);
    let second = second::edit(table, &mut other, claim, c, tap, new);
    assert!(left.is_guarded(), "{about}");
    assert!(proved.is_ok() || left.is_untouched(), "{about}");
    assert!(left[..] == other[..], "{about}: the traces differ");
    same_verdict(proved, second, about);
    (left.to_vec(), proved.map_err(named))
}

/// A tap of an honest day replaced: the trace is that of a build of the altered list
/// and reads off to it under the same c, the output is that of the first 3c + 1 taps,
/// rows before the first one touched keep their cells, and the edit back gives the
/// starting words.
fn there_and_back(day: &Day, tap: usize, new: [u64; 4], about: &str) {
    let (table, c) = (&day.table.prepared, day.c);
    let (left, output) = both(table, &day.trace, (day.claim, c), tap, new, about);
    let output = output.expect("accepted");

    let altered = with_tap(&day.taps, tap, new);
    let mut built = words(left.len());
    let all = lemoncolumn::build(table, &altered, &mut built);
    assert_eq!(all, Ok(output_after(&left, day.k())), "{about}");
    assert!(built[..] == left[..], "{about}: not the built trace");
    assert_eq!(output, output_after(&left, c), "{about}");
    if tap > 3 * c {
        assert_eq!(
            output, day.claim,
            "{about}: the claim is not about this tap"
        );
    }
    let mut read = words(altered.len());
    let tests = lemoncolumn::read_off(table, &left, output, c, &mut read);
    assert_eq!(tests, Ok(372 * (left.len() / 384) as u64), "{about}");
    assert!(read[..] == altered[..], "{about}: not the altered list");

    let old = tap_of(&day.taps, tap).expect("a tap");
    let touched = left
        .iter()
        .zip(&day.trace)
        .position(|(one, two)| one != two);
    let first = (new != old).then(|| first_touched(tap));
    assert_eq!(touched.map(|word| word / 12), first, "{about}");
    let (back, claim) = both(table, &left, (output, c), tap, old, about);
    assert_eq!(claim, Ok(day.claim), "{about}");
    assert!(back == day.trace, "{about}: not the starting words");
}

/// The first row touched, counted in the whole trace (document 02, U1).
fn first_touched(tap: usize) -> usize {
    let later = tap.max(1) - 1;
    32 * (later / 3) + [0, 11, 21][later % 3]
}

/// Taps to replace this one by: the same, one with another word, and any others.
fn new_taps(random: &mut Random, old: [u64; 4], tap: usize) -> [[u64; 4]; 5] {
    let word = tap % 4;
    let mut near = old;
    near[word] = add(old[word], random.unit());
    let any = std::array::from_fn(|_| random.canonical());
    [old, near, any, [0; 4], [P - 1; 4]]
}

/// Each tap under the claim of each c, by so many others.
fn each_tap_of(random: &mut Random, table: Good, k: usize, others: usize) {
    let taps = random.canonicals(12 * k + 4);
    for honest in honest_days(&table, &taps, 1..=k) {
        for tap in 0..=3 * k {
            let old = tap_of(&taps, tap).expect("a tap");
            let mut new = new_taps(random, old, tap);
            new.rotate_left((tap + honest.c) % 5);
            for new in &new[..others] {
                let about = format!("{}, tap {tap} by {new:?}", honest.name);
                there_and_back(&honest, tap, *new, &about);
            }
        }
    }
}

#[test]
fn each_tap() {
    for seed in seeds("each_tap") {
        let mut random = Random::new(seed);
        for (k, others) in [(1, 5), (2, 3), (4, 1)] {
            for table in [z(), s(), dense(&mut random), good(&mut random)] {
                each_tap_of(&mut random, table, k, others);
            }
        }
    }
}

/// The last tap that the claim is about and the next one, for every c of eight
/// batches.
#[test]
fn taps_beside_the_claim() {
    for seed in seeds("taps_beside_the_claim") {
        let mut random = Random::new(seed);
        let k = 8;
        let (table, taps) = (dense(&mut random), random.canonicals(12 * k + 4));
        for honest in honest_days(&table, &taps, 1..=k) {
            for tap in [0, 3 * honest.c, 3 * honest.c + 1, 3 * k] {
                if tap <= 3 * k {
                    let new = std::array::from_fn(|_| random.canonical());
                    let about = format!("seed {seed}: {}, tap {tap}", honest.name);
                    there_and_back(&honest, tap, new, &about);
                }
            }
        }
    }
}

/// For every k up to 1024: first, middle and last taps with c = k, and for a few other
/// c the first tap that the claim is not about.
#[test]
fn every_k() {
    for seed in seeds("every_k") {
        let mut random = Random::new(seed);
        for k in (0..=10).map(|exponent| 1 << exponent) {
            let (table, taps) = (dense(&mut random), random.canonicals(12 * k + 4));
            for honest in honest_days(&table, &taps, few_cs(k)) {
                let chosen = match honest.c {
                    c if c < k => vec![3 * c + 1],
                    _ => vec![0, 3 * k / 2, 3 * k],
                };
                for tap in chosen {
                    let new = std::array::from_fn(|_| random.canonical());
                    let about = format!("seed {seed}: {}, tap {tap}", honest.name);
                    there_and_back(&honest, tap, new, &about);
                }
            }
        }
    }
}

/// Edits one after the other, each under the claim of any c that the one before has
/// left.
#[test]
fn many_in_turn() {
    for seed in seeds("many_in_turn") {
        let mut random = Random::new(seed);
        for k in [1, 2, 4, 8] {
            let table = good(&mut random);
            let mut day = day(table, random.canonicals(12 * k + 4), k);
            for turn in 0..40 {
                let c = 1 + random.place(k);
                let claim = output_after(&day.trace, c);
                let tap = random.place(3 * k + 1);
                let new = std::array::from_fn(|_| random.canonical());
                let about = format!("seed {seed}: {}, turn {turn}, c = {c}", day.name);
                let table = &day.table.prepared;
                let (left, output) = both(table, &day.trace, (claim, c), tap, new, &about);
                assert_eq!(output, Ok(output_after(&left, c)), "{about}");
                day.trace = left;
                day.taps = with_tap(&day.taps, tap, new);
            }
            let fresh = inputs::traces::day(day.table, day.taps, k);
            assert_eq!(day.trace, fresh.trace);
        }
    }
}

/// Traces that fail one of the 52 constraints alone, edited at each tap in turn.
#[test]
fn each_constraint() {
    for seed in seeds("each_constraint, edit") {
        for (number, case) in fault_cases(seed).into_iter().enumerate() {
            let about = format!("seed {seed}: {}", case.name);
            let tap = number % (case.trace.len() / 128 + 1);
            let new = [number as u64; 4];
            let claim = (case.claim, case.c);
            let (_, answer) = both(&case.table, &case.trace, claim, tap, new, &about);
            assert_eq!(answer.err(), case.refusal, "{about}");
        }
    }
}

/// Words that are not canonical at either end of each input; every tap number near
/// 3k, and every c near k.
#[test]
fn ends() {
    for seed in seeds("ends, edit") {
        let mut random = Random::new(seed);
        let table = dense(&mut random);
        let honest = day(table, random.canonicals(28), 2);
        let lend = |day: &Day, tap: usize, new: [u64; 4], refusal: Option<Refusal>| {
            let about = format!("seed {seed}: tap {tap} by {new:?}, {refusal:?}");
            let table = &day.table.prepared;
            let claim = (day.claim, day.c);
            let (_, answer) = both(table, &day.trace, claim, tap, new, &about);
            assert_eq!(answer.err(), refusal, "{about}");
        };
        for word in [P, P + 1, 1 << 63, u64::MAX] {
            for at in [0, 143, 144, 287, 288, 539] {
                let mut altered = honest.clone();
                altered.table.prepared[at] = word;
                lend(&altered, 6, [1; 4], Some(table_word(at)));
            }
            for at in [0, 1, 383, 384, 766, 767] {
                let mut altered = honest.clone();
                altered.trace[at] = word;
                lend(&altered, 6, [1; 4], Some(trace_word(at)));
            }
            for at in 0..4 {
                let mut altered = honest.clone();
                altered.claim[at] = word;
                lend(&altered, 6, [1; 4], Some(claim_word(at)));
                let mut new = [1; 4];
                new[at] = word;
                lend(&honest, 6, new, Some(tap_word(at)));
            }
        }
        for tap in (0..40).chain([1 << 32, 1 << 62, usize::MAX]) {
            let refusal = (tap > 6).then_some(Refusal::NoSuchTap);
            lend(&honest, tap, [1; 4], refusal);
        }
        for c in no_c(2) {
            let mut altered = honest.clone();
            altered.c = c;
            let refusal = Some(Refusal::ClaimBatches);
            lend(&altered, 6, [1; 4], refusal);
            lend(&altered, 7, [P; 4], refusal);
        }
    }
}

/// Every length of a trace up to a few batches, of any words.
#[test]
fn lengths() {
    for seed in seeds("lengths, edit") {
        let mut random = Random::new(seed);
        let table = dense(&mut random).prepared;
        for length in 0..1600 {
            let about = format!("seed {seed}: {length} trace words");
            let trace = random.uniform(length);
            let (_, answer) = both(&table, &trace, ([0; 4], 1), 0, [0; 4], &about);
            let refusal = match length {
                384 | 768 | 1536 => failed(length / 384, 1, (0, 1)),
                _ => Refusal::TraceLength,
            };
            assert_eq!(answer, Err(refusal), "{about}");
        }
    }
}
