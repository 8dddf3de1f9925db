//! The cases of Edit (document 02, U1 and U6).

use crate::cases::{claim_word, damage, first_of, join, no_c, tap_word, trace_word, EditCase};
use crate::checks::{lent_day, Damaged, LENGTHS};
use crate::random::Random;
use crate::tables::{damaged_tables, dense, special_tables};
use crate::taps::some_c;
use crate::traces::{broken, day, failed, honest_days, with_faults, Day};
use second::field::{add, P};
use second::Refusal;

/// Tap numbers above 3k: the next ones, a number of words and one of rows, and some
/// that are small again in 32 bits, or where four words a tap are counted in 64.
fn no_taps(k: usize) -> [usize; 10] {
    [
        3 * k + 1,
        3 * k + 2,
        12 * k + 3,
        32 * k,
        1 << 32,
        (1 << 32) + 1,
        (1 << 62) + 1,
        1 << 63,
        usize::MAX - 1,
        usize::MAX,
    ]
}

/// Tap `tap` of a list, if there is one.
pub fn tap_of(taps: &[u64], tap: usize) -> Option<[u64; 4]> {
    let words = taps.chunks(4).nth(tap)?;
    Some(words.try_into().expect("four words"))
}

/// The list with one tap replaced.
pub fn with_tap(taps: &[u64], tap: usize, new: [u64; 4]) -> Vec<u64> {
    let mut altered = taps.to_vec();
    altered[4 * tap..4 * tap + 4].copy_from_slice(&new);
    altered
}

/// A new tap: the old one, that with one other word, or any.
fn new_tap(random: &mut Random, old: [u64; 4]) -> [u64; 4] {
    match random.below(8) {
        0 => old,
        1 => {
            let mut new = old;
            let word = &mut new[random.below(4)];
            *word = add(*word, random.unit());
            new
        }
        2 => [0; 4],
        3 => [P - 1; 4],
        _ => std::array::from_fn(|_| random.canonical()),
    }
}

/// An edit of an honest day.
fn accepted(day: &Day, tap: usize, new: [u64; 4]) -> EditCase {
    let (altered, output) = with_faults(&day.table, &with_tap(&day.taps, tap, new), day.c, &[]);
    EditCase {
        name: format!("{}, tap {tap} by {new:?}", day.name),
        table: day.table.prepared.clone(),
        trace: day.trace.clone(),
        claim: day.claim,
        c: day.c,
        tap,
        new,
        refusal: None,
        altered,
        output,
    }
}

/// An edit that is refused.
fn refused(name: String, day: &Day, tap: usize, new: [u64; 4], refusal: Refusal) -> EditCase {
    EditCase {
        name,
        table: day.table.prepared.clone(),
        trace: day.trace.clone(),
        claim: day.claim,
        c: day.c,
        tap,
        new,
        refusal: Some(refusal),
        altered: vec![],
        output: [0; 4],
    }
}

fn edit_corners(seed: u64) -> Vec<EditCase> {
    let mut random = Random::new(seed);
    let mut cases = accepted_edits(&mut random);
    let table = dense(&mut random);
    let honest = day(table, random.canonicals(28), 2);
    for table in damaged_tables(&honest.table) {
        let refusal = table.refusal.expect("damaged");
        let mut case = refused(table.name, &honest, usize::MAX, [P; 4], refusal);
        case.table = table.words;
        case.trace = vec![P; 383];
        case.claim = [P; 4];
        case.c = 0;
        cases.push(case);
    }
    cases.extend(refused_numbers(&mut random, &honest));
    cases.extend(refused_words(&honest));
    cases.extend(refused_traces(&mut random));
    cases.extend(larger_traces(&honest));
    // Every choice of what is damaged.
    for choice in 0..1 << 8 {
        let damaged = std::array::from_fn(|thing| choice >> thing & 1 == 1);
        cases.push(lent_case(&mut random, 8 * choice, damaged));
    }
    cases
}

/// Each tap of few batches under the claim of each c, some taps of many batches, and
/// each special table.
fn accepted_edits(random: &mut Random) -> Vec<EditCase> {
    let mut cases = vec![];
    for k in [1, 2, 4, 8, 16, 32] {
        let (table, taps) = (dense(random), random.canonicals(12 * k + 4));
        let cs = if k <= 4 { 1..=k } else { k..=k };
        for day in honest_days(&table, &taps, cs) {
            let middle = 3 * k / 2;
            for tap in 0..=3 * k {
                if k <= 4 || tap <= 2 || tap.abs_diff(middle) <= 1 || tap >= 3 * k - 2 {
                    let new = std::array::from_fn(|_| random.canonical());
                    cases.push(accepted(&day, tap, new));
                }
            }
        }
    }
    cases.extend(beside_the_claim(random));
    for table in special_tables(random) {
        let day = day(table, random.canonicals(16), 1);
        for tap in 0..=3 {
            cases.push(accepted(&day, tap, [P - 1; 4]));
        }
    }
    let table = dense(random);
    let day = day(table, vec![P - 1; 28], 2);
    for tap in 0..=6 {
        cases.push(accepted(&day, tap, [P - 1; 4])); // nothing changes
        for word in 0..4 {
            let mut new = [P - 1; 4];
            new[word] = 0;
            cases.push(accepted(&day, tap, new));
        }
    }
    cases
}

/// The last tap that the claim is about and the next one, for every c of eight
/// batches, and for some of more.
fn beside_the_claim(random: &mut Random) -> Vec<EditCase> {
    let mut cases = vec![];
    for k in [8, 16, 32] {
        let (table, taps) = (dense(random), random.canonicals(12 * k + 4));
        for day in honest_days(&table, &taps, 1..=k - 1) {
            if k == 8 || [1, k / 2 + 1, k - 1].contains(&day.c) {
                for tap in [3 * day.c, 3 * day.c + 1] {
                    let new = std::array::from_fn(|_| random.canonical());
                    cases.push(accepted(&day, tap, new));
                }
            }
        }
    }
    cases
}

/// 7, 17 and 15.
fn refused_numbers(random: &mut Random, honest: &Day) -> Vec<EditCase> {
    let mut cases = vec![];
    for length in LENGTHS {
        let name = format!("{length} trace words");
        let refusal = Refusal::TraceLength;
        let mut case = refused(name, honest, usize::MAX, [P; 4], refusal);
        case.trace = vec![P; length];
        case.claim = [P; 4];
        case.c = 0;
        cases.push(case);
    }
    for k in [1, 2, 4] {
        let c = some_c(random, k);
        let day = day(dense(random), random.canonicals(12 * k + 4), c);
        for c in no_c(k) {
            let name = format!("lent c = {c}, k = {k}");
            let refusal = Refusal::ClaimBatches;
            let mut case = refused(name, &day, usize::MAX, [P; 4], refusal);
            case.trace[0] = P;
            case.claim = [P; 4];
            case.c = c;
            cases.push(case);
        }
        for tap in no_taps(k) {
            let name = format!("tap {tap}, k = {k}");
            let mut case = refused(name, &day, tap, [P; 4], Refusal::NoSuchTap);
            case.trace[0] = P;
            case.claim = [P; 4];
            cases.push(case);
        }
    }
    cases
}

/// 9, 10 and 6.
fn refused_words(honest: &Day) -> Vec<EditCase> {
    let mut cases = vec![];
    for index in 0..4 {
        let name = format!("p at claim word {index}");
        let mut case = refused(name, honest, 6, [P; 4], claim_word(index));
        case.trace[0] = P;
        case.claim[index] = P;
        cases.push(case);
    }
    // 8, 11 and 392 hold 0 in an honest trace.
    for index in [0, 8, 11, 383, 384, 392, 767] {
        let name = format!("p at trace word {index}");
        let mut case = refused(name, honest, 6, [P; 4], trace_word(index));
        case.trace[index] = P;
        case.claim = [0; 4];
        cases.push(case);
    }
    for index in 0..4 {
        let mut new = [P - 1; 4];
        new[index..].fill(P);
        let name = format!("p from word {index} of the new tap on");
        let mut case = refused(name, honest, 6, new, tap_word(index));
        case.trace[767] = add(case.trace[767], 1);
        cases.push(case);
    }
    cases
}

/// 11, where the edit would change nothing too.
fn refused_traces(random: &mut Random) -> Vec<EditCase> {
    let mut cases = vec![];
    for kind in 0..10 {
        let day = broken(random, 2, kind);
        let refusal = day.refusal().expect("broken");
        for tap in [0, 1, 3, 6] {
            let old = tap_of(&day.taps, tap).expect("a tap");
            for new in [old, new_tap(random, old)] {
                let name = format!("{}, tap {tap} by {new:?}", day.name);
                cases.push(refused(name, &day, tap, new, refusal));
            }
        }
    }
    cases
}

/// Zeros of 2048 batches (document 02, U9), with everything wrong, mended one thing after
/// the other: 17, 15, 9, 10, 6 and 11.
fn larger_traces(honest: &Day) -> Vec<EditCase> {
    let k = 2048;
    let steps = [
        (2049, 6145, P, P, P, Refusal::ClaimBatches),
        (2048, 6145, P, P, P, Refusal::NoSuchTap),
        (2048, 6144, P, P, P, claim_word(3)),
        (2048, 6144, 0, P, P, trace_word(786431)),
        (2048, 6144, 0, 0, P, tap_word(2)),
        (2048, 6144, 0, 0, 0, failed(k, 2048, (0, 9))),
        (1025, 6144, 0, 0, 0, failed(k, 1025, (0, 9))),
    ];
    let case = |(c, tap, claim, cell, new, refusal)| {
        let name = format!("zeros, k = {k}, c = {c}, tap {tap}, {refusal:?}");
        let mut case = refused(name, honest, tap, [0, 0, new, 0], refusal);
        case.trace = vec![0; 384 * k];
        case.trace[384 * k - 1] = cell;
        case.claim = [0, 0, 0, claim];
        case.c = c;
        case
    };
    steps.map(case).to_vec()
}

/// A case with these things damaged, in the order of the refusals.
fn lent_case(random: &mut Random, number: usize, damaged: [bool; 8]) -> EditCase {
    let [table, length, c, tap, claim, word, new, constraint] = damaged;
    let damaged = Damaged {
        table,
        length,
        c,
        claim,
        word,
        constraint,
    };
    let day = lent_day(random, number, damaged);
    let k = day.taps.len() / 12;
    let (tap, no_such_tap) = match tap {
        true => (random.pick(&no_taps(k)), Some(Refusal::NoSuchTap)),
        false => (random.place(3 * k + 1), None),
    };
    let old = tap_of(&day.taps, tap).unwrap_or([0; 4]);
    let mut lent = new_tap(random, old);
    let new_word = new.then(|| tap_word(random.spoil(&mut lent)));
    let refusal = first_of(&[
        day.table.refusal,
        day.length,
        day.no_c,
        no_such_tap,
        day.claim_word,
        day.word,
        new_word,
        day.fails,
    ]);
    let (altered, output) = match refusal {
        None => with_faults(&day.good, &with_tap(&day.taps, tap, lent), day.c, &[]),
        Some(_) => (vec![], [0; 4]),
    };
    EditCase {
        name: join(&[&day.name, &format!("tap {tap} by {lent:?}")]),
        table: day.table.words,
        trace: day.trace,
        claim: day.claim,
        c: day.c,
        tap,
        new: lent,
        refusal,
        altered,
        output,
    }
}

/// Edit: the table's refusals, 7, 17, 15, 9, 10, 6, 11. The corner cases and `n` others.
pub fn edit_cases(seed: u64, n: usize) -> Vec<EditCase> {
    let mut random = Random::new(seed);
    let make = |number| {
        let damaged = damage(&mut random, number);
        lent_case(&mut random, number, damaged)
    };
    let mut cases = edit_corners(seed);
    cases.extend((0..n).map(make));
    cases
}
