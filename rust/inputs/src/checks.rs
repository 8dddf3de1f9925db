//! The cases of Check and Read-off (document 01, "The 52 constraints"; document 02,
//! U6).

use crate::cases::{
    claim_word, damage, first_of, join, lent_c, lent_claim, lent_destination, no_c, trace_word,
    CheckCase, ReadOffCase,
};
use crate::random::Random;
use crate::tables::{damaged_tables, dense, good, lent, special_tables, Good, LentTable};
use crate::taps::{list, some_k};
use crate::traces::{
    broken, cs_of, day, failed, faulty_days, honest, honest_days, rows_for_some_c, Day, Fault,
};
use second::field::{add, P};
use second::Refusal;

/// Every one of the 52 constraints failing alone, under the claim of every c: with one
/// batch at every row where it applies, with two and with four once in every batch,
/// with eight in one of them, but 45 to 52 in every one.
pub fn fault_cases(seed: u64) -> Vec<CheckCase> {
    let mut random = Random::new(seed);
    let mut cases = vec![];
    for k in [1, 2, 4, 8] {
        for constraint in 1..=52 {
            for row in sample_rows(&mut random, k, constraint) {
                let by = random.unit();
                let table = good(&mut random);
                let taps = list(&mut random, k);
                let fault = Fault {
                    row,
                    constraint,
                    by,
                };
                let cs = cs_of(k, (row, constraint));
                cases.extend(faulty_days(&table, &taps, cs, &[fault]).map(check_case));
            }
        }
    }
    cases
}

fn sample_rows(random: &mut Random, k: usize, constraint: usize) -> Vec<usize> {
    let rows = rows_for_some_c(k, constraint);
    match k {
        1 => rows,
        8 if constraint < 45 => vec![random.pick(&rows)],
        _ => (0..k)
            .filter_map(|batch| {
                let mut within = rows.clone();
                within.retain(|row| row / 32 == batch);
                (!within.is_empty()).then(|| random.pick(&within))
            })
            .collect(),
    }
}

/// A day as Check is lent it.
fn check_case(day: Day) -> CheckCase {
    CheckCase {
        refusal: day.refusal(),
        name: day.name,
        table: day.table.prepared,
        trace: day.trace,
        claim: day.claim,
        c: day.c,
    }
}

/// Lengths of traces that are not 384k with k permitted; 1152, 1920 and 589824
/// are 384k with k = 3, 5 and 1536.
pub const LENGTHS: [usize; 12] = [0, 1, 12, 32, 372, 383, 385, 767, 769, 1152, 1920, 589824];

/// What of a lent day is damaged.
pub struct Damaged {
    pub table: bool,
    pub length: bool,
    pub c: bool,
    pub claim: bool,
    pub word: bool,
    pub constraint: bool,
}

/// A day as lent, with the refusal of each part. `taps` and `good` are those it
/// was made from.
pub struct LentDay {
    pub name: String,
    pub taps: Vec<u64>,
    pub good: Good,
    pub table: LentTable,
    pub trace: Vec<u64>,
    pub claim: [u64; 4],
    pub c: usize,
    pub length: Option<Refusal>,
    pub no_c: Option<Refusal>,
    pub claim_word: Option<Refusal>,
    pub word: Option<Refusal>,
    pub fails: Option<Refusal>,
}

pub fn lent_day(random: &mut Random, number: usize, damaged: Damaged) -> LentDay {
    let k = some_k(random);
    let day = if damaged.constraint {
        broken(random, k, number / 8)
    } else {
        honest(random, k)
    };
    let fails = day.refusal();
    let table = lent(random, &day.table, damaged.table);
    let (claim, claim_word) = lent_claim(random, day.claim, damaged.claim);
    let (c, no_c) = lent_c(random, day.k(), day.c, damaged.c);
    let mut trace = day.trace;
    let mut length = None;
    let mut word = None;
    let mut name = day.name;
    if damaged.word {
        let index = random.spoil(&mut trace);
        word = Some(trace_word(index));
        name += &format!(", trace word {index} not canonical");
    }
    if damaged.length {
        let words = random.pick(&LENGTHS);
        trace.resize(words, random.word());
        length = Some(Refusal::TraceLength);
        name += &format!(", {words} trace words");
    }
    let not_canonical = claim_word.map_or("", |_| "claim not canonical");
    let not_c = no_c.map_or(String::new(), |_| format!("lent c = {c}"));
    LentDay {
        name: join(&[&name, &table.name, not_canonical, &not_c]),
        taps: day.taps,
        good: day.table,
        table,
        trace,
        claim,
        c,
        length,
        no_c,
        claim_word,
        word,
        fails,
    }
}

/// A case of Read-off with these things damaged, in the order of the refusals; without
/// its destination one of Check.
fn lent_case(random: &mut Random, number: usize, damaged: [bool; 7]) -> ReadOffCase {
    let [table, length, c, destination, claim, word, constraint] = damaged;
    let damaged = Damaged {
        table,
        length,
        c,
        claim,
        word,
        constraint,
    };
    let day = lent_day(random, number, damaged);
    let (destination, not_exact) = lent_destination(random, day.taps.len(), destination);
    let order = [
        day.table.refusal,
        day.length,
        day.no_c,
        not_exact,
        day.claim_word,
        day.word,
        day.fails,
    ];
    ReadOffCase {
        name: join(&[&day.name, &format!("into {destination}")]),
        table: day.table.words,
        trace: day.trace,
        claim: day.claim,
        c: day.c,
        destination,
        refusal: first_of(&order),
        taps: day.taps,
    }
}

fn read_off_case(name: String, day: &Day, refusal: Option<Refusal>) -> ReadOffCase {
    ReadOffCase {
        name,
        table: day.table.prepared.clone(),
        trace: day.trace.clone(),
        claim: day.claim,
        c: day.c,
        destination: day.taps.len(),
        refusal,
        taps: day.taps.clone(),
    }
}

fn read_off_corners(seed: u64) -> Vec<ReadOffCase> {
    let mut random = Random::new(seed);
    let table = dense(&mut random);
    let taps = random.canonicals(28);
    let honest = day(table, taps, 2);
    let mut cases = vec![];
    for table in damaged_tables(&honest.table) {
        let mut case = read_off_case(table.name, &honest, table.refusal);
        case.table = table.words;
        case.trace = vec![P; 383];
        case.claim = [P; 4];
        case.c = 0;
        case.destination = 27;
        cases.push(case);
    }
    for table in special_tables(&mut random) {
        let day = day(table, random.canonicals(16), 1);
        cases.push(read_off_case(day.name.clone(), &day, None));
    }
    cases.extend(every_c(&mut random));
    cases.extend(refused_lengths(&honest));
    cases.extend(refused_words(&honest));
    cases.extend(larger_traces(&honest));
    for column in 0..4 {
        cases.push(wrong_claim(&honest, column));
    }
    // Every choice of what is damaged.
    for choice in 0..1 << 7 {
        let damaged = std::array::from_fn(|thing| choice >> thing & 1 == 1);
        cases.push(lent_case(&mut random, 8 * choice, damaged));
    }
    cases
}

/// Honest days and wrong claims for every c of few batches, and for some of many.
fn every_c(random: &mut Random) -> Vec<ReadOffCase> {
    let mut cases = vec![];
    for k in [1, 2, 4, 8, 16, 32] {
        let table = dense(random);
        let taps = random.canonicals(12 * k + 4);
        for honest in honest_days(&table, &taps, 1..=k) {
            if k <= 8 || [1, 3, k / 2 + 1, k - 1, k].contains(&honest.c) {
                cases.push(read_off_case(honest.name.clone(), &honest, None));
                cases.push(wrong_claim(&honest, honest.c % 4));
            }
        }
    }
    cases
}

/// 7, 17 and 8.
fn refused_lengths(honest: &Day) -> Vec<ReadOffCase> {
    let mut cases = vec![];
    for length in LENGTHS {
        let name = format!("{length} trace words");
        let mut case = read_off_case(name, honest, Some(Refusal::TraceLength));
        case.trace = vec![P; length];
        case.claim = [P; 4];
        case.c = 0;
        case.destination = 27;
        cases.push(case);
    }
    for c in no_c(honest.k()) {
        let name = format!("lent c = {c}");
        let mut case = read_off_case(name, honest, Some(Refusal::ClaimBatches));
        case.trace[0] = P;
        case.claim = [P; 4];
        case.c = c;
        case.destination = 27;
        cases.push(case);
    }
    for length in [0, 1, 16, 27, 29, 52] {
        let refusal = Some(Refusal::DestinationLength);
        let mut case = read_off_case(format!("into {length}"), honest, refusal);
        case.trace[0] = P;
        case.claim = [P; 4];
        case.destination = length;
        cases.push(case);
    }
    cases
}

/// 9 and 10.
fn refused_words(honest: &Day) -> Vec<ReadOffCase> {
    let mut cases = vec![];
    for index in 0..4 {
        let name = format!("p at claim word {index}");
        let mut case = read_off_case(name, honest, Some(claim_word(index)));
        case.trace[0] = P;
        case.claim[index] = P;
        cases.push(case);
    }
    // 8, 11 and 392 hold 0 in an honest trace.
    for index in [0, 8, 11, 383, 384, 392, 767] {
        let name = format!("p at trace word {index}");
        let mut case = read_off_case(name, honest, Some(trace_word(index)));
        case.trace[index] = P;
        case.claim = [0; 4];
        cases.push(case);
    }
    cases
}

/// Zeros of 2048 batches (document 02, U9), with everything wrong, mended one thing after
/// the other: 17, 8, 9, 10 at either end, and 11 with claims that end before 1024 batches
/// and after.
fn larger_traces(honest: &Day) -> Vec<ReadOffCase> {
    let (k, last) = (2048, 786431);
    let fails = |c| failed(k, c, (0, 9));
    let steps = [
        (2049, 24579, P, Some(0), Refusal::ClaimBatches),
        (2048, 24579, P, Some(0), Refusal::DestinationLength),
        (2048, 24580, P, Some(0), claim_word(3)),
        (2048, 24580, 0, Some(0), trace_word(0)),
        (1025, 24580, 0, Some(last), trace_word(last)),
        (2048, 24580, 0, None, fails(2048)),
        (1025, 24580, 0, None, fails(1025)),
        (1, 24580, 0, None, fails(1)),
    ];
    let case = |(c, destination, claim, spoilt, refusal): (_, _, _, Option<usize>, _)| {
        let name = format!("zeros, k = {k}, c = {c}, into {destination}, {refusal:?}");
        let mut case = read_off_case(name, honest, Some(refusal));
        case.trace = vec![0; 384 * k];
        if let Some(index) = spoilt {
            case.trace[index] = P;
        }
        case.claim = [0, 0, 0, claim];
        case.c = c;
        case.destination = destination;
        case
    };
    steps.map(case).to_vec()
}

/// 11 at the claim's row.
fn wrong_claim(honest: &Day, column: usize) -> ReadOffCase {
    let test = (32 * honest.c - 1, 49 + column);
    let refusal = Some(failed(honest.k(), honest.c, test));
    let name = format!("{}, claim wrong at {column}", honest.name);
    let mut case = read_off_case(name, honest, refusal);
    case.claim[column] = add(case.claim[column], 1);
    case
}

/// Those of Read-off that do not turn on the destination.
fn check_corners(seed: u64) -> Vec<CheckCase> {
    let mut cases = read_off_corners(seed);
    cases.retain(|case| case.refusal != Some(Refusal::DestinationLength));
    cases.into_iter().map(without_destination).collect()
}

/// The case as Check is lent it.
fn without_destination(case: ReadOffCase) -> CheckCase {
    CheckCase {
        name: case.name,
        table: case.table,
        trace: case.trace,
        claim: case.claim,
        c: case.c,
        refusal: case.refusal,
    }
}

/// Check: the table's refusals, 7, 17, 9, 10, 11. The corner cases and `n` others; of the
/// single damages every second is a constraint that fails.
pub fn check_cases(seed: u64, n: usize) -> Vec<CheckCase> {
    let mut random = Random::new(seed);
    let make = |number| {
        let [table, f, length, g, c, h, claim, i, word, j] = damage(&mut random, number);
        let constraint = f || g || h || i || j;
        let damaged = [table, length, c, false, claim, word, constraint];
        without_destination(lent_case(&mut random, number, damaged))
    };
    let mut cases = check_corners(seed);
    cases.extend((0..n).map(make));
    cases
}

/// Read-off: the table's refusals, 7, 17, 8, 9, 10, 11. The corner cases and `n` others.
pub fn read_off_cases(seed: u64, n: usize) -> Vec<ReadOffCase> {
    let mut random = Random::new(seed);
    let make = |number| {
        let [table, f, length, c, room, g, claim, word, h] = damage(&mut random, number);
        let constraint = f || g || h;
        let damaged = [table, length, c, room, claim, word, constraint];
        lent_case(&mut random, number, damaged)
    };
    let mut cases = read_off_corners(seed);
    cases.extend((0..n).map(make));
    cases
}
