//! The order of the refusals (document 01, "What is turned back"; document 02)
//! of Check, Read-off and Edit.
//! Each test lends a call with everything wrong at once and mends one thing after
//! the other, in the order of the documents; at each step the next refusal
//! appears, and nothing that is lent changes.

mod common;
use common::faults::*;
use common::*;
use second::field::P;
use second::{build, check, edit, read_off, Refusal};

/// c = 3 is above k; 0 is tried further below.
#[test]
fn check_and_read_off_1_2_4_7_17_8_9_10_11() {
    let [length, word, cell, mended] = tables();
    let [bad_length, bad_claim, bad_word, bad_cell, honest] = traces();
    let steps = [
        (&length, &bad_length, 3, 27, Err(TABLE_LENGTH)),
        (&word, &bad_length, 3, 27, Err(TABLE_WORD)),
        (&cell, &bad_length, 3, 27, Err(INVERSE_CELL)),
        (&mended, &bad_length, 3, 27, Err(Refusal::TraceLength)),
        (&mended, &bad_claim, 3, 27, Err(Refusal::ClaimBatches)),
        (&mended, &bad_claim, 2, 27, Err(Refusal::DestinationLength)),
        (&mended, &bad_claim, 2, 28, Err(CLAIM_WORD)),
        (&mended, &bad_word, 2, 28, Err(TRACE_WORD)),
        (&mended, &bad_cell, 2, 28, Err(FAILED)),
        (&mended, &honest, 2, 28, Ok(744)),
    ];
    for (table, (trace, claim), c, words, expected) in steps {
        let mut destination = vec![7; words];
        let answer = read_off(table, trace, *claim, c, &mut destination);
        assert_eq!(answer, expected);
        let untouched = destination == vec![7; words];
        assert_eq!(untouched, expected.is_err());
        if expected != Err(Refusal::DestinationLength) {
            assert_eq!(check(table, trace, *claim, c), expected);
        }
    }
}

/// Here 10 comes before 6. The last tap does not reach the output under A.
#[test]
fn edit_1_2_4_7_17_15_9_10_6_11() {
    let [length, word, cell, mended] = tables();
    let [bad_length, bad_claim, bad_word, bad_cell, honest] = traces();
    let bad_tap = [0, P, 0, P];
    let tap_word = Refusal::TapWord { index: 1 };
    let trace_length = Refusal::TraceLength;
    let steps = [
        (&length, &bad_length, 3, 7, bad_tap, Err(TABLE_LENGTH)),
        (&word, &bad_length, 3, 7, bad_tap, Err(TABLE_WORD)),
        (&cell, &bad_length, 3, 7, bad_tap, Err(INVERSE_CELL)),
        (&mended, &bad_length, 3, 7, bad_tap, Err(trace_length)),
        (
            &mended,
            &bad_claim,
            3,
            7,
            bad_tap,
            Err(Refusal::ClaimBatches),
        ),
        (&mended, &bad_claim, 2, 7, bad_tap, Err(Refusal::NoSuchTap)),
        (&mended, &bad_claim, 2, 6, bad_tap, Err(CLAIM_WORD)),
        (&mended, &bad_word, 2, 6, bad_tap, Err(TRACE_WORD)),
        (&mended, &bad_cell, 2, 6, bad_tap, Err(tap_word)),
        (&mended, &bad_cell, 2, 6, [1; 4], Err(FAILED)),
        (&mended, &honest, 2, 6, [1; 4], Ok([6, 0, 0, 0])),
    ];
    for (table, (trace, claim), c, number, new, expected) in steps {
        let mut lent = trace.clone();
        assert_eq!(edit(table, &mut lent, *claim, c, number, new), expected);
        assert_eq!(lent == *trace, expected.is_err());
    }
}

/// What is lent to Check, Read-off and Edit beside c: two batches of zero taps under A,
/// with some of the eleven faults that the three calls can have. The fault of c is not
/// made here.
struct Lent {
    table: Vec<u64>,
    trace: Vec<u64>,
    destination: usize,
    tap: usize,
    claim: [u64; 4],
    new: [u64; 4],
}

/// What the faults are refused with, in the order of the tests; each call leaves some
/// of them out.
const FAULTS: [Refusal; 11] = [
    TABLE_LENGTH,
    TABLE_WORD,
    INVERSE_CELL,
    Refusal::TraceLength,
    Refusal::ClaimBatches,
    Refusal::NoSuchTap,
    Refusal::DestinationLength,
    CLAIM_WORD,
    TRACE_WORD,
    Refusal::TapWord { index: 1 },
    FAILED,
];

impl Lent {
    /// An honest table and trace with this choice of faults.
    fn with(table: &[u64], trace: &[u64], choice: usize) -> Lent {
        let has = |refusal: Refusal| has_fault(choice, refusal);
        let mut lent = Lent {
            table: table.to_vec(),
            trace: trace.to_vec(),
            destination: 28,
            tap: 6,
            claim: [3, 0, 0, 0],
            new: [1; 4],
        };
        if has(FAILED) {
            lent.trace[12 * 40 + 2] = 9;
        }
        if has(TRACE_WORD) {
            lent.trace[17] = P;
        }
        if has(Refusal::TraceLength) {
            lent.trace.truncate(767);
        }
        if has(INVERSE_CELL) {
            lent.table[144 + 15] = 1;
        }
        if has(TABLE_WORD) {
            lent.table[200] = P;
        }
        if has(TABLE_LENGTH) {
            lent.table.push(0);
        }
        if has(Refusal::NoSuchTap) {
            lent.tap = 7;
        }
        if has(Refusal::DestinationLength) {
            lent.destination = 16;
        }
        if has(CLAIM_WORD) {
            lent.claim[2] = P;
        }
        if has(Refusal::TapWord { index: 1 }) {
            lent.new[1] = P;
        }
        lent
    }
}

fn has_fault(choice: usize, refusal: Refusal) -> bool {
    let place = FAULTS.iter().position(|&fault| fault == refusal);
    choice >> place.expect("a fault") & 1 == 1
}

/// The first refusal that the choice has, but for those that a call leaves out. 11 comes
/// four places later than FAILED says: with c = 1 the claim's tests come before row 40.
fn first_but(left_out: &[Refusal], choice: usize) -> Option<Refusal> {
    let mut order = FAULTS.iter().filter(|refusal| !left_out.contains(refusal));
    let first = order.find(|&&refusal| has_fault(choice, refusal))?;
    Some(match *first {
        Refusal::Constraint {
            row,
            constraint,
            tests,
        } => Refusal::Constraint {
            row,
            constraint,
            tests: tests + 4,
        },
        other => other,
    })
}

/// Check is lent neither tap nor destination, Read-off no tap, Edit no destination.
fn answer_the_first(mut lent: Lent, choice: usize, c: usize) {
    let about = format!("{choice:011b}, c = {c}");
    let (no_tap, no_room) = (Refusal::NoSuchTap, Refusal::DestinationLength);
    let tap_word = Refusal::TapWord { index: 1 };

    let answer = check(&lent.table, &lent.trace, lent.claim, c);
    let refusal = first_but(&[no_tap, no_room, tap_word], choice);
    assert_eq!(answer, refusal.map_or(Ok(744), Err), "{about}");

    let mut taps = vec![7; lent.destination];
    let answer = read_off(&lent.table, &lent.trace, lent.claim, c, &mut taps);
    let refusal = first_but(&[no_tap, tap_word], choice);
    assert_eq!(answer, refusal.map_or(Ok(744), Err), "{about}");
    let untouched = taps == vec![7; lent.destination];
    assert_eq!(untouched, refusal.is_some(), "{about}");

    let before = lent.trace.clone();
    let (tap, new) = (lent.tap, lent.new);
    let answer = edit(&lent.table, &mut lent.trace, lent.claim, c, tap, new);
    let refusal = first_but(&[no_room], choice);
    assert_eq!(answer, refusal.map_or(Ok([3, 0, 0, 0]), Err), "{about}");
    assert_eq!(lent.trace == before, refusal.is_some(), "{about}");
}

/// Each choice of the eleven faults at once: the first in the order of the call is
/// answered, and nothing is written.
#[test]
fn check_read_off_and_edit_with_faults_together() {
    let table = a();
    let mut honest = vec![0; 768];
    build(&table, &[0; 28], &mut honest).expect("builds");
    for choice in 0..1 << FAULTS.len() {
        let cs = match has_fault(choice, Refusal::ClaimBatches) {
            true => &[0, 3, usize::MAX][..],
            false => &[1],
        };
        for &c in cs {
            answer_the_first(Lent::with(&table, &honest, choice), choice, c);
        }
    }
}

/// c is from 1 to k: every other number is turned back, by the number alone.
#[test]
fn claims_after_no_batch_or_more_than_all() {
    for k in [1, 2, 4, 1024] {
        let mut trace = vec![0; 384 * k];
        for c in [1, k / 2 + 1, k] {
            let answer = check(&z(), &trace, [0; 4], c);
            assert_eq!(answer, Ok(372 * k as u64), "c = {c}, k = {k}");
        }
        // Times 3, 32, 372 or 384, some of these are small again in 64 bits.
        for c in [
            0,
            k + 1,
            2 * k,
            3 * k + 1,
            32 * k,
            (1 << 32) + 1,
            (1 << 57) + 1,
            (1 << 59) + 1,
            (1 << 62) + 1,
            (1 << 63) + 1,
            usize::MAX / 3 + 1,
            usize::MAX,
        ] {
            let answer = edit(&z(), &mut trace, [0; 4], c, 0, [0; 4]);
            assert_eq!(answer, Err(Refusal::ClaimBatches), "c = {c}, k = {k}");
            let answer = check(&z(), &trace, [0; 4], c);
            assert_eq!(answer, Err(Refusal::ClaimBatches), "c = {c}, k = {k}");
        }
    }
}

/// A list of k batches has taps 0 to 3k.
#[test]
fn tap_numbers() {
    for k in [1, 2, 4, 1024] {
        let mut trace = vec![0; 384 * k];
        for number in [0, 1, 3 * k - 1, 3 * k] {
            let answer = edit(&z(), &mut trace, [0; 4], 1, number, [0; 4]);
            assert_eq!(answer, Ok([0; 4]), "tap {number}, k = {k}");
        }
        // 2^62 taps are 2^64 words.
        for number in [3 * k + 1, 12 * k + 3, 1 << 32, 1 << 62, usize::MAX] {
            let answer = edit(&z(), &mut trace, [0; 4], 1, number, [0; 4]);
            assert_eq!(answer, Err(Refusal::NoSuchTap), "tap {number}, k = {k}");
        }
    }
}

/// Traces of every permitted k pass 7, and no others do: what is answered is the refusal
/// that comes next, or 7 with all that comes next wrong (document 02, U9).
#[test]
fn lengths_of_traces() {
    let mut words = zeros(384 << 19);
    for k in permitted() {
        let trace = &mut words[..384 * k];
        for c in [0, k + 1] {
            let refused = Err(Refusal::ClaimBatches);
            assert_eq!(check(&z(), trace, [P; 4], c), refused, "c = {c}, k = {k}");
        }
        for c in [1, k] {
            let refused = Err(Refusal::ClaimWord { index: 3 });
            let answer = check(&z(), trace, [0, 0, 0, P], c);
            assert_eq!(answer, refused, "c = {c}, k = {k}");
            let answer = read_off(&z(), trace, [P; 4], c, &mut [7; 15]);
            assert_eq!(answer, Err(Refusal::DestinationLength), "k = {k}");
            let answer = read_off(&z(), trace, [0, 0, 0, P], c, &mut zeros(12 * k + 4));
            assert_eq!(answer, refused, "c = {c}, k = {k}");
            let answer = edit(&z(), trace, [P; 4], c, 3 * k + 1, [P; 4]);
            assert_eq!(answer, Err(Refusal::NoSuchTap), "k = {k}");
            let answer = edit(&z(), trace, [0, P, 0, 0], c, 3 * k, [P; 4]);
            let refused = Err(Refusal::ClaimWord { index: 1 });
            assert_eq!(answer, refused, "c = {c}, k = {k}");
        }
    }
    for k in NOT_PERMITTED.into_iter().chain(permitted()) {
        for length in [384 * k, 384 * k + 1, 384 * k + 12, 384 * k + 383] {
            let is_trace = length == 384 * k && permitted().any(|other| other == k);
            if !is_trace && length <= words.len() {
                trace_refused(&mut words[..length]);
            }
        }
    }
}

fn trace_refused(trace: &mut [u64]) {
    let refused = Err(Refusal::TraceLength);
    let length = trace.len();
    assert_eq!(check(&z(), trace, [P; 4], 0), refused, "{length}");
    let answer = read_off(&z(), trace, [P; 4], 0, &mut [7; 15]);
    assert_eq!(answer, refused, "{length}");
    let answer = edit(&z(), trace, [P; 4], 0, usize::MAX, [P; 4]);
    assert_eq!(answer, Err(Refusal::TraceLength), "{length}");
}

/// The first word of the largest trace is not canonical, or makes the first test fail.
#[test]
fn words_and_tests_of_262144_batches() {
    let k = 262144;
    let mut trace = zeros(384 * k);
    for c in [1, k] {
        trace[0] = P;
        let refused = Err(Refusal::TraceWord { index: 0 });
        assert_eq!(check(&z(), &trace, [0; 4], c), refused, "{c}");
        trace[0] = 1;
        let refused = check(&z(), &trace, [0; 4], c);
        assert_eq!(failed_at(refused), (0, 9, 5), "{c}");
        trace[0] = 0;
    }
    let last = trace.len() - 1;
    trace[last] = P;
    let refused = Err(Refusal::TraceWord { index: 100663295 });
    assert_eq!(check(&z(), &trace, [0; 4], k), refused);
}

/// A trace that is not accepted is refused by an edit that would change nothing
/// too.
#[test]
fn acceptance_is_tested_by_an_edit_that_changes_nothing() {
    let mut trace = vec![0; 384];
    let answer = edit(&z(), &mut trace, [0, 1, 0, 0], 1, 0, [0; 4]);
    assert_eq!(failed_at(answer.map(|_| 0)), (31, 50, 370));
    trace[12 * 31 + 5] = 1;
    let answer = edit(&z(), &mut trace, [0; 4], 1, 0, [0; 4]);
    assert_eq!(failed_at(answer.map(|_| 0)), (30, 38, 362));
}
