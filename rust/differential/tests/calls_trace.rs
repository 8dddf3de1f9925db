//! Build, Check, Read-off and Edit as C sees them: a digest's destination that has not four
//! words is refused with 8, in 8's place of the order, and nothing is written. Check, and
//! Read-off and Edit with room, what they write between guards; c stands where the header
//! has it.

use differential::calls::{refused, says, says_tests, seeds, table_with, LENGTHS};
use differential::{holding, words};
use inputs::tables::dense;
use inputs::traces::{failed, first_failure_of_cell, honest_days, Day};
use inputs::*;
use lemoncolumn::calls;
use second::field::{add, P};
use second::Refusal;

#[test]
fn build() {
    for seed in seeds("calls, build") {
        for (number, case) in build_cases(seed, 400).into_iter().enumerate() {
            let length = LENGTHS[number % LENGTHS.len()];
            let about = format!("seed {seed}: {}, output of {length}", case.name);
            let mut trace = words(case.destination);
            let mut output = words(length);
            // SAFETY: pointers and lengths of slices; the same below.
            let code = unsafe {
                calls::lemoncolumn_build(
                    case.table.as_ptr(),
                    case.table.len(),
                    case.taps.as_ptr(),
                    case.taps.len(),
                    trace.as_mut_ptr(),
                    trace.len(),
                    output.as_mut_ptr(),
                    output.len(),
                )
            };
            refused(&about, code, case.refusal, &[&trace, &output]);
        }
    }
}

fn call_check(table: &[u64], trace: &[u64], claim: [u64; 4], c: usize) -> u64 {
    let [c0, c1, c2, c3] = claim;
    unsafe {
        calls::lemoncolumn_check(
            table.as_ptr(),
            table.len(),
            trace.as_ptr(),
            trace.len(),
            c0,
            c1,
            c2,
            c3,
            c,
        )
    }
}

fn call_read_off(table: &[u64], trace: &[u64], claim: [u64; 4], c: usize, taps: &mut [u64]) -> u64 {
    let [c0, c1, c2, c3] = claim;
    unsafe {
        calls::lemoncolumn_read_off(
            table.as_ptr(),
            table.len(),
            trace.as_ptr(),
            trace.len(),
            c0,
            c1,
            c2,
            c3,
            c,
            taps.as_mut_ptr(),
            taps.len(),
        )
    }
}

fn call_edit(case: &EditCase, trace: &mut [u64], output: &mut [u64]) -> u64 {
    let [c0, c1, c2, c3] = case.claim;
    let [w0, w1, w2, w3] = case.new;
    unsafe {
        calls::lemoncolumn_edit(
            case.table.as_ptr(),
            case.table.len(),
            trace.as_mut_ptr(),
            trace.len(),
            c0,
            c1,
            c2,
            c3,
            case.c,
            case.tap,
            w0,
            w1,
            w2,
            w3,
            output.as_mut_ptr(),
            output.len(),
        )
    }
}

/// The tests of an accepted trace, or the refusal.
fn walked(trace: &[u64], refusal: Option<Refusal>) -> Result<u64, Refusal> {
    let tests = 372 * (trace.len() / 384) as u64;
    refusal.map_or(Ok(tests), Err)
}

#[test]
fn check() {
    for seed in seeds("calls, check") {
        for case in check_cases(seed, 1000) {
            let about = format!("seed {seed}: {}", case.name);
            let trace = holding(&case.trace);
            let code = call_check(&case.table, &trace, case.claim, case.c);
            says_tests(&about, code, walked(&trace, case.refusal));
            assert!(trace.is_untouched(), "{about}");
        }
    }
}

#[test]
fn read_off() {
    for seed in seeds("calls, read-off") {
        for case in read_off_cases(seed, 1000) {
            let about = format!("seed {seed}: {}", case.name);
            let trace = holding(&case.trace);
            let mut taps = words(case.destination);
            let code = call_read_off(&case.table, &trace, case.claim, case.c, &mut taps);
            says_tests(&about, code, walked(&trace, case.refusal));
            assert!(trace.is_untouched(), "{about}");
            if case.refusal.is_some() {
                assert!(taps.is_untouched(), "{about}");
                continue;
            }
            assert!(taps.is_guarded(), "{about}");
            assert_eq!(taps[..], case.taps[..], "{about}");
        }
    }
}

#[test]
fn edit() {
    for seed in seeds("calls, edit") {
        for (number, case) in edit_cases(seed, 400).into_iter().enumerate() {
            let length = LENGTHS[number % LENGTHS.len()];
            let about = format!("seed {seed}: {}, output of {length}", case.name);
            let mut trace = holding(&case.trace);
            let mut output = words(length);
            let code = call_edit(&case, &mut trace, &mut output);
            refused(&about, code, case.refusal, &[&trace, &output]);
        }
    }
}

#[test]
fn edit_with_room() {
    for seed in seeds("calls, edit with room") {
        for case in edit_cases(seed, 1000) {
            let about = format!("seed {seed}: {}", case.name);
            let mut trace = holding(&case.trace);
            let mut output = words(4);
            let code = call_edit(&case, &mut trace, &mut output);
            says(&about, code, case.refusal);
            let both = [&trace, &output];
            if case.refusal.is_some() {
                assert!(both.iter().all(|lent| lent.is_untouched()), "{about}");
                continue;
            }
            assert!(both.iter().all(|lent| lent.is_guarded()), "{about}");
            assert_eq!(trace[..], case.altered[..], "{about}");
            assert_eq!(output[..], case.output, "{about}");
        }
    }
}

/// What is lent to Check, Read-off and Edit, and the refusal of each part that is
/// damaged, in the order of Edit: 1, 2 or 4, then 7, 17, 15, 8, 9, 10, 6, 11.
struct Faulty {
    case: EditCase,
    taps: usize,
    output: usize,
    refusals: [Option<Refusal>; 9],
}

impl Faulty {
    /// The first refusal, but for those of parts that the call is not lent.
    fn first(&self, left_out: &[u64]) -> Option<Refusal> {
        let lent = |refusal: &Refusal| !left_out.contains(&refusal.number());
        self.refusals.iter().flatten().copied().find(lent)
    }
}

/// An honest day with some of eleven faults, in the order of Edit.
fn faulty(random: &mut Random, honest: &Day, faults: [bool; 11]) -> Faulty {
    let [length_1, word_2, inverse_4, length, c, tap, room, claim, word, new, constraint] = faults;
    let k = honest.k();
    let (table, table_refusal) = table_with(
        random,
        &honest.table.prepared,
        [length_1, word_2, inverse_4],
    );
    // From the last to the first, since a fault hides those after it.
    let mut trace = honest.trace.clone();
    let fails = constraint.then(|| {
        let (row, column) = (random.below(32 * k), random.below(12));
        let cell = &mut trace[12 * row + column];
        *cell = add(*cell, random.unit());
        failed(
            k,
            honest.c,
            first_failure_of_cell(&honest.table, row, column),
        )
    });
    let mut new_tap = std::array::from_fn(|_| random.canonical());
    let new_word = new.then(|| tap_word(random.spoil(&mut new_tap)));
    let trace_word = word.then(|| trace_word(random.spoil(&mut trace)));
    let (claim, claim_word) = lent_claim(random, honest.claim, claim);
    let (taps, no_room) = lent_destination(random, honest.taps.len(), room);
    let (lent_c, no_c) = lent_c(random, k, honest.c, c);
    if length {
        trace.push(P);
    }
    Faulty {
        case: EditCase {
            name: format!("{}, {faults:?}, lent c = {lent_c}", honest.name),
            table,
            trace,
            claim,
            c: lent_c,
            tap: if tap {
                3 * k + 1
            } else {
                random.below(3 * k + 1)
            },
            new: new_tap,
            refusal: None,
            altered: vec![],
            output: [0; 4],
        },
        taps,
        output: if room { random.pick(&LENGTHS) } else { 4 },
        refusals: [
            table_refusal,
            length.then_some(Refusal::TraceLength),
            no_c,
            tap.then_some(Refusal::NoSuchTap),
            no_room,
            claim_word,
            trace_word,
            new_word,
            fails,
        ],
    }
}

/// Each choice of the eleven faults at once, for every c of one and of two batches: the
/// first in the order of the call is answered, and a refused call writes nothing.
#[test]
fn check_read_off_and_edit_with_faults_together() {
    for seed in seeds("calls, check, read-off and edit with faults together") {
        let mut random = Random::new(seed);
        for k in [1, 2] {
            let (table, taps) = (dense(&mut random), random.canonicals(12 * k + 4));
            for honest in honest_days(&table, &taps, 1..=k) {
                for choice in 0..1 << 11 {
                    let faults = std::array::from_fn(|fault| choice >> fault & 1 == 1);
                    let lent = faulty(&mut random, &honest, faults);
                    answers_the_first(&format!("seed {seed}: {}", lent.case.name), &lent);
                }
            }
        }
    }
}

/// Check is lent no tap and no destination, Read-off no tap.
fn answers_the_first(about: &str, lent: &Faulty) {
    let case = &lent.case;
    let mut trace = holding(&case.trace);
    let code = call_check(&case.table, &trace, case.claim, case.c);
    says_tests(about, code, walked(&trace, lent.first(&[15, 8, 6])));

    let mut taps = words(lent.taps);
    let code = call_read_off(&case.table, &trace, case.claim, case.c, &mut taps);
    let refusal = lent.first(&[15, 6]);
    says_tests(about, code, walked(&trace, refusal));
    assert_eq!(taps.is_untouched(), refusal.is_some(), "{about}");
    assert!(taps.is_guarded() && trace.is_untouched(), "{about}");

    let mut output = words(lent.output);
    let code = call_edit(case, &mut trace, &mut output);
    let refusal = lent.first(&[]);
    says(about, code, refusal);
    assert_eq!(output.is_untouched(), refusal.is_some(), "{about}");
    assert_eq!(trace.is_untouched(), refusal.is_some(), "{about}");
    assert!(output.is_guarded() && trace.is_guarded(), "{about}");
}
