//! Hash, Unhash and Chain as C sees them: a digest's destination that has not four words,
//! a final state's that has not twelve, or a pair's that has not eight, is refused with 8,
//! in 8's place of the order, and nothing is written. Hash and Unhash with room, what they
//! write between guards.

use differential::calls::{refused, says, seeds, table_with, LENGTHS};
use differential::words;
use inputs::pairs::end_of;
use inputs::tables::dense;
use inputs::*;
use lemoncolumn::{calls, PAIR_WORDS, STATE_WORDS};
use second::Refusal;

/// Lengths other than a final state's twelve.
const STATE_LENGTHS: [usize; 10] = [0, 1, 3, 4, 5, 8, 11, 13, 24, 540];
/// Lengths other than a pair's eight: all others up to 16, and a table's.
const PAIR_LENGTHS: [usize; 17] = [0, 1, 2, 3, 4, 5, 6, 7, 9, 10, 11, 12, 13, 14, 15, 16, 540];

fn call_hash(table: &[u64], words: [u64; 8], output: &mut [u64]) -> u64 {
    let [a, b, c, d, e, f, g, h] = words;
    // SAFETY: pointers and lengths of slices; the same below.
    unsafe {
        calls::lemoncolumn_hash(
            table.as_ptr(),
            table.len(),
            a,
            b,
            c,
            d,
            e,
            f,
            g,
            h,
            output.as_mut_ptr(),
            output.len(),
        )
    }
}

#[test]
fn hash() {
    for seed in seeds("calls, hash") {
        for (number, case) in hash_cases(seed, 400).into_iter().enumerate() {
            let length = STATE_LENGTHS[number % STATE_LENGTHS.len()];
            let about = format!("seed {seed}: {}, output of {length}", case.name);
            let mut output = words(length);
            let code = call_hash(&case.table, case.words, &mut output);
            refused(&about, code, case.refusal, &[&output]);
        }
    }
}

#[test]
fn hash_with_room() {
    for seed in seeds("calls, hash with room") {
        for case in hash_cases(seed, 1000) {
            let about = format!("seed {seed}: {}", case.name);
            let mut output = words(STATE_WORDS);
            let code = call_hash(&case.table, case.words, &mut output);
            says(&about, code, case.refusal);
            let Ok(state) = second::hash(&case.table, case.words) else {
                assert!(output.is_untouched(), "{about}");
                continue;
            };
            assert!(output.is_guarded(), "{about}");
            assert_eq!(output[..], state, "{about}");
        }
    }
}

/// A table and two taps with some of Hash's faults, and the refusal that comes first in the
/// order the table's refusals, 8, 6; `room` is for the output, which is not made here.
fn hash_with(
    random: &mut Random,
    good: &[u64],
    [length, word, inverse, room, tap]: [bool; 5],
) -> (Vec<u64>, [u64; 8], Option<Refusal>) {
    let (table, refused) = table_with(random, good, [length, word, inverse]);
    let mut taps = std::array::from_fn(|_| random.canonical());
    let tap = tap.then(|| tap_word(random.spoil(&mut taps)));
    let room = room.then_some(Refusal::DestinationLength);
    (table, taps, first_of(&[refused, room, tap]))
}

/// Each choice of Hash's five faults at once: the first in the order is answered.
#[test]
fn hash_with_faults_together() {
    for seed in seeds("calls, hash with faults together") {
        let mut random = Random::new(seed);
        let good = dense(&mut random).prepared;
        for choice in 0..1 << 5 {
            let faults = std::array::from_fn(|fault| choice >> fault & 1 == 1);
            let (table, taps, refusal) = hash_with(&mut random, &good, faults);
            let lengths = match faults[3] {
                true => &STATE_LENGTHS[..],
                false => &[STATE_WORDS],
            };
            for &length in lengths {
                let about = format!("seed {seed}: {faults:?}, output of {length}");
                let mut output = words(length);
                let code = call_hash(&table, taps, &mut output);
                says(&about, code, refusal);
                assert_eq!(output.is_untouched(), refusal.is_some(), "{about}");
            }
        }
    }
}

#[test]
fn chain() {
    for seed in seeds("calls, chain") {
        for (number, case) in chain_cases(seed, 400).into_iter().enumerate() {
            let length = LENGTHS[number % LENGTHS.len()];
            let about = format!("seed {seed}: {}, output of {length}", case.name);
            let mut output = words(length);
            let code = unsafe {
                calls::lemoncolumn_chain(
                    case.table.as_ptr(),
                    case.table.len(),
                    case.taps.as_ptr(),
                    case.taps.len(),
                    output.as_mut_ptr(),
                    output.len(),
                )
            };
            refused(&about, code, case.refusal, &[&output]);
        }
    }
}

fn call_unhash(table: &[u64], state: [u64; 12], pair: &mut [u64]) -> u64 {
    let [a, b, c, d, e, f, g, h, i, j, k, l] = state;
    unsafe {
        calls::lemoncolumn_unhash(
            table.as_ptr(),
            table.len(),
            a,
            b,
            c,
            d,
            e,
            f,
            g,
            h,
            i,
            j,
            k,
            l,
            pair.as_mut_ptr(),
            pair.len(),
        )
    }
}

/// Here 6 and 16 come after 8.
#[test]
fn unhash() {
    for seed in seeds("calls, unhash") {
        for (number, case) in unhash_cases(seed, 1000).into_iter().enumerate() {
            let length = PAIR_LENGTHS[number % PAIR_LENGTHS.len()];
            let about = format!("seed {seed}: {}, pair of {length}", case.name);
            let mut pair = words(length);
            let code = call_unhash(&case.table, case.state, &mut pair);
            refused(&about, code, case.refusal, &[&pair]);
        }
    }
}

#[test]
fn unhash_with_room() {
    for seed in seeds("calls, unhash with room") {
        for case in unhash_cases(seed, 1000) {
            let about = format!("seed {seed}: {}", case.name);
            let mut pair = words(PAIR_WORDS);
            let code = call_unhash(&case.table, case.state, &mut pair);
            says(&about, code, case.refusal);
            if case.refusal.is_some() {
                assert!(pair.is_untouched(), "{about}");
                continue;
            }
            assert!(pair.is_guarded(), "{about}");
            assert_eq!(pair[..], case.pair, "{about}");
        }
    }
}

/// Each choice of Unhash's six faults at once: the first in the order the table's refusals,
/// 8, 6, 16 is answered.
#[test]
fn unhash_with_faults_together() {
    for seed in seeds("calls, unhash with faults together") {
        let mut random = Random::new(seed);
        let good = dense(&mut random);
        for choice in 0..1 << 6 {
            let faults: [bool; 6] = std::array::from_fn(|fault| choice >> fault & 1 == 1);
            let [length, word, inverse, room, cell, none] = faults;
            let (table, refused) = table_with(&mut random, &good.prepared, [length, word, inverse]);
            let taps = std::array::from_fn(|_| random.canonical());
            let rest = std::array::from_fn(|_| if none { random.unit() } else { 0 });
            let mut state = end_of(&good, taps, rest);
            let cell = cell.then(|| tap_word(random.spoil(&mut state)));
            let no_room = room.then_some(Refusal::DestinationLength);
            let no_pair = none.then_some(Refusal::NoPair);
            let refusal = first_of(&[refused, no_room, cell, no_pair]);
            let lengths = match room {
                true => &PAIR_LENGTHS[..],
                false => &[PAIR_WORDS],
            };
            for &length in lengths {
                let about = format!("seed {seed}: {faults:?}, pair of {length}");
                let mut pair = words(length);
                let code = call_unhash(&table, state, &mut pair);
                says(&about, code, refusal);
                if refusal.is_some() {
                    assert!(pair.is_untouched(), "{about}");
                } else {
                    assert!(pair.is_guarded() && pair[..] == taps, "{about}");
                }
            }
        }
    }
}
