//! Every case of every operation, lent to `second` (and to `yardstick` where it
//! has the operation): the refusal must be the one the case was made for, a
//! refused call must leave what is lent as it was, and what is written must be
//! right.

use inputs::limits::{list_lengths, list_words, trace_lengths, trace_words, FIRST_ABOVE};
use inputs::tables::{z, Good};
use inputs::traces::{with_faults, Fault};
use inputs::*;
use second::field::sub;
use second::Refusal;
use yardstick::BOTH;

const SEED: u64 = 20261115;
/// What a destination holds before the call.
const OLD: u64 = 0x0123456789abcdef;

/// Counts refusals by number, 0 for accepted, and checks that each has come.
struct Seen([usize; NUMBERS]);
/// 0 to 19.
const NUMBERS: usize = 20;

impl Seen {
    fn new() -> Seen {
        Seen([0; NUMBERS])
    }

    fn note(&mut self, refusal: Option<Refusal>) {
        self.0[refusal.map_or(0, |refusal| refusal.number() as usize)] += 1;
    }

    fn each(&self, numbers: &[usize], at_least: usize) {
        let seen: Vec<usize> = (0..NUMBERS).filter(|&number| self.0[number] > 0).collect();
        let mut expected = numbers.to_vec();
        expected.sort();
        assert_eq!(seen, expected, "seed {SEED}: {:?}", self.0);
        let fewest = numbers.iter().map(|&number| self.0[number]).min();
        assert!(fewest >= Some(at_least), "seed {SEED}: {:?}", self.0);
    }
}

/// An accepted table's words as the generator's own type.
fn good(table: &[u64]) -> Good {
    Good {
        name: String::new(),
        raw: [&table[..144], &table[288..]].concat(),
        prepared: table.to_vec(),
    }
}

#[test]
fn prepare() {
    let mut seen = Seen::new();
    for case in prepare_cases(SEED, 800) {
        let mut destination = vec![OLD; case.destination];
        let answer = second::prepare(&case.raw, &mut destination);
        assert_eq!(answer.err(), case.refusal, "seed {SEED}: {}", case.name);
        let expected = match case.refusal {
            None => case.prepared,
            Some(_) => vec![OLD; case.destination],
        };
        assert_eq!(destination, expected, "seed {SEED}: {}", case.name);
        seen.note(case.refusal);
    }
    seen.each(&[0, 1, 2, 3, 8], 20);
}

/// The left tap of the hash whose middle states begin at this row: columns 0 to 3
/// of back less K_0.
fn left_tap(table: &Good, trace: &[u64], row: usize) -> [u64; 4] {
    let lent = second::constraints::Lent {
        table: second::Table::test(&table.prepared).expect("accepted"),
        trace,
        claim: [0; 4],
        c: 1,
    };
    std::array::from_fn(|column| sub(lent.back(row, column), table.k(0, column)))
}

/// The final state of a hash as a trace shows it, in row 31. There the hash is the
/// third of its batch: its left tap comes in by faults at row 20, in place of what
/// the two before it would hand on.
fn in_row_31(table: &Good, words: [u64; 8]) -> Vec<u64> {
    let mut taps = vec![0; 12];
    taps.extend(&words[4..]);
    let (honest, _) = with_faults(table, &taps, 1, &[]);
    let handed_on = left_tap(table, &honest, 21);
    let faults: Vec<Fault> = (0..4)
        .map(|column| Fault {
            row: 20,
            constraint: 21 + column,
            by: sub(words[column], handed_on[column]),
        })
        .filter(|fault| fault.by != 0)
        .collect();
    let (trace, _) = with_faults(table, &taps, 1, &faults);
    assert_eq!(left_tap(table, &trace, 21), words[..4]);
    trace[12 * 31..].to_vec()
}

#[test]
fn hash() {
    let mut seen = Seen::new();
    for case in hash_cases(SEED, 400) {
        let answer = second::hash(&case.table, case.words);
        assert_eq!(answer.err(), case.refusal, "seed {SEED}: {}", case.name);
        for yardstick in BOTH {
            assert_eq!((yardstick.hash)(&case.table, case.words), answer);
        }
        if let Ok(state) = answer {
            // Cells 0 to 3 are the left tap of the second hash, in a trace that
            // begins with this one.
            let table = good(&case.table);
            let mut taps = case.words.to_vec();
            taps.resize(16, 0);
            let (trace, _) = with_faults(&table, &taps, 1, &[]);
            let next = left_tap(&table, &trace, 11);
            assert_eq!(next, state[..4], "seed {SEED}: {}", case.name);
            let row_31 = in_row_31(&table, case.words);
            assert_eq!(row_31, state, "seed {SEED}: {}", case.name);
        }
        seen.note(case.refusal);
    }
    seen.each(&[0, 1, 2, 4, 6], 10);
}

#[test]
fn chain() {
    let mut seen = Seen::new();
    for case in chain_cases(SEED, 400) {
        let answer = second::chain(&case.table, &case.taps);
        assert_eq!(answer.err(), case.refusal, "seed {SEED}: {}", case.name);
        if let Ok(output) = answer {
            let k = case.taps.len() / 12;
            let (_, claim) = with_faults(&good(&case.table), &case.taps, k, &[]);
            assert_eq!(output, claim, "seed {SEED}: {}", case.name);
        }
        seen.note(case.refusal);
    }
    seen.each(&[0, 1, 2, 4, 5, 6], 10);
}

#[test]
fn build() {
    let mut seen = Seen::new();
    for case in build_cases(SEED, 400) {
        let mut destination = vec![OLD; case.destination];
        let answer = second::build(&case.table, &case.taps, &mut destination);
        assert_eq!(answer.err(), case.refusal, "seed {SEED}: {}", case.name);
        for yardstick in BOTH {
            let mut other = vec![OLD; case.destination];
            let built = (yardstick.build)(&case.table, &case.taps, &mut other);
            assert_eq!(built, answer, "seed {SEED}: {}", case.name);
            assert_eq!(other, destination, "seed {SEED}: {}", case.name);
        }
        match answer {
            Ok(output) => {
                let k = case.taps.len() / 12;
                let expected = with_faults(&good(&case.table), &case.taps, k, &[]);
                assert_eq!((destination, output), expected, "{}", case.name);
            }
            Err(_) => assert_eq!(destination, vec![OLD; case.destination]),
        }
        seen.note(case.refusal);
    }
    seen.each(&[0, 1, 2, 4, 5, 6, 8], 10);
}

#[test]
fn check() {
    let mut seen = Seen::new();
    for case in check_cases(SEED, 800) {
        let answer = second::check(&case.table, &case.trace, case.claim, case.c);
        assert_eq!(answer.err(), case.refusal, "seed {SEED}: {}", case.name);
        for yardstick in BOTH {
            let other = (yardstick.check)(&case.table, &case.trace, case.claim, case.c);
            assert_eq!(other, answer, "seed {SEED}: {}", case.name);
        }
        if let Ok(tests) = answer {
            assert_eq!(tests as usize, 372 * case.trace.len() / 384);
        }
        seen.note(case.refusal);
    }
    seen.each(&[0, 1, 2, 4, 7, 9, 10, 11, 17], 10);
}

#[test]
fn read_off() {
    let mut seen = Seen::new();
    for case in read_off_cases(SEED, 800) {
        let mut destination = vec![OLD; case.destination];
        let (claim, c) = (case.claim, case.c);
        let answer = second::read_off(&case.table, &case.trace, claim, c, &mut destination);
        assert_eq!(answer.err(), case.refusal, "seed {SEED}: {}", case.name);
        for yardstick in BOTH {
            let mut other = vec![OLD; case.destination];
            let read = (yardstick.read_off)(&case.table, &case.trace, claim, c, &mut other);
            assert_eq!(read, answer, "seed {SEED}: {}", case.name);
            assert_eq!(other, destination, "seed {SEED}: {}", case.name);
        }
        let expected = match case.refusal {
            None => case.taps,
            Some(_) => vec![OLD; case.destination],
        };
        assert_eq!(destination, expected, "seed {SEED}: {}", case.name);
        // Where the destination is exact, Check says the same.
        if case.refusal != Some(Refusal::DestinationLength) {
            let checked = second::check(&case.table, &case.trace, claim, c);
            assert_eq!(checked, answer, "seed {SEED}: {}", case.name);
        }
        seen.note(case.refusal);
    }
    seen.each(&[0, 1, 2, 4, 7, 8, 9, 10, 11, 17], 10);
}

#[test]
fn edit() {
    let mut seen = Seen::new();
    for case in edit_cases(SEED, 800) {
        let mut trace = case.trace.clone();
        let (claim, c) = (case.claim, case.c);
        let answer = second::edit(&case.table, &mut trace, claim, c, case.tap, case.new);
        let expected = match case.refusal {
            None => (Ok(case.output), case.altered),
            Some(refusal) => (Err(refusal), case.trace),
        };
        assert_eq!((answer, trace), expected, "seed {SEED}: {}", case.name);
        seen.note(case.refusal);
    }
    seen.each(&[0, 1, 2, 4, 6, 7, 9, 10, 11, 15, 17], 10);
}

/// A pair that is answered hashes to the lent state, by `second` and by both
/// yardsticks, and so it does where it is the third hash of a trace.
#[test]
fn unhash() {
    let mut seen = Seen::new();
    for case in unhash_cases(SEED, 800) {
        let answer = second::unhash(&case.table, case.state);
        let expected = case.refusal.map_or(Ok(case.pair), Err);
        assert_eq!(answer, expected, "seed {SEED}: {}", case.name);
        if let Ok(pair) = answer {
            let hashed = second::hash(&case.table, pair);
            assert_eq!(hashed, Ok(case.state), "seed {SEED}: {}", case.name);
            for yardstick in BOTH {
                let hashed = (yardstick.hash)(&case.table, pair);
                assert_eq!(hashed, Ok(case.state), "seed {SEED}: {}", case.name);
            }
            let row_31 = in_row_31(&good(&case.table), pair);
            assert_eq!(row_31, case.state, "seed {SEED}: {}", case.name);
        }
        seen.note(case.refusal);
    }
    seen.each(&[0, 1, 2, 4, 6, 16], 10);
}

#[test]
fn pack() {
    let mut seen = Seen::new();
    for case in pack_cases(SEED, 800) {
        let mut destination = vec![0xab; case.destination];
        let answer = second::pack(&case.taps, case.claim, &mut destination);
        assert_eq!(answer.err(), case.refusal, "seed {SEED}: {}", case.name);
        let expected = match case.refusal {
            None => case.file,
            Some(_) => vec![0xab; case.destination],
        };
        assert_eq!(destination, expected, "seed {SEED}: {}", case.name);
        seen.note(case.refusal);
    }
    seen.each(&[0, 5, 6, 8, 9], 20);
}

#[test]
fn unpack() {
    let mut seen = Seen::new();
    for case in unpack_cases(SEED, 1600) {
        let mut destination = vec![OLD; case.destination];
        let answer = second::unpack(&case.file, &mut destination);
        assert_eq!(answer.err(), case.refusal, "seed {SEED}: {}", case.name);
        match answer {
            Ok(claim) => {
                assert_eq!(claim, case.claim, "seed {SEED}: {}", case.name);
                assert_eq!(destination, case.taps, "seed {SEED}: {}", case.name);
                // An accepted file packs to the same bytes.
                let mut file = vec![0xab; case.file.len()];
                assert_eq!(second::pack(&destination, claim, &mut file), Ok(()));
                assert_eq!(file, case.file, "seed {SEED}: {}", case.name);
            }
            Err(_) => assert_eq!(destination, vec![OLD; case.destination]),
        }
        seen.note(case.refusal);
    }
    seen.each(&[0, 8, 12, 13, 14], 40);
}

#[test]
fn pack_short() {
    let mut seen = Seen::new();
    for case in pack_short_cases(SEED, 800) {
        let mut destination = vec![0xab; case.destination];
        let answer = second::pack_short(&case.taps, case.claim, &mut destination);
        assert_eq!(answer.err(), case.refusal, "seed {SEED}: {}", case.name);
        let expected = match case.refusal {
            None => case.file,
            Some(_) => vec![0xab; case.destination],
        };
        assert_eq!(destination, expected, "seed {SEED}: {}", case.name);
        seen.note(case.refusal);
    }
    seen.each(&[0, 5, 6, 8, 9], 20);
}

#[test]
fn unpack_short() {
    let mut seen = Seen::new();
    for case in unpack_short_cases(SEED, 1600) {
        let mut destination = vec![OLD; case.destination];
        let answer = second::unpack_short(&case.file, &mut destination);
        assert_eq!(answer.err(), case.refusal, "seed {SEED}: {}", case.name);
        match answer {
            Ok(claim) => {
                assert_eq!(claim, case.claim, "seed {SEED}: {}", case.name);
                assert_eq!(destination, case.taps, "seed {SEED}: {}", case.name);
                // An accepted file packs to the same bytes.
                let mut file = vec![0xab; case.file.len()];
                assert_eq!(second::pack_short(&destination, claim, &mut file), Ok(()));
                assert_eq!(file, case.file, "seed {SEED}: {}", case.name);
            }
            Err(_) => assert_eq!(destination, vec![OLD; case.destination]),
        }
        seen.note(case.refusal);
    }
    seen.each(&[0, 8, 12, 13, 14, 18], 40);
}

type Converter = fn(&[u8], &mut [u8]) -> Result<(), Refusal>;
type Reader = fn(&[u8], &mut [u64]) -> Result<[u64; 4], Refusal>;

/// A file that is accepted converts back to the same bytes, and it and what was written
/// unpack to the same claim and taps, each by the reader of its edition.
fn convert(
    cases: Vec<ConvertCase>,
    [there, back]: [Converter; 2],
    readers: [Reader; 2],
    refusals: &[usize],
) {
    let mut seen = Seen::new();
    for case in cases {
        let about = format!("seed {SEED}: {}", case.name);
        let mut destination = vec![0xab; case.destination];
        let answer = there(&case.file, &mut destination);
        assert_eq!(answer.err(), case.refusal, "{about}");
        seen.note(case.refusal);
        if case.refusal.is_some() {
            assert_eq!(destination, vec![0xab; case.destination], "{about}");
            continue;
        }
        assert_eq!(destination, case.converted, "{about}");
        let mut file = vec![0xab; case.file.len()];
        assert_eq!(back(&destination, &mut file), Ok(()), "{about}");
        assert_eq!(file, case.file, "{about}");
        for (read, file) in readers.into_iter().zip([file, destination]) {
            let mut taps = vec![OLD; case.taps.len()];
            assert_eq!(read(&file, &mut taps), Ok(case.claim), "{about}");
            assert_eq!(taps, case.taps, "{about}");
        }
    }
    seen.each(refusals, 40);
}

#[test]
fn to_short() {
    let converters: [Converter; 2] = [second::to_short, second::to_full];
    let readers: [Reader; 2] = [second::unpack, second::unpack_short];
    let refusals = [0, 8, 12, 13, 14, 19];
    convert(to_short_cases(SEED, 1600), converters, readers, &refusals);
}

#[test]
fn to_full() {
    let converters: [Converter; 2] = [second::to_full, second::to_short];
    let readers: [Reader; 2] = [second::unpack_short, second::unpack];
    let refusals = [0, 8, 12, 13, 14, 18, 19];
    convert(to_full_cases(SEED, 1600), converters, readers, &refusals);
}

/// 5 where k is not permitted, or not in the full edition; else what comes next, in lists
/// whose first word is not canonical.
#[test]
fn lists_around_the_limits() {
    let table = z().prepared;
    let mut words = vec![0; list_words(FIRST_ABOVE)];
    words[0] = u64::MAX;
    for length in list_lengths() {
        let taps = &words[..length.words];
        let refused = |next: Refusal| Err(length.k.map_or(Refusal::TapLength, |_| next));
        let answer = second::chain(&table, taps);
        assert_eq!(answer, refused(tap_word(0)), "{length:?}");
        let no_room = refused(Refusal::DestinationLength);
        let answer = second::build(&table, taps, &mut [0; 383]);
        assert_eq!(answer, no_room, "{length:?}");
        for yardstick in BOTH {
            let answer = (yardstick.build)(&table, taps, &mut [0; 383]);
            assert_eq!(answer, no_room, "{length:?}");
        }
        let no_room = no_room.map(|_| ());
        let answer = second::pack_short(taps, [0; 4], &mut [0; 83]);
        assert_eq!(answer, no_room, "{length:?}");
        let in_full = length.k.filter(|&k| k <= 1024);
        let refusal = in_full.map_or(Refusal::TapLength, |_| Refusal::DestinationLength);
        let answer = second::pack(taps, [0; 4], &mut [0; 243]);
        assert_eq!(answer, Err(refusal), "{length:?}");
    }
}

/// 7 where k is not permitted; else what comes next, in zeros that are not looked at.
#[test]
fn traces_around_the_limits() {
    let table = z().prepared;
    let mut words = vec![0; trace_words(FIRST_ABOVE)];
    for length in trace_lengths() {
        let trace = &mut words[..length.words];
        let refused = |next: Refusal| Err(length.k.map_or(Refusal::TraceLength, |_| next));
        let k = length.k.unwrap_or(1);
        let no_c = refused(Refusal::ClaimBatches);
        let no_room = refused(Refusal::DestinationLength);
        let answer = second::edit(&table, trace, [0; 4], k, 3 * k + 1, [0; 4]);
        assert_eq!(
            answer.err(),
            refused(Refusal::NoSuchTap).err(),
            "{length:?}"
        );
        for c in [0, k + 1] {
            let answer = second::check(&table, trace, [0; 4], c);
            assert_eq!(answer, no_c, "{length:?}");
            for yardstick in BOTH {
                let answer = (yardstick.check)(&table, trace, [0; 4], c);
                assert_eq!(answer, no_c, "{length:?}");
            }
        }
        for c in [1, k] {
            let answer = second::read_off(&table, trace, [0; 4], c, &mut [0; 15]);
            assert_eq!(answer, no_room, "{length:?}");
            for yardstick in BOTH {
                let answer = (yardstick.read_off)(&table, trace, [0; 4], c, &mut [0; 15]);
                assert_eq!(answer, no_room, "{length:?}");
            }
        }
    }
}

#[test]
fn clear() {
    let mut starts = std::collections::BTreeMap::new();
    for case in clear_cases(SEED, 800) {
        let line = second::clear(&case.input);
        assert_eq!(line, case.line, "seed {SEED}: {}", case.name);
        let words: Vec<&str> = line.split_whitespace().take(2).collect();
        let start = match words[0] {
            "refused" => words.join(" "),
            other => other.to_string(),
        };
        *starts.entry(start).or_insert(0) += 1;
    }
    for start in [
        "accepted",
        "refused 1",
        "refused 2",
        "refused 3",
        "refused 11",
        "refused 12",
        "refused 13",
        "refused 14",
        "too",
    ] {
        let count = starts.get(start).copied().unwrap_or(0);
        assert!(count >= 10, "seed {SEED}: {start} {starts:?}");
    }
}

/// The same seed makes the same cases, another seed others.
#[test]
fn cases_repeat() {
    let names = |seed| -> Vec<String> {
        let cases = check_cases(seed, 40);
        cases.into_iter().map(|case| case.name).collect()
    };
    assert_eq!(names(SEED), names(SEED));
    assert_ne!(names(SEED), names(SEED + 1));
}
