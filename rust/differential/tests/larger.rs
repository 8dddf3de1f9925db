//! Lists and traces of more than 1024 batches (document 02, U9): every length around the
//! limits, where the refusal that comes next is found before the words are read, and 2048
//! batches built, chained, checked, read off and edited. Their files are in short_files.rs
//! and converters.rs.

use differential::{bytes, holding, same_verdict, seeds, words, Lent};
use inputs::edits::{tap_of, with_tap};
use inputs::limits::{list_lengths, list_words, trace_lengths, trace_words, Length, FIRST_ABOVE};
use inputs::tables::{dense, z};
use inputs::taps::PERMITTED;
use inputs::traces::{failed, output_after};
use inputs::*;
use second::field::{add, P};
use second::Refusal;

/// Of a length where k is not permitted this refusal, else the one that comes next.
fn refused(length: Length, refusal: Refusal, next: Refusal) -> Refusal {
    length.k.map_or(refusal, |_| next)
}

/// Lists whose first word is not canonical: 5, or 6 in Chain, 8 and 6 in Build, and 8, 9
/// and 6 in the short writer. The full writer has 5 above 1024 batches, before 8.
#[test]
fn lengths_of_lists() {
    let table = z().prepared;
    let mut all = vec![0; list_words(FIRST_ABOVE)];
    all[0] = P;
    for length in list_lengths() {
        let taps = &all[..length.words];
        chains_and_builds(&table, taps, length);
        packs(taps, length);
        packs_short(taps, length);
    }
    assert!(all[0] == P && all[1..].iter().all(|&word| word == 0));
}

fn chains_and_builds(table: &[u64], taps: &[u64], length: Length) {
    let about = format!("{length:?}");
    let refusal = refused(length, Refusal::TapLength, tap_word(0));
    same_verdict(lemoncolumn::chain(table, taps), Err(refusal), &about);
    assert_eq!(second::chain(table, taps), Err(refusal), "{about}");

    let no_room = refused(length, Refusal::TapLength, Refusal::DestinationLength);
    let mut destinations = vec![(383, no_room)];
    if let Some(k) = length.k.filter(|&k| k <= 4096) {
        destinations.push((trace_words(k), refusal));
    }
    for (room, refusal) in destinations {
        let mut trace = words(room);
        let built = lemoncolumn::build(table, taps, &mut trace);
        same_verdict(built, Err(refusal), &about);
        let built = second::build(table, taps, &mut trace);
        assert_eq!(built, Err(refusal), "{about}");
        assert!(trace.is_untouched(), "{about}");
    }
}

/// Into no length that a file has, and into that of k batches.
fn packs(taps: &[u64], length: Length) {
    let in_full = length.k.filter(|&k| k <= 1024);
    let mut destinations = vec![(243, Refusal::DestinationLength)];
    if let Some(k) = length.k.filter(|&k| k <= 4096) {
        destinations.push((144 * k + 100, claim_word(2)));
    }
    for (room, next) in destinations {
        let about = format!("{length:?}, full file of {room}");
        let refusal = in_full.map_or(Refusal::TapLength, |_| next);
        let mut file = bytes(room);
        let packed = lemoncolumn::pack(taps, [0, 0, P, 0], &mut file);
        same_verdict(packed, Err(refusal), &about);
        let packed = second::pack(taps, [0, 0, P, 0], &mut file);
        assert_eq!(packed, Err(refusal), "{about}");
        assert!(file.is_untouched(), "{about}");
    }
}

/// Into no length that a file has, and into that of k batches: 4 bytes for word 0 and for
/// each element, 8 more for p in the taps, and as many for p in the claim.
fn packs_short(taps: &[u64], length: Length) {
    let mut calls = vec![(83, [P; 4], Refusal::DestinationLength)];
    if let Some(k) = length.k.filter(|&k| k <= 4096 || k == 1 << 18) {
        let exact = 4 * (1 + 4 + list_words(k)) + 8;
        calls.push((exact + 8, [0, 0, P, 0], claim_word(2)));
        calls.push((exact, [0; 4], tap_word(0)));
    }
    for (room, claim, next) in calls {
        let about = format!("{length:?}, short file of {room}");
        let refusal = refused(length, Refusal::TapLength, next);
        let mut file = bytes(room);
        let packed = lemoncolumn::pack_short(taps, claim, &mut file);
        same_verdict(packed, Err(refusal), &about);
        let packed = second::pack_short(taps, claim, &mut file);
        assert_eq!(packed, Err(refusal), "{about}");
        assert!(file.is_untouched(), "{about}");
    }
}

/// Zeros that no call looks at: 7, or 17, 15, 8 and 9, which all come before the words.
#[test]
fn lengths_of_traces() {
    let table = z().prepared;
    let mut all = vec![0; trace_words(FIRST_ABOVE)];
    for length in trace_lengths() {
        let trace = &mut all[..length.words];
        let k = length.k.unwrap_or(1);
        for c in [0, k + 1] {
            let refusal = refused(length, Refusal::TraceLength, Refusal::ClaimBatches);
            judged(&table, trace, [P; 4], c, 15, refusal);
            edited(&table, trace, [P; 4], c, 3 * k + 1, refusal);
        }
        for c in [1, k] {
            let refusal = refused(length, Refusal::TraceLength, claim_word(1));
            judged(&table, trace, [0, P, 0, P], c, list_words(k), refusal);
            edited(&table, trace, [0, P, 0, P], c, 3 * k, refusal);
            let refusal = refused(length, Refusal::TraceLength, Refusal::NoSuchTap);
            edited(&table, trace, [P; 4], c, 3 * k + 1, refusal);
            let no_room = refused(length, Refusal::TraceLength, Refusal::DestinationLength);
            reads_off(&table, trace, [P; 4], c, 15, no_room);
        }
    }
}

/// Check and Read-off of both.
fn judged(table: &[u64], trace: &[u64], claim: [u64; 4], c: usize, room: usize, refusal: Refusal) {
    let about = format!("{} trace words, c = {c}", trace.len());
    let answer = lemoncolumn::check(table, trace, claim, c);
    same_verdict(answer, Err(refusal), &about);
    let answer = second::check(table, trace, claim, c);
    assert_eq!(answer, Err(refusal), "{about}");
    if room <= list_words(4096) {
        reads_off(table, trace, claim, c, room, refusal);
    }
}

fn reads_off(
    table: &[u64],
    trace: &[u64],
    claim: [u64; 4],
    c: usize,
    room: usize,
    refusal: Refusal,
) {
    let about = format!("{} trace words, c = {c}, into {room}", trace.len());
    let mut taps = words(room);
    let answer = lemoncolumn::read_off(table, trace, claim, c, &mut taps);
    same_verdict(answer, Err(refusal), &about);
    let answer = second::read_off(table, trace, claim, c, &mut taps);
    assert_eq!(answer, Err(refusal), "{about}");
    assert!(taps.is_untouched(), "{about}");
}

/// The ends of the lent trace are looked at; all of it would be long.
fn edited(
    table: &[u64],
    trace: &mut [u64],
    claim: [u64; 4],
    c: usize,
    tap: usize,
    refusal: Refusal,
) {
    let about = format!("{} trace words, c = {c}, tap {tap}", trace.len());
    let answer = lemoncolumn::edit(table, trace, claim, c, tap, [P; 4]);
    same_verdict(answer, Err(refusal), &about);
    let answer = second::edit(table, trace, claim, c, tap, [P; 4]);
    assert_eq!(answer, Err(refusal), "{about}");
    let ends = trace.iter().take(384).chain(trace.iter().rev().take(384));
    assert!(ends.into_iter().all(|&word| word == 0), "{about}");
}

/// A word that is not canonical, or that makes the first test fail, at the start of zeros of
/// every k up to 2^16.
#[test]
fn first_words_of_traces() {
    let table = z().prepared;
    let mut all = vec![0; trace_words(1 << 16)];
    for k in PERMITTED.into_iter().take_while(|&k| k <= 1 << 16) {
        let trace = &mut all[..trace_words(k)];
        for c in [1, k] {
            trace[8] = P;
            judged(&table, trace, [0; 4], c, list_words(k), trace_word(8));
            trace[8] = 1;
            judged(
                &table,
                trace,
                [0; 4],
                c,
                list_words(k),
                failed(k, c, (0, 1)),
            );
            trace[8] = 0;
        }
    }
}

/// More batches than the full edition has, and fewer than document 02's most.
const K: usize = 2048;

/// A table, a list of 2048 batches and its trace, as the proved library builds it.
fn built(seed: u64) -> (Vec<u64>, Vec<u64>, Lent<u64>) {
    let mut random = Random::new(seed);
    let table = dense(&mut random).prepared;
    let taps = random.canonicals(list_words(K));
    let mut trace = words(trace_words(K));
    let output = lemoncolumn::build(&table, &taps, &mut trace);
    assert!(trace.is_guarded());
    assert_eq!(output, Ok(output_after(&trace, K)), "seed {seed}");
    (table, taps, trace)
}

/// Both build the same, chain to the same, and read off the list, under a claim that ends
/// after more than 1024 batches too.
#[test]
fn a_trace_of_2048_batches() {
    for seed in seeds("larger, a trace of 2048 batches") {
        let (table, taps, mut trace) = built(seed);
        let mut other = words(trace_words(K));
        let output = second::build(&table, &taps, &mut other);
        assert_eq!(output, Ok(output_after(&trace, K)), "seed {seed}");
        assert!(trace[..] == other[..], "seed {seed}: the traces differ");
        let chained = lemoncolumn::chain(&table, &taps);
        same_verdict(chained, output, "chain");

        let claims = [1025, K].map(|c| (c, output_after(&trace, c)));
        for (c, claim) in claims {
            let about = format!("seed {seed}: c = {c}");
            let tests = Ok(372 * K as u64);
            let answer = lemoncolumn::check(&table, &trace, claim, c);
            same_verdict(answer, tests, &about);
            let mut read = words(taps.len());
            let answer = lemoncolumn::read_off(&table, &trace, claim, c, &mut read);
            same_verdict(answer, tests, &about);
            assert!(read.is_guarded() && read[..] == taps[..], "{about}");
        }
        let (c, claim) = claims[0];
        let mut read = words(taps.len());
        let tests = second::read_off(&table, &trace, claim, c, &mut read);
        assert_eq!(tests, Ok(372 * K as u64), "seed {seed}");
        assert!(read[..] == taps[..], "seed {seed}");

        // Cell 0 of the last row, which a claim of fewer batches is not about.
        let cell = trace_words(K) - 12;
        trace[cell] = add(trace[cell], 1);
        for (c, claim) in claims {
            let refusal = failed(K, c, (32 * K - 2, 33));
            let answer = lemoncolumn::check(&table, &trace, claim, c);
            same_verdict(answer, Err(refusal), &format!("seed {seed}: c = {c}"));
        }
        let refusal = failed(K, c, (32 * K - 2, 33));
        let answer = second::check(&table, &trace, claim, c);
        assert_eq!(answer, Err(refusal), "seed {seed}");
    }
}

/// The tap after those that a claim of 1025 batches is about, and the last of all: the trace
/// is that of a build of the altered list, and the edit back gives the starting words. The
/// first one by both.
#[test]
fn edits_of_2048_batches() {
    for seed in seeds("larger, edits of 2048 batches") {
        let (table, taps, trace) = built(seed);
        for (c, tap) in [(1025, 3 * 1025 + 1), (K, 3 * K)] {
            let about = format!("seed {seed}: c = {c}, tap {tap}");
            let claim = output_after(&trace, c);
            let new = [seed, 0, P - 1, 1 << 30];
            let altered = with_tap(&taps, tap, new);
            let mut built = words(trace_words(K));
            lemoncolumn::build(&table, &altered, &mut built).expect("built");

            let mut left = holding(&trace);
            let output = lemoncolumn::edit(&table, &mut left, claim, c, tap, new);
            assert_eq!(output, Ok(output_after(&built, c)), "{about}");
            assert!(left.is_guarded() && left[..] == built[..], "{about}");
            let output = output_after(&built, c);
            assert_eq!(output == claim, tap > 3 * c, "{about}");
            if c < K {
                let mut other = holding(&trace);
                let answer = second::edit(&table, &mut other, claim, c, tap, new);
                assert_eq!(answer, Ok(output), "{about}");
                assert!(other[..] == left[..], "{about}");
            }
            let old = tap_of(&taps, tap).expect("a tap");
            let back = lemoncolumn::edit(&table, &mut left, output, c, tap, old);
            assert_eq!(back, Ok(claim), "{about}");
            assert!(left[..] == trace[..], "{about}: not the starting words");
        }
    }
}
