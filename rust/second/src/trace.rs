//! The trace (document 01, "The trace"; 004, 3.1).

use crate::hash::{
    input, is_permitted, k_of_list, output, rounds, start, tap, test_tap_words, HASHES, TAP,
};
use crate::refusal::Refusal;
use crate::table::{Table, CELLS};

/// Rows of a batch.
pub const ROWS: usize = 32;
/// Words of a batch.
pub const BATCH: usize = ROWS * CELLS;

/// Words of a trace of k batches.
pub fn trace_words(k: usize) -> usize {
    BATCH * k
}

/// The permitted k whose traces have this many words.
pub fn k_of_trace(words: usize) -> Option<usize> {
    let k = words / BATCH;
    (is_permitted(k) && trace_words(k) == words).then_some(k)
}

/// Build: the table's refusals, 5, 8, 6. Writes the trace and returns the chain's output.
pub fn build(table: &[u64], taps: &[u64], destination: &mut [u64]) -> Result<[u64; TAP], Refusal> {
    let table = Table::test(table)?;
    let k = k_of_list(taps.len()).ok_or(Refusal::TapLength)?;
    if destination.len() != trace_words(k) {
        return Err(Refusal::DestinationLength);
    }
    test_tap_words(taps)?;
    let (trace, last) = trace_of(&table, taps, k);
    destination.copy_from_slice(&trace);
    Ok(last)
}

/// The section 3.1 trace of a list, and its chain's output.
pub fn trace_of(table: &Table, taps: &[u64], k: usize) -> (Vec<u64>, [u64; TAP]) {
    let mut trace = Vec::with_capacity(trace_words(k));
    let mut last = tap(taps, 0);
    for batch in 0..k {
        for hash in 0..HASHES {
            let next = tap(taps, HASHES * batch + hash + 1);
            if hash == 0 {
                trace.extend(input(last, next)); // row 0
            }
            let state = rounds(table, start(table, last, next), |middle| {
                trace.extend(middle); // rows 1 to 10, 11 to 20, 21 to 30
            });
            last = output(state);
            if hash == HASHES - 1 {
                trace.extend(state); // row 31
            }
        }
    }
    (trace, last)
}
