//! A tap corrected (document 02, U1 and U6).

use crate::constraints::{test_batches, test_words, Lent};
use crate::hash::{chain_of, list_words, test_tap_words, HASHES, TAP};
use crate::refusal::Refusal;
use crate::table::Table;
use crate::trace::trace_of;

/// Edit: the table's refusals, 7, 17, 15, 9, 10, 6, 11. Turns the lent trace into that of
/// the list with tap `number` replaced by `new`, and returns the output of the first 3c + 1
/// taps of that list. That the trace is accepted is tested, and last (11); the index of 6
/// counts in `new`, 0 to 3.
pub fn edit(
    table: &[u64],
    trace: &mut [u64],
    claim: [u64; TAP],
    c: usize,
    number: usize,
    new: [u64; TAP],
) -> Result<[u64; TAP], Refusal> {
    let table = Table::test(table)?;
    let k = test_batches(trace, c)?;
    // Taps are numbered from 0, so the last of 3k + 1 is 3k.
    if number > HASHES * k {
        return Err(Refusal::NoSuchTap);
    }
    test_words(trace, claim)?;
    test_tap_words(&new)?;
    let lent = Lent {
        table,
        trace,
        claim,
        c,
    };
    lent.walk(k)?;
    let mut taps = lent.taps(k);
    let first = TAP * number;
    taps[first..first + TAP].copy_from_slice(&new);
    // Only the trace "equals the fresh build's"; the output is that of the first 3c + 1
    // taps.
    let (altered, _) = trace_of(&table, &taps, k);
    trace.copy_from_slice(&altered);
    Ok(chain_of(&table, &taps[..list_words(c)]))
}
