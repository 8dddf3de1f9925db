//! Lengths of lists and of traces around the limits of k (document 02, U9). The longest are
//! those of 2^19 batches, so that they are lent as parts of one buffer, and the refusals
//! that come next do not need the words.

use crate::taps::PERMITTED;

/// The first power of two that is not permitted.
pub const FIRST_ABOVE: usize = 1 << 19;

/// Counts that are not permitted: beside the old limit and the new one, and between
/// powers of two.
pub const NOT_PERMITTED: [usize; 15] = [
    0,
    3,
    1023,
    1025,
    1536,
    2047,
    2049,
    65537,
    3 << 16,
    (1 << 18) - 1,
    (1 << 18) + 1,
    3 << 17,
    (1 << 19) - 384,
    (1 << 19) - 1,
    FIRST_ABOVE,
];

/// A length in words, and the permitted k that has it, if any.
#[derive(Clone, Copy, Debug, PartialEq, Eq)]
pub struct Length {
    pub words: usize,
    pub k: Option<usize>,
}

/// The lengths of these counts and those beside them, none longer than that of 2^19.
fn lengths(words_of: fn(usize) -> usize) -> Vec<Length> {
    let counts = PERMITTED.into_iter().chain(NOT_PERMITTED);
    let beside = |k| {
        let words = words_of(k);
        [words.saturating_sub(1), words, words + 1]
    };
    let mut all: Vec<usize> = counts.flat_map(beside).collect();
    all.retain(|&words| words <= words_of(FIRST_ABOVE));
    all.sort();
    all.dedup();
    let length = |words| Length {
        words,
        k: PERMITTED.into_iter().find(|&k| words_of(k) == words),
    };
    all.into_iter().map(length).collect()
}

/// Words of a tap list of k batches.
pub fn list_words(k: usize) -> usize {
    12 * k + 4
}

/// Words of a trace of k batches.
pub fn trace_words(k: usize) -> usize {
    384 * k
}

/// Lengths of tap lists.
pub fn list_lengths() -> Vec<Length> {
    lengths(list_words)
}

/// Lengths of traces.
pub fn trace_lengths() -> Vec<Length> {
    lengths(trace_words)
}
