//! What a caller needs to lend files to the calls: the words of a raw table, the
//! batches of a board file of some length, length and batches of a short file, and the
//! lengths that the converters ask for.

use crate::{file_bytes, Refusal, RAW_WORDS};

/// Bytes of a raw table's file: its words, low byte first.
pub const RAW_BYTES: usize = 8 * RAW_WORDS;

/// The largest permitted number of batches.
pub const MOST_BATCHES: usize = 1 << 18;
/// The largest of a board file in the full edition.
pub const MOST_FILE_BATCHES: usize = 1024;

/// Bytes of a word of a board file.
const WORD_BYTES: usize = 4;
/// In a short file an element of at most so many bits has one word, any other three.
const ONE_WORD_BITS: u32 = 30;
/// What word 0 of a short file has beside k.
const SHORT_MARK: u32 = 1 << 29;
/// Bytes of an element of a full file.
const ELEMENT_BYTES: usize = 3 * WORD_BYTES;
/// The first two words of such an element without their kinds: what it has above its
/// low 30 bits.
const UPPER_PAYLOADS: u64 = 0x3fff_ffff_3fff_ffff;

/// Whether this is a permitted number of batches, where there may be so many.
fn is_permitted(k: usize, most: usize) -> bool {
    k.count_ones() == 1 && k <= most
}

/// The words of a raw table's file; refusal 1 where it has another length.
pub fn raw_table(file: &[u8]) -> Result<[u64; RAW_WORDS], Refusal> {
    if file.len() != RAW_BYTES {
        return Err(Refusal::TableLength);
    }
    let mut raw = [0; RAW_WORDS];
    for (word, bytes) in raw.iter_mut().zip(file.chunks_exact(8)) {
        *word = u64::from_le_bytes(bytes.try_into().expect("eight bytes"));
    }
    Ok(raw)
}

/// The k of a board file of this length, if a permitted k up to [`MOST_FILE_BATCHES`]
/// has it. A file of any other length is refused before `unpack` looks at its
/// destination.
pub fn batches(bytes: usize) -> Option<usize> {
    let k = bytes.checked_sub(file_bytes(0))? / (file_bytes(1) - file_bytes(0));
    (is_permitted(k, MOST_FILE_BATCHES) && file_bytes(k) == bytes).then_some(k)
}

/// Bytes of the short file of a list of taps and a claim, which
/// [`pack_short`](crate::pack_short) asks for: 4 for word 0, 4 for an element below
/// 2^30 and 12 for any other, one that is not canonical included. That is 48k + 36 where
/// all are below 2^30, and [`file_bytes`] where none is, also for a k that has no full
/// file.
pub fn short_file_bytes(taps: &[u64], claim: [u64; 4]) -> usize {
    let words = |&element: &u64| match element >> ONE_WORD_BITS {
        0 => 1,
        _ => 3,
    };
    let elements: usize = claim.iter().chain(taps).map(words).sum();
    WORD_BYTES * (1 + elements)
}

/// The k in word 0 of a short file, bits 0 to 19, if these bytes begin as one does: its
/// length does not say it. Any other file is refused before
/// [`unpack_short`](crate::unpack_short) looks at its destination.
pub fn short_batches(file: &[u8]) -> Option<usize> {
    let word = u32::from_le_bytes(*file.first_chunk::<WORD_BYTES>()?);
    // Too large where the mark is not set, or any bit from 19 on.
    let k = (word ^ SHORT_MARK) as usize;
    is_permitted(k, MOST_BATCHES).then_some(k)
}

/// Bytes of the short file of a full one, which [`to_short`](crate::to_short) asks for:
/// [`short_file_bytes`] of its taps and claim. It answers for any bytes of the length of
/// a full file, by the payloads of their words. A file of any other length is refused
/// before the converter looks at its destination.
pub fn to_short_bytes(file: &[u8]) -> Option<usize> {
    batches(file.len())?;
    let words = |element: &[u8]| {
        let upper = element.first_chunk().expect("the first two words");
        match u64::from_le_bytes(*upper) & UPPER_PAYLOADS {
            0 => 1,
            _ => 3,
        }
    };
    let elements = file[WORD_BYTES..].chunks_exact(ELEMENT_BYTES);
    Some(WORD_BYTES * (1 + elements.map(words).sum::<usize>()))
}

/// Bytes of the full file of a short one, which [`to_full`](crate::to_full) asks for:
/// those of the k that [`short_batches`] finds, if it is at most [`MOST_FILE_BATCHES`].
/// Any other file is refused before the converter looks at its destination.
pub fn to_full_bytes(short_file: &[u8]) -> Option<usize> {
    let k = short_batches(short_file)?;
    is_permitted(k, MOST_FILE_BATCHES).then(|| file_bytes(k))
}
