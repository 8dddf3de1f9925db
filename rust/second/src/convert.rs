//! Between the full and the short edition of the board file (document 02, U8 and U9).
//!
//! A file is read whole into a list, whose length word 0 gives, and written again in
//! the other edition. So the reader never comes to its 8, and of the writer's 5, 8, 9
//! and 6 only 8 is left: what a reader accepts has a permitted length and canonical
//! words, and that a full file may have so many batches is tested before it is read.

use crate::board::{pack, read_payload, test_full_head, test_full_k, unpack};
use crate::hash::list_words;
use crate::refusal::Refusal;
use crate::short::{is_marked, pack_short, test_short_head, unpack_short};

/// From the full edition to the short: 12 (below 4 bytes), word 0's 13, 19, 14, then 12
/// (length), each element's 13 and 14, 8.
pub fn to_short(file: &[u8], destination: &mut [u8]) -> Result<(), Refusal> {
    let head = read_payload(file, 0, 0)?;
    if is_marked(head) {
        return Err(Refusal::SameEdition);
    }
    let mut taps = vec![0; list_words(test_full_head(head)?)];
    let claim = unpack(file, &mut taps)?;
    pack_short(&taps, claim, destination)
}

/// From the short edition to the full: 12 (below 4 bytes), word 0's 13, 19, 14, then 14
/// for more than 1024 batches, element by element 12 where the file ends, 13, 14, 18,
/// then 12 for bytes after the last, 8.
pub fn to_full(short_file: &[u8], destination: &mut [u8]) -> Result<(), Refusal> {
    let head = read_payload(short_file, 0, 0)?;
    if !is_marked(head) {
        return Err(Refusal::SameEdition);
    }
    let k = test_full_k(test_short_head(head)?)?;
    let mut taps = vec![0; list_words(k)];
    let claim = unpack_short(short_file, &mut taps)?;
    pack(&taps, claim, destination)
}
