//! The short edition of the board file (document 02, U7 and U9).

use crate::board::{
    bytes_of, element_words, join, kind, read_element, read_payload, read_word, test_k,
    PAYLOAD_BITS,
};
use crate::constraints::test_claim;
use crate::hash::{k_of_list, list_words, test_tap_words, TAP};
use crate::refusal::Refusal;

/// Bit 29 of word 0.
pub const MARK: u32 = 1 << 29;
/// Bits 0 to 19 of word 0 hold k (document 02, U9); 20 to 28 are zero.
const SHORT_K_BITS: u32 = 20;

/// Bytes of the file: word 0, then what the elements need. One that is not canonical is
/// above 2^30, so that it counts as three words.
pub fn short_file_bytes(taps: &[u64], claim: [u64; TAP]) -> usize {
    let elements = claim.iter().chain(taps);
    let words: usize = elements.map(|&element| short_words(element).len()).sum();
    4 * (1 + words)
}

/// Pack in the short edition: 5, 8, 9, 6.
pub fn pack_short(taps: &[u64], claim: [u64; TAP], destination: &mut [u8]) -> Result<(), Refusal> {
    let k = k_of_list(taps.len()).ok_or(Refusal::TapLength)?;
    if destination.len() != short_file_bytes(taps, claim) {
        return Err(Refusal::DestinationLength);
    }
    test_claim(claim)?;
    test_tap_words(taps)?;
    let mut words = vec![join(0, MARK | k as u32)];
    for &element in claim.iter().chain(taps) {
        words.extend(short_words(element));
    }
    destination.copy_from_slice(&bytes_of(&words));
    Ok(())
}

/// Unpack in the short edition: 12 (below 4 bytes), word 0's 13 then 14, 8, then element
/// by element 12 where the file ends, 13, 14, 18, then 12 for bytes after the last.
/// Writes the taps and returns the claim.
pub fn unpack_short(file: &[u8], destination: &mut [u64]) -> Result<[u64; TAP], Refusal> {
    let k = test_short_head(read_payload(file, 0, 0)?)?;
    if destination.len() != list_words(k) {
        return Err(Refusal::DestinationLength);
    }
    let mut elements = vec![];
    let mut word = 1;
    for _ in 0..TAP + list_words(k) {
        let (element, next) = read_short_element(file, word)?;
        elements.push(element);
        word = next;
    }
    if file.len() != 4 * word {
        return Err(Refusal::FileLength);
    }
    destination.copy_from_slice(&elements[TAP..]);
    Ok([elements[0], elements[1], elements[2], elements[3]])
}

/// Is word 0 that of a short file?
pub fn is_marked(head: u32) -> bool {
    head & MARK != 0
}

/// The k in what is below a short file's kind of word 0; 14 when the mark is not set or a
/// bit between it and k is, or k is not permitted.
pub fn test_short_head(payload: u32) -> Result<usize, Refusal> {
    if is_marked(payload) {
        test_k(payload & !MARK, SHORT_K_BITS)
    } else {
        Err(Refusal::Value { word: 0 })
    }
}

/// Is it an element of one word?
fn is_small(element: u64) -> bool {
    element < 1 << PAYLOAD_BITS
}

/// The words of an element: one of kind 3 when it is below 2^30, else the three of the
/// full edition.
fn short_words(element: u64) -> Vec<u32> {
    if is_small(element) {
        vec![join(3, element as u32)]
    } else {
        element_words(element).to_vec()
    }
}

/// The element that begins at `word`, and the index of the word after it.
fn read_short_element(file: &[u8], word: usize) -> Result<(u64, usize), Refusal> {
    if kind(read_word(file, word)?) == 3 {
        let element = read_payload(file, word, 3)?;
        return Ok((element as u64, word + 1));
    }
    // Three words, or 13 at the first.
    let element = read_element(file, word)?;
    if is_small(element) {
        return Err(Refusal::LongElement { word: word as u64 });
    }
    Ok((element, word + 3))
}
