//! The board file (document 01, "The board file"), which document 02 calls its full
//! edition.

use crate::constraints::test_claim;
use crate::field::P;
use crate::hash::{is_permitted, k_of_list, list_words, test_tap_words, TAP};
use crate::refusal::Refusal;

/// Bits of a word below its kind.
pub const PAYLOAD_BITS: u32 = 30;
const PAYLOAD_MASK: u32 = (1 << PAYLOAD_BITS) - 1;
/// Bits 0 to 15 of word 0 hold k.
const K_BITS: u32 = 16;
/// The most batches of a full file, fewer than elsewhere (document 02, U9).
pub const MOST_FULL_BATCHES: usize = 1024;

/// Bytes of the file of k batches: word 0, then claim and taps, three words an
/// element.
pub fn file_bytes(k: usize) -> usize {
    4 * (1 + 3 * (TAP + list_words(k)))
}

/// Pack: 5, 8, 9, 6. No table, no hash. A list of more than 1024 batches gets 5 here.
pub fn pack(taps: &[u64], claim: [u64; TAP], destination: &mut [u8]) -> Result<(), Refusal> {
    let k = k_of_list(taps.len()).filter(|&k| k <= MOST_FULL_BATCHES);
    let k = k.ok_or(Refusal::TapLength)?;
    if destination.len() != file_bytes(k) {
        return Err(Refusal::DestinationLength);
    }
    test_claim(claim)?;
    test_tap_words(taps)?;
    let mut words = vec![join(0, k as u32)];
    for &element in claim.iter().chain(taps) {
        words.extend(element_words(element));
    }
    destination.copy_from_slice(&bytes_of(&words));
    Ok(())
}

/// Unpack: 12 (below 4 bytes), word 0's 13 then 14, 12, 8, then each element's
/// three kinds and its value. Writes the taps and returns the claim.
pub fn unpack(file: &[u8], destination: &mut [u64]) -> Result<[u64; TAP], Refusal> {
    if file.len() < 4 {
        return Err(Refusal::FileLength);
    }
    let k = test_full_head(read_payload(file, 0, 0)?)?;
    if file.len() != file_bytes(k) {
        return Err(Refusal::FileLength);
    }
    if destination.len() != list_words(k) {
        return Err(Refusal::DestinationLength);
    }
    let mut elements = vec![];
    for number in 0..TAP + list_words(k) {
        elements.push(read_element(file, 1 + 3 * number)?);
    }
    destination.copy_from_slice(&elements[TAP..]);
    Ok([elements[0], elements[1], elements[2], elements[3]])
}

/// A word of this kind and payload.
pub fn join(kind: u32, payload: u32) -> u32 {
    kind << PAYLOAD_BITS | payload
}

/// The kind of a word.
pub fn kind(word: u32) -> u32 {
    word >> PAYLOAD_BITS
}

/// The three words of an element.
pub fn element_words(element: u64) -> [u32; 3] {
    [
        join(1, (element >> (2 * PAYLOAD_BITS)) as u32),
        join(2, (element >> PAYLOAD_BITS) as u32 & PAYLOAD_MASK),
        join(3, element as u32 & PAYLOAD_MASK),
    ]
}

/// Words as the file has them, low byte first.
pub fn bytes_of(words: &[u32]) -> Vec<u8> {
    words.iter().flat_map(|word| word.to_le_bytes()).collect()
}

/// The k in what is below a full file's kind of word 0; 14 when a bit above k is set, or
/// the edition has no such k.
pub fn test_full_head(payload: u32) -> Result<usize, Refusal> {
    test_full_k(test_k(payload, K_BITS)?)
}

/// The k in the lowest `bits` bits; 14 when another bit is set, or k is not permitted.
pub fn test_k(payload: u32, bits: u32) -> Result<usize, Refusal> {
    let k = payload as usize;
    if payload >> bits == 0 && is_permitted(k) {
        Ok(k)
    } else {
        Err(Refusal::Value { word: 0 })
    }
}

/// A permitted k; 14 when it is above that of any full file.
pub fn test_full_k(k: usize) -> Result<usize, Refusal> {
    if k <= MOST_FULL_BATCHES {
        Ok(k)
    } else {
        Err(Refusal::Value { word: 0 })
    }
}

/// A word of the file; 12 when it is not there whole.
pub fn read_word(file: &[u8], word: usize) -> Result<u32, Refusal> {
    let whole = file.chunks_exact(4).nth(word);
    let bytes = whole.ok_or(Refusal::FileLength)?;
    Ok(u32::from_le_bytes(bytes.try_into().expect("four bytes")))
}

/// The payload of a word of the file; 13 when its kind is another.
pub fn read_payload(file: &[u8], word: usize, expected: u32) -> Result<u32, Refusal> {
    let value = read_word(file, word)?;
    if kind(value) == expected {
        Ok(value & PAYLOAD_MASK)
    } else {
        Err(Refusal::Kind { word: word as u64 })
    }
}

/// The element whose three words begin at `word`; 14 when it is not canonical.
/// Three payloads are 90 bits, so the sum is taken in 128.
pub fn read_element(file: &[u8], word: usize) -> Result<u64, Refusal> {
    let high = read_payload(file, word, 1)? as u128;
    let middle = read_payload(file, word + 1, 2)? as u128;
    let low = read_payload(file, word + 2, 3)? as u128;
    let element = (high << (2 * PAYLOAD_BITS)) + (middle << PAYLOAD_BITS) + low;
    if element < P as u128 {
        Ok(element as u64)
    } else {
        Err(Refusal::Value { word: word as u64 })
    }
}
