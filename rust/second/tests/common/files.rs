//! Board files of both editions, written a second time in another manner: by division,
//! and the short one also from the full one, and back; and files that are damaged.

use super::*;
use second::{pack, pack_short, unpack_short};

/// The three words of an element, by division.
pub fn three_words(element: u64) -> [u64; 3] {
    let unit = 1 << 30;
    [
        unit + element / (unit * unit),
        2 * unit + element / unit % unit,
        3 * unit + element % unit,
    ]
}

/// The bytes of words, low byte first, by division.
pub fn low_byte_first(words: &[u64]) -> Vec<u8> {
    let byte = |word: u64, number: u32| (word / 256_u64.pow(number) % 256) as u8;
    let bytes = words
        .iter()
        .map(|&word| [0, 1, 2, 3].map(|n| byte(word, n)));
    bytes.flatten().collect()
}

/// A word below p of any number of bits, so that about half are below 2^30.
pub fn of_any_width(random: &mut Random) -> u64 {
    let any = random.word();
    (any >> (random.word() % 64)) % P
}

pub fn day_of_any_widths(random: &mut Random, k: usize) -> (Vec<u64>, [u64; 4]) {
    let mut taps: Vec<u64> = (0..12 * k + 4).map(|_| of_any_width(random)).collect();
    taps[5..9].copy_from_slice(&[P - 1, (1 << 30) - 1, 1 << 30, 0]);
    (taps, std::array::from_fn(|_| of_any_width(random)))
}

/// Words of kinds 1 and 2 that are empty.
pub const EMPTY: [u8; 8] = [0, 0, 0, 0x40, 0, 0, 0, 0x80];

/// The short file of a full one: with the mark, less the pairs of words of kinds 1 and 2
/// that are empty both.
pub fn less_empty_words(full: &[u8]) -> Vec<u8> {
    let mut short = full[..4].to_vec();
    short[3] += 0x20;
    for element in full[4..].chunks(12) {
        let from = if element.starts_with(&EMPTY) { 8 } else { 0 };
        short.extend(&element[from..]);
    }
    short
}

/// Back: a word of kind 3 that follows none of kind 2 gets them again.
pub fn with_empty_words(short: &[u8]) -> Vec<u8> {
    let mut full = short[..4].to_vec();
    full[3] -= 0x20;
    for pair in short.chunks(4).collect::<Vec<_>>().windows(2) {
        if pair[1][3] / 64 == 3 && pair[0][3] / 64 != 2 {
            full.extend(&EMPTY);
        }
        full.extend(pair[1]);
    }
    full
}

/// The full file of a day.
pub fn full_file(taps: &[u64], claim: [u64; 4]) -> Vec<u8> {
    let mut file = vec![7; 12 * taps.len() + 52];
    pack(taps, claim, &mut file).expect("packs");
    file
}

/// Its short file.
pub fn short_file(taps: &[u64], claim: [u64; 4]) -> Vec<u8> {
    let mut file = vec![7; 12 * taps.len() + 52 - 8 * small_elements(taps, claim)];
    pack_short(taps, claim, &mut file).expect("packs");
    file
}

pub fn small_elements(taps: &[u64], claim: [u64; 4]) -> usize {
    let elements = claim.iter().chain(taps);
    elements.filter(|&&element| element < 1 << 30).count()
}

/// The file with each of its bits changed.
pub fn changed_bits(file: &[u8]) -> impl Iterator<Item = Vec<u8>> + '_ {
    (0..8 * file.len()).map(|bit| {
        let mut other = file.to_vec();
        other[bit / 8] ^= 1 << (bit % 8);
        other
    })
}

/// The file with each of its words left out, and with each word twice.
pub fn changed_words(file: &[u8]) -> Vec<Vec<u8>> {
    let words = file.chunks(4).enumerate();
    words
        .flat_map(|(number, word)| {
            let (before, from) = file.split_at(4 * number);
            [[before, &from[4..]].concat(), [before, word, from].concat()]
        })
        .collect()
}

/// Room for as many taps as bits 0 to 19 of word 0 say, so that a reader has no 8 to
/// give: the full one comes to a 14 before where bits 16 to 19 are set. Zeros, which take
/// no memory before they are written.
pub fn room_for_taps(file: &[u8]) -> Vec<u64> {
    let k = match file {
        [low, high, upper, _, ..] => {
            usize::from(*low) + 256 * usize::from(*high) + 65536 * usize::from(*upper & 0xF)
        }
        _ => 0,
    };
    vec![0; 12 * k + 4]
}

/// Word 0 of a short file, in bytes.
pub fn short_head(k: usize) -> Vec<u8> {
    low_byte_first(&[(1 << 29) + k as u64])
}

/// The files of a day, the full one first.
pub fn both_editions(random: &mut Random, k: usize) -> [Vec<u8>; 2] {
    let (taps, claim) = day_of_any_widths(random, k);
    [full_file(&taps, claim), short_file(&taps, claim)]
}

/// A word of any kind and few bits or many, as it may stand in a file.
pub fn any_word(random: &mut Random) -> [u8; 4] {
    let payload = (random.word() as u32 & 0x3FFFFFFF) >> (random.word() % 31);
    (payload + ((random.word() as u32 % 4) << 30)).to_le_bytes()
}

/// A word put in place of another, before it or at the end, or the file cut.
pub fn damage(random: &mut Random, file: &mut Vec<u8>) {
    let word = any_word(random);
    let place = 4 * (random.word() as usize % (file.len() / 4).max(1));
    match random.word() % 8 {
        0 => file.truncate(random.word() as usize % (file.len() + 1)),
        1 => file.extend(word),
        2 => file.splice(..file.len().min(4), word).for_each(drop),
        3 => file.splice(place..place, word).for_each(drop),
        _ => {
            let end = file.len().min(place + 4);
            file.splice(place..end, word).for_each(drop);
        }
    }
}

/// The short file of zeros with these words in place of the element zero at `at`.
pub fn short_zeros_with(at: usize, element: &[u32]) -> Vec<u8> {
    let mut words = short_zero_words();
    words.splice(at..at + 1, element.iter().copied());
    bytes(&words)
}

/// What the short reader answers for a list of 16 words.
pub fn read_short(file: &[u8]) -> Result<[u64; 4], Refusal> {
    unpack_short(file, &mut [7; 16])
}

/// The full file of zeros with these words in place of the element zero at `at`.
pub fn full_zeros_with(at: usize, element: [u32; 3]) -> Vec<u8> {
    let mut words = zero_words();
    words[at..at + 3].copy_from_slice(&element);
    bytes(&words)
}

/// A file with another word 0.
pub fn with_head(head: u32, file: &[u8]) -> Vec<u8> {
    [&head.to_le_bytes(), &file[4..]].concat()
}
