//! What the tests share: document 01's tables and a small generator.
#![allow(dead_code)] // each test file uses its own part

pub mod algorithm;
pub mod faults;
pub mod files;

use second::field::P;
use second::Refusal;

/// Z: M identity, K zero.
pub fn z_raw() -> Vec<u64> {
    let mut raw = vec![0; 396];
    for i in 0..12 {
        raw[12 * i + i] = 1;
    }
    raw
}

/// A: Z with K_0[0] = 1.
pub fn a_raw() -> Vec<u64> {
    let mut raw = z_raw();
    raw[144] = 1;
    raw
}

/// S: M[i,j] = 1 when j = (i + 11) mod 12, else 0; K zero.
pub fn s_raw() -> Vec<u64> {
    let mut raw = vec![0; 396];
    for i in 0..12 {
        raw[12 * i + (i + 11) % 12] = 1;
    }
    raw
}

pub fn prepared(raw: &[u64]) -> Vec<u64> {
    let mut table = vec![7; 540];
    assert_eq!(second::prepare(raw, &mut table), Ok(()));
    table
}

pub fn z() -> Vec<u64> {
    prepared(&z_raw())
}

pub fn a() -> Vec<u64> {
    prepared(&a_raw())
}

pub fn s() -> Vec<u64> {
    prepared(&s_raw())
}

/// Row, constraint and count of refusal 11.
pub fn failed_at(answer: Result<u64, Refusal>) -> (u64, u64, u64) {
    match answer {
        Err(Refusal::Constraint {
            row,
            constraint,
            tests,
        }) => (row, constraint, tests),
        other => panic!("not a failed constraint: {other:?}"),
    }
}

/// splitmix64 from a fixed seed.
pub struct Random(pub u64);

impl Random {
    pub fn word(&mut self) -> u64 {
        self.0 = self.0.wrapping_add(0x9e3779b97f4a7c15);
        let mut x = self.0;
        x = (x ^ (x >> 30)).wrapping_mul(0xbf58476d1ce4e5b9);
        x = (x ^ (x >> 27)).wrapping_mul(0x94d049bb133111eb);
        x ^ (x >> 31)
    }

    pub fn canonical(&mut self) -> u64 {
        self.word() % P
    }

    pub fn canonicals(&mut self, count: usize) -> Vec<u64> {
        (0..count).map(|_| self.canonical()).collect()
    }
}

/// The standard input of the program: a raw table, then a board file.
pub fn input(raw: &[u64], file: &[u8]) -> Vec<u8> {
    let mut bytes: Vec<u8> = raw.iter().flat_map(|word| word.to_le_bytes()).collect();
    bytes.extend(file);
    bytes
}

/// The 244-byte file of zeros, in document 01's own words.
pub fn zero_words() -> Vec<u32> {
    let mut words: Vec<u32> = vec![0x00000001];
    for _ in 0..20 {
        words.extend([0x40000000, 0x80000000, 0xC0000000]);
    }
    words
}

pub fn zero_file() -> Vec<u8> {
    bytes(&zero_words())
}

/// The same day in the short edition, one word for each zero: 84 bytes.
pub fn short_zero_words() -> Vec<u32> {
    let mut words = vec![0x20000001];
    words.extend([0xC0000000; 20]);
    words
}

/// Bytes of 32-bit words.
pub fn bytes(words: &[u32]) -> Vec<u8> {
    words.iter().flat_map(|word| word.to_le_bytes()).collect()
}

/// Every permitted k: 1 to 2^18 = 262144.
pub fn permitted() -> impl Iterator<Item = usize> {
    (0..=18).map(|exponent| 1 << exponent)
}

/// Those of the full edition: 1 to 1024.
pub const IN_FULL: [usize; 11] = [1, 2, 4, 8, 16, 32, 64, 128, 256, 512, 1024];

/// Those that it does not have.
pub const LARGER: [usize; 8] = [2048, 4096, 8192, 16384, 32768, 65536, 131072, 262144];

/// Numbers around the limits that are no permitted k; the last but one is 2^19.
pub const NOT_PERMITTED: [usize; 18] = [
    0,
    3,
    5,
    6,
    1023,
    1025,
    1536,
    2047,
    2049,
    65535,
    65537,
    3 << 16,
    (1 << 18) - 1,
    (1 << 18) + 1,
    3 << 17,
    (1 << 19) - 1,
    1 << 19,
    (1 << 19) + 1,
];

/// A converter takes a file and a destination.
pub type Converter = fn(&[u8], &mut [u8]) -> Result<(), Refusal>;

/// What a converter writes into a destination of this length. A refused call writes
/// nothing; the destination holds bytes that differ from their neighbours before.
pub fn converted(convert: Converter, file: &[u8], length: usize) -> Result<Vec<u8>, Refusal> {
    let before: Vec<u8> = (0..length).map(|byte| (7 * byte + 5) as u8).collect();
    let mut destination = before.clone();
    let answer = convert(file, &mut destination);
    let untouched = destination == before;
    assert!(untouched || answer.is_ok(), "written by a refused call");
    answer.map(|()| destination)
}
