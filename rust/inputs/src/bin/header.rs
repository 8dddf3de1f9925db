//! Prints what tests/c/header.c must print, by the second implementation: the constants
//! of include/lemoncolumn.h, then a line for each question about it. What stands before
//! the colon is the question, and tests/header.sh asks it.

use inputs::caller::{counts, files, lists, words, SparseFile, SparseList};
use second::board::{file_bytes, read_word, MOST_FULL_BATCHES, PAYLOAD_BITS};
use second::caller::{short_batches, shortest_file_bytes, to_full_bytes, to_short_bytes, Parts};
use second::field::P;
use second::hash::{list_words, MOST_BATCHES, TAP};
use second::short::{short_file_bytes, MARK};
use second::table::{CELLS, PREPARED, RAW};
use second::trace::trace_words;
use second::Refusal;
use std::fmt::Display;

const SEED: u64 = 20261118;
/// How many of each kind are at random.
const RANDOM: usize = 2000;

/// 1, and one more since U3 and since U6 (docs/DECISIONS.md, 29).
const INTERFACE: u64 = 3;

/// The names of the refusals in C.
const REFUSALS: [(&str, Refusal); 19] = [
    ("TABLE_LENGTH", Refusal::TableLength),
    ("TABLE_WORD", Refusal::TableWord { index: 0 }),
    ("NO_INVERSE", Refusal::NoInverse),
    ("WRONG_INVERSE", Refusal::InverseCell { cell: 0 }),
    ("TAP_LENGTH", Refusal::TapLength),
    ("TAP_WORD", Refusal::TapWord { index: 0 }),
    ("TRACE_LENGTH", Refusal::TraceLength),
    ("DESTINATION_LENGTH", Refusal::DestinationLength),
    ("CLAIM_WORD", Refusal::ClaimWord { index: 0 }),
    ("TRACE_WORD", Refusal::TraceWord { index: 0 }),
    (
        "CONSTRAINT",
        Refusal::Constraint {
            row: 0,
            constraint: 0,
            tests: 0,
        },
    ),
    ("FILE_LENGTH", Refusal::FileLength),
    ("WRONG_KIND", Refusal::Kind { word: 0 }),
    ("WRONG_VALUE", Refusal::Value { word: 0 }),
    ("NO_SUCH_TAP", Refusal::NoSuchTap),
    ("NO_PAIR", Refusal::NoPair),
    ("CLAIM_BATCHES", Refusal::ClaimBatches),
    ("LONG_ELEMENT", Refusal::LongElement { word: 0 }),
    ("SAME_EDITION", Refusal::SameEdition),
];

fn main() {
    let lines = [
        of_constants(),
        of_refusals(),
        of_words(),
        of_counts(),
        of_lists(),
        of_files(),
    ];
    print!("{}", lines.concat());
}

fn constant(name: &str, value: u64) -> String {
    format!("LEMONCOLUMN_{name} = {value}\n")
}

fn of_constants() -> String {
    let constants = [
        ("INTERFACE", INTERFACE),
        ("P", P),
        ("RAW_WORDS", RAW as u64),
        ("TABLE_WORDS", PREPARED as u64),
        ("DIGEST_WORDS", TAP as u64),
        ("STATE_WORDS", CELLS as u64),
        ("PAIR_WORDS", 2 * TAP as u64),
        ("MOST_BATCHES", MOST_BATCHES as u64),
        ("MOST_FILE_BATCHES", MOST_FULL_BATCHES as u64),
        ("ONE_WORD_BITS", PAYLOAD_BITS as u64),
        ("SHORT_MARK", MARK as u64),
    ];
    let lines = constants.map(|(name, value)| constant(name, value));
    lines.concat()
}

fn of_refusals() -> String {
    let lines = REFUSALS.map(|(name, refusal)| constant(name, refusal.number()));
    constant("ACCEPTED", 0) + &lines.concat()
}

fn of_words() -> String {
    let mut lines = String::new();
    for word in words(SEED, RANDOM) {
        let parts = Parts::of(word);
        let Parts {
            number,
            constraint,
            row,
            value,
        } = parts;
        // 11 has a row and a constraint in its place.
        let has_index = match parts.answer() {
            Some(Err(refusal)) => refusal.place().len() == 1,
            _ => false,
        };
        let has_index = u64::from(has_index);
        lines += &format!("word {word}: number {number}, constraint {constraint}, row {row}");
        lines += &format!(", index? {has_index} {value}, tests {value}\n");
    }
    lines
}

fn of_counts() -> String {
    let mut lines = String::new();
    for k in counts() {
        let (taps, trace) = (list_words(k), trace_words(k));
        let (file, shortest) = (file_bytes(k), shortest_file_bytes(k));
        lines += &format!("count {k}: taps {taps}, trace {trace}");
        lines += &format!(", file {file}, shortest {shortest}\n");
    }
    lines
}

fn of_lists() -> String {
    let mut lines = String::new();
    for list in lists(SEED, RANDOM) {
        let [a, b, c, d] = list.claim;
        let SparseList { length, fill, .. } = list;
        let others = others(&list.others);
        let bytes = short_file_bytes(&list.taps(), list.claim);
        lines += &format!("list {a} {b} {c} {d} {length} {fill}{others}: short file {bytes}\n");
    }
    lines
}

/// Where there is no k or no length, the header has 0.
fn of_files() -> String {
    let mut lines = String::new();
    for file in files(SEED, RANDOM) {
        let SparseFile { length, fill, .. } = file;
        let others = others(&file.others);
        let bytes = file.bytes();
        let word = read_word(&bytes, 0).unwrap_or(0);
        let k = short_batches(&bytes).unwrap_or(0);
        let to_short = to_short_bytes(&bytes).unwrap_or(0);
        let to_full = to_full_bytes(&bytes).unwrap_or(0);
        lines += &format!("file {length} {fill}{others}: word 0 {word}, k {k}");
        lines += &format!(", to short {to_short}, to full {to_full}\n");
    }
    lines
}

/// How many there are, then each place and word.
fn others<T: Display>(others: &[(usize, T)]) -> String {
    let pairs = others
        .iter()
        .map(|(place, word)| format!(" {place} {word}"));
    format!(" {}{}", others.len(), pairs.collect::<String>())
}
