//! The program (document 01, "The board file", from "The program reads").

use crate::board::{file_bytes, unpack};
use crate::constraints::check;
use crate::hash::{is_permitted, list_words};
use crate::refusal::Refusal;
use crate::table::{prepare, PREPARED, RAW};
use crate::trace::{build, trace_words};

/// Bytes of the raw table.
pub const TABLE_BYTES: usize = 8 * RAW;
/// The largest k the program takes.
pub const PROGRAM_K: usize = 16;

/// The one line that the program prints for this standard input.
pub fn clear(input: &[u8]) -> String {
    if input.len() < TABLE_BYTES {
        return refused(Refusal::TableLength);
    }
    if input.len() > TABLE_BYTES + file_bytes(PROGRAM_K) {
        return String::from("too long\n");
    }
    match run(input) {
        Ok((k, tests)) => format!("accepted {k} {tests}\n"),
        Err(refusal) => refused(refusal),
    }
}

/// Prepares, unpacks, builds and checks against the claim; answers k and tests.
fn run(input: &[u8]) -> Result<(usize, u64), Refusal> {
    let (table, file) = input.split_at(TABLE_BYTES);
    let raw: Vec<u64> = table
        .chunks(8)
        .map(|bytes| u64::from_le_bytes(bytes.try_into().expect("eight bytes")))
        .collect();
    let mut table = vec![0; PREPARED];
    prepare(&raw, &mut table)?;
    // A file of another length is refused before its destination is looked at.
    let k = (1..=PROGRAM_K)
        .find(|&k| is_permitted(k) && file_bytes(k) == file.len())
        .unwrap_or(0);
    let mut taps = vec![0; list_words(k)];
    let claim = unpack(file, &mut taps)?;
    let mut trace = vec![0; trace_words(k)];
    build(&table, &taps, &mut trace)?;
    // A board file's claim is about all of its taps: c = k.
    Ok((k, check(&table, &trace, claim, k)?))
}

/// `refused`, the number, then the place if there is one.
fn refused(refusal: Refusal) -> String {
    let mut line = format!("refused {}", refusal.number());
    for value in refusal.place() {
        line += &format!(" {value}");
    }
    line + "\n"
}
