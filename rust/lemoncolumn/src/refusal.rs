//! The refusals (document 01, "What is turned back"; document 02), read out of
//! the number that a call returns (crates/call_results/specs/Code.antt).

use std::fmt;

/// Why a call was refused, with what is returned beside the number.
#[derive(Clone, Copy, Debug, PartialEq, Eq)]
pub enum Refusal {
    /// 1: the table is not 396 words raw, or 540 prepared.
    TableLength,
    /// 2: a table word is not canonical; the lowest index.
    TableWord { index: u64 },
    /// 3: M has no inverse.
    NoInverse,
    /// 4: M times the stored inverse is unlike the identity; 12 × row + column
    /// of the first such cell.
    WrongInverse { cell: u64 },
    /// 5: the tap list is not 12k + 4 words with k permitted; for a full file, k up to
    /// [`crate::MOST_FILE_BATCHES`].
    TapLength,
    /// 6: a tap word, or a cell lent to [`crate::unhash`], is not canonical; the
    /// lowest index.
    TapWord { index: u64 },
    /// 7: the trace is not 384k words with k permitted.
    TraceLength,
    /// 8: a destination has not the exact length.
    DestinationLength,
    /// 9: a claim word is not canonical; the lowest index.
    ClaimWord { index: u64 },
    /// 10: a trace word is not canonical; the lowest index.
    TraceWord { index: u64 },
    /// 11: a constraint fails; the row in the whole trace, the constraint, and
    /// the tests walked, this one included: its place in the order of the tests,
    /// counted from 1. All tests before it hold.
    Constraint {
        row: u64,
        constraint: u64,
        tests: u64,
    },
    /// 12: the file is below 4 bytes, or not 144k + 100; a short one ends before its
    /// last element is whole, or goes on after it.
    FileLength,
    /// 13: a file word has the wrong kind; its index in 32-bit words.
    WrongKind { word: u64 },
    /// 14: spare bits, a file of the other edition, a k not permitted, or one above
    /// [`crate::MOST_FILE_BATCHES`] in or for a full file (index 0), or an element that
    /// is not canonical (its first word).
    WrongValue { word: u64 },
    /// 15: the tap number is above 3k.
    NoSuchTap,
    /// 16: no pair of taps ends in that state.
    NoPair,
    /// 17: c is 0 or above k.
    ClaimBatches,
    /// 18: an element below 2^30 has three words in a short file; its first word.
    LongElement { word: u64 },
    /// 19: the file to convert is already in the wanted edition.
    SameEdition,
}

/// Reads the number that a call returns: the tests walked, 0 for a call that
/// has none, or the refusal. Bits 0 to 5 are the refusal's number, bits 6 to 11
/// the constraint, bits 12 to 35 the row, bits 36 to 63 the index, or the tests,
/// which for refusal 11 are the failing test's place.
///
/// # Panics
///
/// Where bits 0 to 5 are above 19, as in no number that a call returns.
pub fn decode(code: u64) -> Result<u64, Refusal> {
    let constraint = code >> 6 & 0x3f;
    let row = code >> 12 & 0xff_ffff;
    let value = code >> 36;
    Err(match code & 0x3f {
        0 => return Ok(value),
        1 => Refusal::TableLength,
        2 => Refusal::TableWord { index: value },
        3 => Refusal::NoInverse,
        4 => Refusal::WrongInverse { cell: value },
        5 => Refusal::TapLength,
        6 => Refusal::TapWord { index: value },
        7 => Refusal::TraceLength,
        8 => Refusal::DestinationLength,
        9 => Refusal::ClaimWord { index: value },
        10 => Refusal::TraceWord { index: value },
        11 => Refusal::Constraint {
            row,
            constraint,
            tests: value,
        },
        12 => Refusal::FileLength,
        13 => Refusal::WrongKind { word: value },
        14 => Refusal::WrongValue { word: value },
        15 => Refusal::NoSuchTap,
        16 => Refusal::NoPair,
        17 => Refusal::ClaimBatches,
        18 => Refusal::LongElement { word: value },
        19 => Refusal::SameEdition,
        _ => unreachable!("no refusal has this number"),
    })
}

/// Acceptance, or the refusal.
pub(crate) fn accepted(code: u64) -> Result<(), Refusal> {
    decode(code).map(|_| ())
}

impl Refusal {
    /// Its number in document 01 or 02.
    pub fn number(self) -> u64 {
        match self {
            Refusal::TableLength => 1,
            Refusal::TableWord { .. } => 2,
            Refusal::NoInverse => 3,
            Refusal::WrongInverse { .. } => 4,
            Refusal::TapLength => 5,
            Refusal::TapWord { .. } => 6,
            Refusal::TraceLength => 7,
            Refusal::DestinationLength => 8,
            Refusal::ClaimWord { .. } => 9,
            Refusal::TraceWord { .. } => 10,
            Refusal::Constraint { .. } => 11,
            Refusal::FileLength => 12,
            Refusal::WrongKind { .. } => 13,
            Refusal::WrongValue { .. } => 14,
            Refusal::NoSuchTap => 15,
            Refusal::NoPair => 16,
            Refusal::ClaimBatches => 17,
            Refusal::LongElement { .. } => 18,
            Refusal::SameEdition => 19,
        }
    }

    /// The index or cell that is returned beside the number, if one is: for 2, 4,
    /// 6, 9, 10, 13, 14 and 18.
    pub fn index(self) -> Option<u64> {
        match self {
            Refusal::TableWord { index }
            | Refusal::TapWord { index }
            | Refusal::ClaimWord { index }
            | Refusal::TraceWord { index } => Some(index),
            Refusal::WrongInverse { cell } => Some(cell),
            Refusal::WrongKind { word }
            | Refusal::WrongValue { word }
            | Refusal::LongElement { word } => Some(word),
            Refusal::TableLength
            | Refusal::NoInverse
            | Refusal::TapLength
            | Refusal::TraceLength
            | Refusal::DestinationLength
            | Refusal::Constraint { .. }
            | Refusal::FileLength
            | Refusal::NoSuchTap
            | Refusal::NoPair
            | Refusal::ClaimBatches
            | Refusal::SameEdition => None,
        }
    }
}

/// The number, then the place if there is one, as the program prints them.
impl fmt::Display for Refusal {
    fn fmt(&self, out: &mut fmt::Formatter<'_>) -> fmt::Result {
        write!(out, "refused {}", self.number())?;
        if let Refusal::Constraint {
            row, constraint, ..
        } = self
        {
            write!(out, " {row} {constraint}")?;
        }
        self.index().map_or(Ok(()), |index| write!(out, " {index}"))
    }
}

impl std::error::Error for Refusal {}
