//! The refusals (document 01, "What is turned back"; document 02).

/// One case for each cause, in the order of their numbers, with the values that
/// document 01's column "Returned" names. Those of document 02 stand alone where
/// it names none.
#[derive(Clone, Copy, Debug, PartialEq, Eq)]
pub enum Refusal {
    /// 1: the table is not 396 words raw, or 540 prepared.
    TableLength,
    /// 2: a table word is not canonical; the lowest index.
    TableWord { index: u64 },
    /// 3: M has no inverse.
    NoInverse,
    /// 4: M times the stored inverse is unlike the identity; 12 x row + column
    /// of the first such cell.
    InverseCell { cell: u64 },
    /// 5: the tap list is not 12k + 4 words with k permitted, or for a full file with k
    /// above 1024 (document 02, U9).
    TapLength,
    /// 6: a tap word, or a cell lent to Unhash, is not canonical; the lowest index.
    TapWord { index: u64 },
    /// 7: the trace is not 384k words with k permitted.
    TraceLength,
    /// 8: the destination has not the exact length.
    DestinationLength,
    /// 9: a claim word is not canonical; the lowest index.
    ClaimWord { index: u64 },
    /// 10: a trace word is not canonical; the lowest index.
    TraceWord { index: u64 },
    /// 11: a constraint fails; the row in the whole trace, the constraint, and
    /// the tests up to the failing one, which are its place in the order, counted
    /// from 1 (document 02, U4).
    Constraint {
        row: u64,
        constraint: u64,
        tests: u64,
    },
    /// 12: the file is below 4 bytes, or not 144k + 100; a short one ends before its
    /// last element is whole, or goes on after it.
    FileLength,
    /// 13: a file word has the wrong kind; its index in 32-bit words.
    Kind { word: u64 },
    /// 14: spare bits, a file of the other edition, a k not permitted or too large for a
    /// full file (index 0), or an element that is not canonical (its first word).
    Value { word: u64 },
    /// 15: the tap number is above 3k.
    NoSuchTap,
    /// 16: no pair of taps ends in that state.
    NoPair,
    /// 17: c is 0 or above k.
    ClaimBatches,
    /// 18: an element below 2^30 has three words in a short file; its first word.
    LongElement { word: u64 },
    /// 19: the file to convert is already in the wanted edition.
    SameEdition,
}

impl Refusal {
    /// The number of the cause.
    pub fn number(self) -> u64 {
        match self {
            Refusal::TableLength => 1,
            Refusal::TableWord { .. } => 2,
            Refusal::NoInverse => 3,
            Refusal::InverseCell { .. } => 4,
            Refusal::TapLength => 5,
            Refusal::TapWord { .. } => 6,
            Refusal::TraceLength => 7,
            Refusal::DestinationLength => 8,
            Refusal::ClaimWord { .. } => 9,
            Refusal::TraceWord { .. } => 10,
            Refusal::Constraint { .. } => 11,
            Refusal::FileLength => 12,
            Refusal::Kind { .. } => 13,
            Refusal::Value { .. } => 14,
            Refusal::NoSuchTap => 15,
            Refusal::NoPair => 16,
            Refusal::ClaimBatches => 17,
            Refusal::LongElement { .. } => 18,
            Refusal::SameEdition => 19,
        }
    }

    /// The place, as the program prints it: nothing, one index, or row and
    /// constraint for 11.
    pub fn place(self) -> Vec<u64> {
        match self {
            Refusal::TableLength
            | Refusal::NoInverse
            | Refusal::TapLength
            | Refusal::TraceLength
            | Refusal::DestinationLength
            | Refusal::FileLength
            | Refusal::NoSuchTap
            | Refusal::NoPair
            | Refusal::ClaimBatches
            | Refusal::SameEdition => vec![],
            Refusal::TableWord { index }
            | Refusal::TapWord { index }
            | Refusal::ClaimWord { index }
            | Refusal::TraceWord { index } => vec![index],
            Refusal::InverseCell { cell } => vec![cell],
            Refusal::Kind { word } | Refusal::Value { word } | Refusal::LongElement { word } => {
                vec![word]
            }
            Refusal::Constraint {
                row, constraint, ..
            } => vec![row, constraint],
        }
    }
}
