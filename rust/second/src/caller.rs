//! What a caller of the library works out by itself: what the word that a call returns
//! says (docs/DECISIONS.md, 22), and k and length of a file before it is lent (document
//! 01, "The board file"; document 02, U7, U8 and U9).

use crate::board::{file_bytes, read_payload, read_word, test_full_k, MOST_FULL_BATCHES};
use crate::hash::{is_permitted, list_words, TAP};
use crate::refusal::Refusal;
use crate::short::test_short_head;

/// The parts of a returned word: bits 0 to 5 are the refusal's number, 6 to 11 the
/// constraint, 12 to 35 the row, 36 to 63 the index or the tests.
#[derive(Clone, Copy, Debug, PartialEq, Eq)]
pub struct Parts {
    pub number: u64,
    pub constraint: u64,
    pub row: u64,
    pub value: u64,
}

impl Parts {
    /// The parts of this word, by division.
    pub fn of(word: u64) -> Parts {
        let (rest, number) = (word / 64, word % 64);
        let (rest, constraint) = (rest / 64, rest % 64);
        let (value, row) = (rest / 16777216, rest % 16777216);
        Parts {
            number,
            constraint,
            row,
            value,
        }
    }

    /// What they say: acceptance, with the tests where the call counts them, or a
    /// refusal. Nothing where no refusal has the number.
    pub fn answer(self) -> Option<Result<u64, Refusal>> {
        if self.number == 0 {
            return Some(Ok(self.value));
        }
        let refusals = self.refusals().into_iter();
        let mut named = refusals.filter(|refusal| refusal.number() == self.number);
        named.next().map(Err)
    }

    /// Every refusal, with what these parts would say of it.
    fn refusals(self) -> [Refusal; 19] {
        let (index, word, cell) = (self.value, self.value, self.value);
        [
            Refusal::TableLength,
            Refusal::TableWord { index },
            Refusal::NoInverse,
            Refusal::InverseCell { cell },
            Refusal::TapLength,
            Refusal::TapWord { index },
            Refusal::TraceLength,
            Refusal::DestinationLength,
            Refusal::ClaimWord { index },
            Refusal::TraceWord { index },
            Refusal::Constraint {
                row: self.row,
                constraint: self.constraint,
                tests: self.value,
            },
            Refusal::FileLength,
            Refusal::Kind { word },
            Refusal::Value { word },
            Refusal::NoSuchTap,
            Refusal::NoPair,
            Refusal::ClaimBatches,
            Refusal::LongElement { word },
            Refusal::SameEdition,
        ]
    }
}

/// Bytes of the short file of k batches whose elements are all below 2^30: word 0, and
/// one word for each.
pub fn shortest_file_bytes(k: usize) -> usize {
    4 * (1 + TAP + list_words(k))
}

/// The k of a full file of this length, if there is one.
pub fn batches(bytes: usize) -> Option<usize> {
    (1..=MOST_FULL_BATCHES).find(|&k| is_permitted(k) && file_bytes(k) == bytes)
}

/// The k in word 0, where these bytes begin as a short file does.
pub fn short_batches(file: &[u8]) -> Option<usize> {
    let head = read_payload(file, 0, 0).ok()?;
    test_short_head(head).ok()
}

/// Bytes of the short file of a full one, by the payloads of its words, whatever their
/// kinds: 8 more than the shortest for each element from 2^30 on. Nothing where no full
/// file has this length.
pub fn to_short_bytes(file: &[u8]) -> Option<usize> {
    let k = batches(file.len())?;
    let elements = 0..TAP + list_words(k);
    let large = elements.filter(|element| value(file, 1 + 3 * element) >= 1 << 30);
    Some(shortest_file_bytes(k) + 8 * large.count())
}

/// Bytes of the full file of a short one: those of its k, which may be too large for a
/// full file.
pub fn to_full_bytes(short_file: &[u8]) -> Option<usize> {
    let k = short_batches(short_file)?;
    test_full_k(k).ok().map(file_bytes)
}

/// The element in the payloads of three words, the first at `word`: the first times 2^60,
/// the second times 2^30, the third.
fn value(file: &[u8], word: usize) -> u128 {
    let payload = |word| {
        let whole = read_word(file, word).expect("a word of a whole file");
        u128::from(whole % (1 << 30))
    };
    (payload(word) << 60) + (payload(word + 1) << 30) + payload(word + 2)
}
