//! A case for each operation: its name, what is lent, and the refusal that
//! must come, or none. A destination is lent with the length given.

use crate::random::Random;
use second::Refusal;

#[derive(Clone, Debug)]
pub struct PrepareCase {
    pub name: String,
    pub raw: Vec<u64>,
    pub destination: usize,
    pub refusal: Option<Refusal>,
    /// The 540 words to be written when nothing is refused.
    pub prepared: Vec<u64>,
}

#[derive(Clone, Debug)]
pub struct HashCase {
    pub name: String,
    pub table: Vec<u64>,
    pub words: [u64; 8],
    pub refusal: Option<Refusal>,
}

#[derive(Clone, Debug)]
pub struct ChainCase {
    pub name: String,
    pub table: Vec<u64>,
    pub taps: Vec<u64>,
    pub refusal: Option<Refusal>,
}

#[derive(Clone, Debug)]
pub struct BuildCase {
    pub name: String,
    pub table: Vec<u64>,
    pub taps: Vec<u64>,
    pub destination: usize,
    pub refusal: Option<Refusal>,
}

#[derive(Clone, Debug)]
pub struct CheckCase {
    pub name: String,
    pub table: Vec<u64>,
    pub trace: Vec<u64>,
    pub claim: [u64; 4],
    pub c: usize,
    /// For 11 the tests are the failing test's place in the order.
    pub refusal: Option<Refusal>,
}

#[derive(Clone, Debug)]
pub struct ReadOffCase {
    pub name: String,
    pub table: Vec<u64>,
    pub trace: Vec<u64>,
    pub claim: [u64; 4],
    pub c: usize,
    pub destination: usize,
    /// For 11 the tests are the failing test's place in the order.
    pub refusal: Option<Refusal>,
    /// The list to be written when nothing is refused.
    pub taps: Vec<u64>,
}

#[derive(Clone, Debug)]
pub struct EditCase {
    pub name: String,
    pub table: Vec<u64>,
    pub trace: Vec<u64>,
    pub claim: [u64; 4],
    pub c: usize,
    pub tap: usize,
    pub new: [u64; 4],
    /// For 11 the tests are the failing test's place in the order.
    pub refusal: Option<Refusal>,
    /// What is to be left in the trace and returned when nothing is refused.
    pub altered: Vec<u64>,
    pub output: [u64; 4],
}

#[derive(Clone, Debug)]
pub struct UnhashCase {
    pub name: String,
    pub table: Vec<u64>,
    pub state: [u64; 12],
    pub refusal: Option<Refusal>,
    /// The two taps to be returned when nothing is refused.
    pub pair: [u64; 8],
}

/// For either edition of the file.
#[derive(Clone, Debug)]
pub struct PackCase {
    pub name: String,
    pub taps: Vec<u64>,
    pub claim: [u64; 4],
    pub destination: usize,
    pub refusal: Option<Refusal>,
    /// The bytes to be written when nothing is refused.
    pub file: Vec<u8>,
}

/// For either edition of the file.
#[derive(Clone, Debug)]
pub struct UnpackCase {
    pub name: String,
    pub file: Vec<u8>,
    pub destination: usize,
    pub refusal: Option<Refusal>,
    /// What is to be returned and written when nothing is refused.
    pub claim: [u64; 4],
    pub taps: Vec<u64>,
}

/// For either converter.
#[derive(Clone, Debug)]
pub struct ConvertCase {
    pub name: String,
    pub file: Vec<u8>,
    pub destination: usize,
    pub refusal: Option<Refusal>,
    /// The bytes to be written when nothing is refused, and what is in both files.
    pub converted: Vec<u8>,
    pub claim: [u64; 4],
    pub taps: Vec<u64>,
}

#[derive(Clone, Debug)]
pub struct ClearCase {
    pub name: String,
    pub input: Vec<u8>,
    /// The line to be printed, with its end.
    pub line: String,
}

/// 2 at this index.
pub fn table_word(index: usize) -> Refusal {
    let index = index as u64;
    Refusal::TableWord { index }
}

/// 6 at this index.
pub fn tap_word(index: usize) -> Refusal {
    let index = index as u64;
    Refusal::TapWord { index }
}

/// 9 at this index.
pub fn claim_word(index: usize) -> Refusal {
    let index = index as u64;
    Refusal::ClaimWord { index }
}

/// 10 at this index.
pub fn trace_word(index: usize) -> Refusal {
    let index = index as u64;
    Refusal::TraceWord { index }
}

/// Which of N things are damaged in case `number`: of eight cases two are
/// honest, four have one thing damaged, each in turn, and two have any of them.
pub fn damage<const N: usize>(random: &mut Random, number: usize) -> [bool; N] {
    let turn = number / 8 * 4 + number % 8;
    match number % 8 {
        0..=3 => std::array::from_fn(|thing| thing == turn % N),
        4 | 5 => std::array::from_fn(|_| random.one_in(2)),
        _ => [false; N],
    }
}

/// The first refusal in the order of the call.
pub fn first_of(order: &[Option<Refusal>]) -> Option<Refusal> {
    order.iter().flatten().next().copied()
}

/// A length other than the exact one.
pub fn other_length(random: &mut Random, exact: usize) -> usize {
    random.pick(&[0, 1, exact - 1, exact + 1, exact / 2, 2 * exact])
}

/// A destination as lent: its length, and the refusal.
pub fn lent_destination(
    random: &mut Random,
    exact: usize,
    damaged: bool,
) -> (usize, Option<Refusal>) {
    if damaged {
        let other = other_length(random, exact);
        (other, Some(Refusal::DestinationLength))
    } else {
        (exact, None)
    }
}

/// A claim as lent: its words, and the refusal.
pub fn lent_claim(
    random: &mut Random,
    claim: [u64; 4],
    damaged: bool,
) -> ([u64; 4], Option<Refusal>) {
    let mut lent = claim;
    if !damaged {
        return (lent, None);
    }
    let index = random.spoil(&mut lent);
    (lent, Some(claim_word(index)))
}

/// Numbers that are no c: 0, and above k the next ones, counts of taps and of rows, and
/// some that are small again in 32 bits, or in 64 once they are multiplied by 3, 4, 12,
/// 32, 372 or 384.
pub fn no_c(k: usize) -> [usize; 15] {
    [
        0,
        k + 1,
        k + 2,
        2 * k,
        3 * k + 1,
        32 * k,
        1 << 32,
        (1 << 32) + 1,
        (1 << 57) + 1,
        (1 << 59) + 1,
        (1 << 62) + 1,
        1 << 63,
        usize::MAX / 3 + 1,
        usize::MAX - 1,
        usize::MAX,
    ]
}

/// c as lent, and the refusal.
pub fn lent_c(random: &mut Random, k: usize, c: usize, damaged: bool) -> (usize, Option<Refusal>) {
    if damaged {
        (random.pick(&no_c(k)), Some(Refusal::ClaimBatches))
    } else {
        (c, None)
    }
}

/// Joins the names of the parts of a case, leaving out the empty ones.
pub fn join(parts: &[&str]) -> String {
    let named: Vec<&str> = parts
        .iter()
        .filter(|part| !part.is_empty())
        .copied()
        .collect();
    named.join(", ")
}
