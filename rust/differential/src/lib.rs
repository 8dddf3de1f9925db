//! What the comparisons share: seeds, guarded buffers, one enum of refusals for
//! both implementations, and board files with something wrong.

pub mod calls;
pub mod files;

use std::collections::BTreeSet;
use std::ops::{Deref, DerefMut};

/// The first seed. Each further round adds one.
pub const SEED: u64 = 20261115;

/// The seeds of this run, printed. `LEMONCOLUMN_ROUNDS` says how many rounds.
pub fn seeds(test: &str) -> impl Iterator<Item = u64> {
    let rounds = std::env::var("LEMONCOLUMN_ROUNDS").map_or(1, |rounds| {
        rounds.parse().expect("LEMONCOLUMN_ROUNDS is a number")
    });
    assert!(
        rounds > 0,
        "LEMONCOLUMN_ROUNDS is 0: nothing would be tested"
    );
    println!("{test}: seeds {SEED} to {}", SEED + rounds - 1);
    SEED..SEED + rounds
}

/// Some c for k batches: 1, one past the middle, which is no power of two from k = 4
/// on, k - 1 and k.
pub fn some_cs(k: usize) -> BTreeSet<usize> {
    let some = BTreeSet::from([1, k / 2 + 1, k - 1, k]);
    some.into_iter().filter(|c| (1..=k).contains(c)).collect()
}

/// Fewer of them above 64 batches, where the second implementation takes long.
pub fn few_cs(k: usize) -> BTreeSet<usize> {
    match k {
        0..=64 => some_cs(k),
        _ => BTreeSet::from([k / 2 + 1, k]),
    }
}

/// Elements on either side of a lent buffer.
const GUARD: usize = 16;

/// A buffer that is lent, between guards that no call may touch.
pub struct Lent<T> {
    all: Vec<T>,
    before: Vec<T>,
}

impl<T: Copy + PartialEq> Lent<T> {
    /// `length` elements of a pattern; `make` is given the index.
    pub fn new(length: usize, make: impl Fn(usize) -> T) -> Lent<T> {
        let all: Vec<T> = (0..length + 2 * GUARD).map(make).collect();
        let before = all.clone();
        Lent { all, before }
    }

    /// Whether nothing has changed since, guards included.
    pub fn is_untouched(&self) -> bool {
        self.all == self.before
    }

    /// Whether the guards are as they were.
    pub fn is_guarded(&self) -> bool {
        let end = self.all.len() - GUARD;
        self.all[..GUARD] == self.before[..GUARD] && self.all[end..] == self.before[end..]
    }
}

impl<T> Deref for Lent<T> {
    type Target = [T];
    fn deref(&self) -> &[T] {
        &self.all[GUARD..self.all.len() - GUARD]
    }
}

impl<T> DerefMut for Lent<T> {
    fn deref_mut(&mut self) -> &mut [T] {
        let end = self.all.len() - GUARD;
        &mut self.all[GUARD..end]
    }
}

/// A buffer of words, each of a pattern of its own, half of them not canonical.
pub fn words(length: usize) -> Lent<u64> {
    Lent::new(length, |i| {
        0x9e37_79b9_7f4a_7c15_u64.wrapping_mul(i as u64 + 1)
    })
}

/// A buffer that holds these words.
pub fn holding(content: &[u64]) -> Lent<u64> {
    let mut lent = words(content.len());
    lent.copy_from_slice(content);
    lent.before.clone_from(&lent.all);
    lent
}

/// A buffer of bytes.
pub fn bytes(length: usize) -> Lent<u8> {
    Lent::new(length, |i| (i * 167 + 13) as u8)
}

/// The proved library's refusal, as the second implementation names it.
pub fn named(refusal: lemoncolumn::Refusal) -> second::Refusal {
    use lemoncolumn::Refusal as Proved;
    use second::Refusal as Second;
    match refusal {
        Proved::TableLength => Second::TableLength,
        Proved::TableWord { index } => Second::TableWord { index },
        Proved::NoInverse => Second::NoInverse,
        Proved::WrongInverse { cell } => Second::InverseCell { cell },
        Proved::TapLength => Second::TapLength,
        Proved::TapWord { index } => Second::TapWord { index },
        Proved::TraceLength => Second::TraceLength,
        Proved::DestinationLength => Second::DestinationLength,
        Proved::ClaimWord { index } => Second::ClaimWord { index },
        Proved::TraceWord { index } => Second::TraceWord { index },
        Proved::Constraint {
            row,
            constraint,
            tests,
        } => Second::Constraint {
            row,
            constraint,
            tests,
        },
        Proved::FileLength => Second::FileLength,
        Proved::WrongKind { word } => Second::Kind { word },
        Proved::WrongValue { word } => Second::Value { word },
        Proved::NoSuchTap => Second::NoSuchTap,
        Proved::NoPair => Second::NoPair,
        Proved::ClaimBatches => Second::ClaimBatches,
        Proved::LongElement { word } => Second::LongElement { word },
        Proved::SameEdition => Second::SameEdition,
    }
}

/// The proved library answers what `second` does, or what a case was made for; in
/// refusal 11 with the same count too (document 02, U4).
pub fn same_verdict<T: PartialEq + std::fmt::Debug>(
    proved: Result<T, lemoncolumn::Refusal>,
    expected: Result<T, second::Refusal>,
    about: &str,
) {
    assert_eq!(proved.map_err(named), expected, "{about}");
}
