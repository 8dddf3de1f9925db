//! What a caller of the library works with by itself (docs/DECISIONS.md, 22; document 01,
//! "The board file"; document 02, U7, U8 and U9): words that a call may return, counts of
//! batches, lists of taps with a claim, and files. What is to be worked out of them is
//! for the implementations to say.

use crate::files::{element_words, IN_FULL, MARK};
use crate::limits::NOT_PERMITTED;
use crate::random::Random;
use crate::taps::PERMITTED;
use second::field::P;
use std::ops::Range;

/// The bits of the parts of a returned word: number, constraint, row, index or tests.
const PARTS: [Range<u32>; 4] = [0..6, 6..12, 12..36, 36..64];

/// Words that a call may return, and others: each bit set alone or left out alone, all
/// bits below and from each on, each part full alone and beside full ones; each number,
/// beside empty parts, full ones and any; `n` at random.
pub fn words(seed: u64, n: usize) -> Vec<u64> {
    let mut random = Random::new(seed);
    let mut words = vec![];
    for bit in 0..64 {
        words.extend([1 << bit, !(1 << bit), (1 << bit) - 1, u64::MAX << bit]);
    }
    for part in PARTS {
        let full = u64::MAX >> (64 - part.len()) << part.start;
        words.extend([full, !full]);
    }
    for number in 0..64 {
        words.extend([0, u64::MAX, random.word()].map(|others| others << 6 | number));
    }
    words.extend((0..n).map(|_| random.word()));
    words
}

/// Counts of batches, permitted or not, and larger ones whose lengths still fit a word.
pub fn counts() -> Vec<usize> {
    let small = 0..=20;
    let powers = (0..=50).map(|bit| 1 << bit);
    small.chain(powers).chain(NOT_PERMITTED).collect()
}

/// Words around each power of two, and at the edges of the field.
fn edges() -> Vec<u64> {
    let powers = (0..64).map(|bit| 1 << bit);
    let around = powers.flat_map(|power: u64| [power - 1, power, power + 1]);
    around.chain([P - 1, P, P + 1, u64::MAX]).collect()
}

/// A list of taps and a claim. The taps are so many words, all the same but for `others`,
/// each with its place.
#[derive(Clone, Debug)]
pub struct SparseList {
    pub claim: [u64; 4],
    pub length: usize,
    pub fill: u64,
    pub others: Vec<(usize, u64)>,
}

impl SparseList {
    pub fn taps(&self) -> Vec<u64> {
        let mut taps = vec![self.fill; self.length];
        for &(place, word) in &self.others {
            taps[place] = word;
        }
        taps
    }
}

/// The list of one batch of these elements, the claim first.
fn list_of(elements: [u64; 20]) -> SparseList {
    let (claim, taps) = elements.split_at(4);
    let others = taps.iter().copied().enumerate();
    SparseList {
        claim: claim.try_into().expect("four words"),
        length: taps.len(),
        fill: 0,
        others: others.filter(|&(_, word)| word != 0).collect(),
    }
}

/// Lists of one batch with each edge alone in each word of the claim and at either end of
/// the taps, and everywhere; lists of other lengths; `n` of both widths at random.
pub fn lists(seed: u64, n: usize) -> Vec<SparseList> {
    let mut random = Random::new(seed);
    let mut lists = vec![];
    for edge in edges() {
        for place in [0, 1, 2, 3, 4, 19] {
            let mut elements = [0; 20];
            elements[place] = edge;
            lists.push(list_of(elements));
        }
        lists.push(list_of([edge; 20]));
    }
    for length in [0, 1, 15, 17, 28, 12292, 24580, 12 * 262144 + 4] {
        lists.extend([0, 1 << 32].map(|fill| SparseList {
            claim: [0, fill, 0, 0],
            length,
            fill,
            others: vec![],
        }));
    }
    for _ in 0..n {
        let elements = std::array::from_fn(|_| random.small_or_large());
        lists.push(list_of(elements));
    }
    lists
}

/// A file of so many bytes, all the same but for `others`, 32-bit words with their places.
/// What of them stands after the end is not lent.
#[derive(Clone, Debug)]
pub struct SparseFile {
    pub length: usize,
    pub fill: u8,
    pub others: Vec<(usize, u32)>,
}

impl SparseFile {
    pub fn bytes(&self) -> Vec<u8> {
        let ends = self.others.iter().map(|(place, _)| 4 * (place + 1));
        let room = ends.fold(self.length, usize::max);
        let mut bytes = vec![self.fill; room];
        for (place, word) in &self.others {
            bytes[4 * place..4 * (place + 1)].copy_from_slice(&word.to_le_bytes());
        }
        bytes.truncate(self.length);
        bytes
    }
}

/// Files of each kind below, those of words 0 with `n` at random.
pub fn files(seed: u64, n: usize) -> Vec<SparseFile> {
    let mut random = Random::new(seed);
    let mut files = of_lengths();
    files.extend(of_one_bit());
    files.extend(of_edges());
    files.extend(of_words_0(&mut random, n));
    files
}

/// Files without a payload and with full ones, of every length up to 300 and around those
/// of full files; without a payload also around what a larger k would have.
fn of_lengths() -> Vec<SparseFile> {
    let counts = PERMITTED.into_iter().chain(NOT_PERMITTED);
    let around = counts.filter(|&k| k <= 1 << 18).flat_map(|k| {
        let length = 144 * k + 100;
        length - 1..=length + 1
    });
    let mut files = vec![];
    for length in (0..=300).chain(around) {
        let fills: &[u8] = match length {
            0..300_000 => &[0, 0xff],
            _ => &[0],
        };
        files.extend(fills.iter().map(|&fill| SparseFile {
            length,
            fill,
            others: vec![],
        }));
    }
    files
}

/// The bytes of one batch with one bit set, each in turn.
fn of_one_bit() -> impl Iterator<Item = SparseFile> {
    let bits = (1..61).flat_map(|word| (0..32).map(move |bit| (word, 1 << bit)));
    bits.map(|other| SparseFile {
        length: 244,
        fill: 0,
        others: vec![other],
    })
}

/// Of the length of one batch, with each edge and what has more bits than a word as the
/// first or last element of claim or taps; of that of every k, with 2^30 and 2^60 there.
/// Elsewhere are zeros, without the kinds, by which nothing goes here.
fn of_edges() -> Vec<SparseFile> {
    let longer = [1 << 64, 17 << 60, 1 << 89, (1 << 90) - 1];
    let edges = edges().into_iter().map(u128::from).chain(longer);
    let of_one_batch = edges.flat_map(|edge| [0, 3, 4, 19].map(|place| (1, place, edge)));
    let of_every_k = IN_FULL.into_iter().flat_map(|k| {
        let places = [0, 3, 4, 12 * k + 7];
        places
            .into_iter()
            .flat_map(move |place| [30, 60].map(|bit| (k, place, 1 << bit)))
    });
    let file = |(k, place, element)| {
        let words = element_words(element).into_iter().enumerate();
        let mut others = vec![(0, k as u32)];
        others.extend(words.map(|(i, word)| (1 + 3 * place + i, word)));
        SparseFile {
            length: 144 * k + 100,
            fill: 0,
            others,
        }
    };
    of_one_batch.chain(of_every_k).map(file).collect()
}

/// Words 0, alone and before zeros up to the length of one batch: none and the mark alone,
/// with up to two bits changed; the mark with each count up to 1100 and each k; `n` at
/// random, and as many with the mark and any 20 bits. Those of each k are also cut.
fn of_words_0(random: &mut Random, n: usize) -> Vec<SparseFile> {
    let pairs = (0..32).flat_map(|a| (0..=a).map(move |b| 1 << a | 1 << b));
    let changed = pairs.chain([0]).flat_map(|bits: u32| [bits, MARK ^ bits]);
    let small = (0..=1100).map(|k| MARK + k);
    let permitted = PERMITTED.map(|k| MARK + k as u32);
    let mut words: Vec<u32> = changed.chain(small).chain(permitted).collect();
    for _ in 0..n {
        let any = random.word() as u32;
        words.extend([any, MARK + any % (1 << 20)]);
    }
    let file = |word, length| SparseFile {
        length,
        fill: 0,
        others: vec![(0, word)],
    };
    let whole = words
        .into_iter()
        .flat_map(|word| [4, 244].map(|length| file(word, length)));
    let cut = permitted
        .into_iter()
        .flat_map(|word| [0, 1, 2, 3].map(|length| file(word, length)));
    whole.chain(cut).collect()
}
