//! Tap lists (document 01, "Hash and chain"), and the cases of Hash, Chain and
//! Build.

use crate::cases::{
    damage, first_of, join, lent_destination, tap_word, BuildCase, ChainCase, HashCase,
};
use crate::random::Random;
use crate::tables::{damaged_tables, dense, good, lent, special_tables, LentTable};
use second::field::P;
use second::Refusal;

/// Every permitted k, to 2^18 (document 02, U9).
pub const PERMITTED: [usize; 19] = [
    1, 2, 4, 8, 16, 32, 64, 128, 256, 512, 1024, 2048, 4096, 8192, 16384, 32768, 65536, 131072,
    262144,
];

/// Lengths of lists that are not 12k + 4 with k permitted. 4, 40, 64, 76, 18436 and
/// 24592 are 12k + 4 with k = 0, 3, 5, 6, 1536 and 2049.
pub const LENGTHS: [usize; 19] = [
    0, 1, 3, 4, 8, 12, 15, 17, 27, 29, 40, 64, 76, 12291, 12293, 18436, 24579, 24581, 24592,
];

/// A permitted k, mostly small.
pub fn some_k(random: &mut Random) -> usize {
    random.pick(&[1, 1, 1, 1, 2, 2, 2, 4, 4, 8])
}

/// A c from 1 to k: 1, k or any.
pub fn some_c(random: &mut Random, k: usize) -> usize {
    1 + random.place(k)
}

/// A list of 3k + 1 taps.
pub fn list(random: &mut Random, k: usize) -> Vec<u64> {
    let words = 12 * k + 4;
    match random.below(8) {
        0 => vec![0; words],
        1 => vec![P - 1; words],
        _ => random.canonicals(words),
    }
}

/// A list as lent.
pub struct LentList {
    pub name: String,
    pub words: Vec<u64>,
    pub k: usize,
    pub length: Option<Refusal>,
    pub word: Option<Refusal>,
}

pub fn lent_list(random: &mut Random, length: bool, word: bool) -> LentList {
    let k = some_k(random);
    let words = list(random, k);
    lent_words(random, k, words, length, word)
}

/// The words of a list of k batches as lent.
pub fn lent_words(
    random: &mut Random,
    k: usize,
    words: Vec<u64>,
    length: bool,
    word: bool,
) -> LentList {
    let mut lent = LentList {
        name: format!("k = {k}"),
        words,
        k,
        length: None,
        word: None,
    };
    if word {
        let index = random.spoil(&mut lent.words);
        lent.name += &format!(", tap word {index} not canonical");
        lent.word = Some(tap_word(index));
    }
    if length {
        let count = random.pick(&LENGTHS);
        lent.words.resize(count, random.word());
        lent.name += &format!(", {count} tap words");
        lent.length = Some(Refusal::TapLength);
    }
    lent
}

fn lent_table(random: &mut Random, damaged: bool) -> LentTable {
    let good = good(random);
    lent(random, &good, damaged)
}

fn hash_corners(seed: u64) -> Vec<HashCase> {
    let mut random = Random::new(seed);
    let good = dense(&mut random);
    let mut cases = vec![];
    let mut push = |name: String, table: &[u64], words, refusal| {
        cases.push(HashCase {
            name,
            table: table.to_vec(),
            words,
            refusal,
        });
    };
    for table in damaged_tables(&good) {
        push(table.name, &table.words, [P; 8], table.refusal);
    }
    for table in special_tables(&mut random) {
        // Eight different words tell the cells of the final state apart.
        for words in [[0; 8], [1; 8], [P - 1; 8], [1, 2, 3, 4, 5, 6, 7, 8]] {
            push(table.name.clone(), &table.prepared, words, None);
        }
    }
    for index in 0..8 {
        let mut words = [P - 1; 8];
        words[index] = P;
        let refusal = Some(tap_word(index));
        push(format!("p at {index}"), &good.prepared, words, refusal);
    }
    cases
}

/// Hash: the table's refusals, 6. The corner cases and `n` others.
pub fn hash_cases(seed: u64, n: usize) -> Vec<HashCase> {
    let mut random = Random::new(seed);
    let make = |number| {
        let [table, word] = damage(&mut random, number);
        let table = lent_table(&mut random, table);
        let mut words: [u64; 8] = std::array::from_fn(|_| random.canonical());
        let mut refusal = None;
        if word {
            let index = random.spoil(&mut words);
            refusal = Some(tap_word(index));
        }
        HashCase {
            name: join(&[&table.name, if word { "word not canonical" } else { "" }]),
            table: table.words,
            words,
            refusal: first_of(&[table.refusal, refusal]),
        }
    };
    let mut cases = hash_corners(seed);
    cases.extend((0..n).map(make));
    cases
}

/// Those of Build that do not turn on the destination.
fn chain_corners(seed: u64) -> Vec<ChainCase> {
    let mut cases = build_corners(seed);
    cases.retain(|case| case.refusal != Some(Refusal::DestinationLength));
    let chain = |case: BuildCase| ChainCase {
        name: case.name,
        table: case.table,
        taps: case.taps,
        refusal: case.refusal,
    };
    cases.into_iter().map(chain).collect()
}

/// Chain: the table's refusals, 5, 6. The corner cases and `n` others.
pub fn chain_cases(seed: u64, n: usize) -> Vec<ChainCase> {
    let mut random = Random::new(seed);
    let make = |number| {
        let [table, length, word] = damage(&mut random, number);
        let table = lent_table(&mut random, table);
        let list = lent_list(&mut random, length, word);
        ChainCase {
            name: join(&[&table.name, &list.name]),
            table: table.words,
            taps: list.words,
            refusal: first_of(&[table.refusal, list.length, list.word]),
        }
    };
    let mut cases = chain_corners(seed);
    cases.extend((0..n).map(make));
    cases
}

fn build_corners(seed: u64) -> Vec<BuildCase> {
    let mut random = Random::new(seed);
    let good = dense(&mut random);
    let mut cases = vec![];
    let mut push = |name: String, table: &[u64], taps: Vec<u64>, destination, refusal| {
        cases.push(BuildCase {
            name,
            table: table.to_vec(),
            taps,
            destination,
            refusal,
        });
    };
    for table in damaged_tables(&good) {
        push(table.name, &table.words, vec![P; 15], 383, table.refusal);
    }
    let table = &good.prepared;
    for k in [1, 2, 4, 8, 16, 32] {
        let taps = random.canonicals(12 * k + 4);
        push(format!("k = {k}"), table, taps, 384 * k, None);
    }
    for length in LENGTHS {
        let name = format!("{length} tap words");
        let refusal = Some(Refusal::TapLength);
        push(name, table, vec![P; length], 383, refusal);
    }
    for length in [0, 1, 383, 384, 385, 767, 769] {
        let refusal = Some(Refusal::DestinationLength);
        push(
            format!("into {length}"),
            table,
            vec![P; 28],
            length,
            refusal,
        );
    }
    for index in [0, 3, 4, 15, 16, 27] {
        let mut taps = vec![P - 1; 28];
        taps[index] = P;
        let refusal = Some(tap_word(index));
        push(format!("p at {index}"), table, taps, 768, refusal);
    }
    // 24580 words, which pass 5.
    for (index, destination) in [(0, 768), (0, 786432), (24579, 786432)] {
        let mut taps = vec![P - 1; 24580];
        taps[index] = P;
        let refusal = match destination {
            768 => Refusal::DestinationLength,
            _ => tap_word(index),
        };
        let name = format!("k = 2048, p at {index}, into {destination}");
        push(name, table, taps, destination, Some(refusal));
    }
    cases
}

/// Build: the table's refusals, 5, 8, 6. The corner cases and `n` others.
pub fn build_cases(seed: u64, n: usize) -> Vec<BuildCase> {
    let mut random = Random::new(seed);
    let make = |number| {
        let [table, length, destination, word] = damage(&mut random, number);
        let table = lent_table(&mut random, table);
        let list = lent_list(&mut random, length, word);
        let (destination, refusal) = lent_destination(&mut random, 384 * list.k, destination);
        let into = format!("into {destination}");
        BuildCase {
            name: join(&[&table.name, &list.name, &into]),
            table: table.words,
            taps: list.words,
            destination,
            refusal: first_of(&[table.refusal, list.length, refusal, list.word]),
        }
    };
    let mut cases = build_corners(seed);
    cases.extend((0..n).map(make));
    cases
}
