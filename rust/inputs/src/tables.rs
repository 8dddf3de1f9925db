//! Tables (document 01, "The table"): accepted ones of many shapes, matrices of
//! every rank, damaged tables, and the cases of Prepare.
//!
//! Invertible matrices are made by steps on whole rows, and their inverse is
//! kept by the opposite steps on columns. So no elimination is needed here, and
//! what Prepare must write is known.

use crate::cases::{damage, first_of, join, other_length, table_word, PrepareCase};
use crate::random::Random;
use second::field::{add, mul, reciprocal, sub, P};
use second::Refusal;

/// M and its inverse, row by row.
#[derive(Clone, Debug)]
pub struct Matrices {
    pub m: Vec<u64>,
    pub inverse: Vec<u64>,
}

impl Matrices {
    fn identity() -> Matrices {
        let unit: Vec<u64> = (0..144).map(|i| u64::from(i % 13 == 0)).collect();
        Matrices {
            m: unit.clone(),
            inverse: unit,
        }
    }

    /// Row `to` of M plus `factor` times row `from`.
    fn add_row(&mut self, to: usize, from: usize, factor: u64) {
        for j in 0..12 {
            let more = mul(factor, self.m[12 * from + j]);
            self.m[12 * to + j] = add(self.m[12 * to + j], more);
            let less = mul(factor, self.inverse[12 * j + to]);
            self.inverse[12 * j + from] = sub(self.inverse[12 * j + from], less);
        }
    }

    /// Row `row` of M times a factor other than 0.
    fn scale(&mut self, row: usize, factor: u64) {
        let inverse = reciprocal(factor);
        for j in 0..12 {
            self.m[12 * row + j] = mul(self.m[12 * row + j], factor);
            self.inverse[12 * j + row] = mul(self.inverse[12 * j + row], inverse);
        }
    }

    fn swap(&mut self, one: usize, other: usize) {
        for j in 0..12 {
            self.m.swap(12 * one + j, 12 * other + j);
            self.inverse.swap(12 * j + one, 12 * j + other);
        }
    }

    fn scale_all(&mut self, random: &mut Random) {
        for row in 0..12 {
            self.scale(row, random.unit());
        }
    }

    fn permute(&mut self, random: &mut Random) {
        for row in 1..12 {
            self.swap(row, random.below(row + 1));
        }
    }

    /// Adds to each row the rows above it that `keep` names.
    fn lower(&mut self, random: &mut Random, keep: impl Fn(usize, usize) -> bool) {
        for to in (0..12).rev() {
            for from in (0..to).filter(|&from| keep(to, from)) {
                self.add_row(to, from, random.canonical());
            }
        }
    }

    /// Adds to each row the rows below it that `keep` names.
    fn upper(&mut self, random: &mut Random, keep: impl Fn(usize, usize) -> bool) {
        for to in 0..12 {
            for from in (to + 1..12).filter(|&from| keep(to, from)) {
                self.add_row(to, from, random.canonical());
            }
        }
    }
}

/// An accepted table, raw and prepared.
#[derive(Clone, Debug)]
pub struct Good {
    pub name: String,
    pub raw: Vec<u64>,
    pub prepared: Vec<u64>,
}

impl Good {
    fn new(name: &str, matrices: &Matrices, k: &[u64]) -> Good {
        Good {
            name: name.to_string(),
            raw: [&matrices.m, k].concat(),
            prepared: [&matrices.m, &matrices.inverse, k].concat(),
        }
    }

    pub fn m(&self, row: usize, column: usize) -> u64 {
        self.prepared[12 * row + column]
    }

    pub fn inverse(&self, row: usize, column: usize) -> u64 {
        self.prepared[144 + 12 * row + column]
    }

    pub fn k(&self, number: usize, column: usize) -> u64 {
        self.prepared[288 + 12 * number + column]
    }

    /// The same table with one constant changed; it is still accepted.
    pub fn with_constant(&self, number: usize, column: usize, word: u64) -> Good {
        let mut changed = self.clone();
        changed.raw[144 + 12 * number + column] = word;
        changed.prepared[288 + 12 * number + column] = word;
        changed
    }
}

/// Z: M identity, K zero.
pub fn z() -> Good {
    Good::new("Z", &Matrices::identity(), &[0; 252])
}

/// A: Z with K_0[0] = 1.
pub fn a() -> Good {
    let mut k = [0; 252];
    k[0] = 1;
    Good::new("A", &Matrices::identity(), &k)
}

/// S: M[i,j] = 1 when j = (i + 11) mod 12, else 0; K zero. Its inverse is its
/// transpose.
pub fn s() -> Good {
    let mut matrices = Matrices::identity();
    for i in 0..144 {
        let (row, column) = (i / 12, i % 12);
        matrices.m[i] = u64::from(column == (row + 11) % 12);
        matrices.inverse[i] = u64::from(row == (column + 11) % 12);
    }
    Good::new("S", &matrices, &[0; 252])
}

/// How M may look. In all but the dense ones many cells of M and of its inverse
/// are zero, so that a change in one column does not reach all others.
pub const SHAPES: [&str; 8] = [
    "identity",
    "permutation",
    "scaled permutation",
    "lower triangle",
    "upper triangle",
    "three blocks",
    "sparse",
    "dense",
];

fn matrices(random: &mut Random, shape: &str) -> Matrices {
    let mut made = Matrices::identity();
    match shape {
        "identity" => {}
        "permutation" => made.permute(random),
        "scaled permutation" => {
            made.permute(random);
            made.scale_all(random);
        }
        "lower triangle" => {
            made.scale_all(random);
            made.lower(random, |_, _| true);
        }
        "upper triangle" => {
            made.scale_all(random);
            made.upper(random, |_, _| true);
        }
        "three blocks" => {
            // Columns 0 to 3, 4 to 7 and 8 to 11 stay among themselves.
            made.scale_all(random);
            made.lower(random, |to, from| to / 4 == from / 4);
            made.upper(random, |to, from| to / 4 == from / 4);
        }
        "sparse" => {
            made.scale_all(random);
            for _ in 0..12 {
                let to = random.below(12);
                let from = (to + 1 + random.below(11)) % 12;
                made.add_row(to, from, random.unit());
            }
            made.permute(random);
        }
        _ => {
            made.scale_all(random);
            made.lower(random, |_, _| true);
            made.upper(random, |_, _| true);
            made.permute(random);
        }
    }
    made
}

fn constants(random: &mut Random) -> (&'static str, Vec<u64>) {
    match random.below(6) {
        0 => ("K zero", vec![0; 252]),
        1 => ("K all p - 1", vec![P - 1; 252]),
        2 => {
            let mut k = random.canonicals(12);
            k.resize(252, 0);
            ("K_0 alone", k)
        }
        _ => ("K random", random.canonicals(252)),
    }
}

/// An accepted table of any shape.
pub fn good(random: &mut Random) -> Good {
    match random.below(12) {
        0 => z(),
        1 => a(),
        2 => s(),
        3..=6 => dense(random),
        _ => {
            let shape = random.pick(&SHAPES);
            of_shape(random, shape)
        }
    }
}

/// An accepted table of this shape.
pub fn of_shape(random: &mut Random, shape: &str) -> Good {
    let (name, k) = constants(random);
    let name = format!("{shape}, {name}");
    Good::new(&name, &matrices(random, shape), &k)
}

/// An accepted table without structure.
pub fn dense(random: &mut Random) -> Good {
    let k = random.uniform(252);
    Good::new("dense, K random", &matrices(random, "dense"), &k)
}

/// A matrix of this rank, 0 to 11: invertible times a diagonal with so many
/// units times invertible.
pub fn of_rank(random: &mut Random, rank: usize) -> Vec<u64> {
    let shape = random.pick(&["dense", "sparse", "permutation"]);
    let left = matrices(random, shape).m;
    let right = matrices(random, shape).m;
    let units: Vec<u64> = (0..rank).map(|_| random.unit()).collect();
    let mut m = vec![0; 144];
    for i in 0..12 {
        for j in 0..12 {
            for (t, &unit) in units.iter().enumerate() {
                let term = mul(mul(left[12 * i + t], unit), right[12 * t + j]);
                m[12 * i + j] = add(m[12 * i + j], term);
            }
        }
    }
    m
}

/// Rows made dependent in a way that elimination sees late or at once.
pub fn dependent(random: &mut Random) -> (String, Vec<u64>) {
    let mut m = matrices(random, "dense").m;
    let one = random.place(12);
    let other = (one + 1 + random.below(11)) % 12;
    let kind = random.below(6);
    for t in 0..12 {
        match kind {
            0 => m[12 * one + t] = 0,
            1 => m[12 * t + one] = 0,
            2 => m[12 * one + t] = m[12 * other + t],
            3 => m[12 * t + one] = m[12 * t + other],
            4 => m[12 * one + t] = mul(m[12 * other + t], P - 1),
            _ => {
                let rest = (0..12).filter(|&i| i != one);
                m[12 * one + t] = rest.fold(0, |sum, i| add(sum, m[12 * i + t]));
            }
        }
    }
    let name = match kind {
        0 => format!("row {one} zero"),
        1 => format!("column {one} zero"),
        2 => format!("rows {one} and {other} equal"),
        3 => format!("columns {one} and {other} equal"),
        4 => format!("row {one} is less row {other}"),
        _ => format!("row {one} is the sum of the others"),
    };
    (name, m)
}

/// A raw table whose M has no inverse.
pub fn singular(random: &mut Random) -> (String, Vec<u64>) {
    let (name, mut raw) = match random.below(3) {
        0 => dependent(random),
        _ => {
            let rank = random.below(12);
            (format!("rank {rank}"), of_rank(random, rank))
        }
    };
    raw.extend(random.canonicals(252));
    (name, raw)
}

/// Lengths that are neither 396 nor 540.
const LENGTHS: [usize; 9] = [0, 1, 12, 144, 395, 397, 539, 541, 1080];

/// A table as lent, with the refusal that the table test must answer.
#[derive(Clone, Debug)]
pub struct LentTable {
    pub name: String,
    pub words: Vec<u64>,
    pub refusal: Option<Refusal>,
}

/// The good table itself, or one damaged in one of three ways: 1, 2 or 4.
pub fn lent(random: &mut Random, good: &Good, damaged: bool) -> LentTable {
    if !damaged {
        return LentTable {
            name: good.name.clone(),
            words: good.prepared.clone(),
            refusal: None,
        };
    }
    match random.below(3) {
        0 => wrong_length(random, good),
        1 => wrong_word(random, good),
        _ => wrong_inverse(random, good),
    }
}

fn wrong_length(random: &mut Random, good: &Good) -> LentTable {
    let any = random.pick(&LENGTHS);
    let length = random.pick(&[any, 396]);
    let mut words = good.prepared.clone();
    words.resize(length, random.word());
    LentTable {
        name: format!("table of {length} words"),
        words,
        refusal: Some(Refusal::TableLength),
    }
}

/// In half of them the inverse is wrong too; the word comes first.
fn wrong_word(random: &mut Random, good: &Good) -> LentTable {
    let mut words = good.prepared.clone();
    if random.one_in(2) {
        words = wrong_inverse(random, good).words;
    }
    let index = random.spoil(&mut words);
    LentTable {
        name: format!("table word {index} not canonical"),
        words,
        refusal: Some(table_word(index)),
    }
}

fn wrong_inverse(random: &mut Random, good: &Good) -> LentTable {
    let mut words = good.prepared.clone();
    let (row, column) = (random.place(12), random.place(12));
    let by = random.unit();
    let name = match random.below(6) {
        0 => {
            words[12 * row + column] = add(good.m(row, column), by);
            format!("M altered at {row}, {column}")
        }
        1 => {
            for i in 0..144 {
                words[144 + i] = good.inverse(i % 12, i / 12);
            }
            String::from("inverse transposed")
        }
        2 => {
            words.copy_within(0..144, 144);
            String::from("M in place of its inverse")
        }
        3 => {
            words[144..288].fill(0);
            String::from("inverse zero")
        }
        _ => {
            words[144 + 12 * row + column] = add(good.inverse(row, column), by);
            format!("inverse altered at {row}, {column}")
        }
    };
    // Transposed or replaced, the inverse of some shapes is still the inverse.
    let cell = first_unlike_identity(&words);
    LentTable {
        name,
        words,
        refusal: cell.map(|cell| Refusal::InverseCell { cell: cell as u64 }),
    }
}

/// 12 x row + column of the first cell of M times the inverse that is unlike
/// the identity. The product is summed over whole rows, not cell by cell.
pub fn first_unlike_identity(words: &[u64]) -> Option<usize> {
    for i in 0..12 {
        let mut row = [0; 12];
        for t in 0..12 {
            for (j, cell) in row.iter_mut().enumerate() {
                *cell = add(*cell, mul(words[12 * i + t], words[144 + 12 * t + j]));
            }
        }
        row[i] = sub(row[i], 1);
        if let Some(j) = row.iter().position(|&cell| cell != 0) {
            return Some(12 * i + j);
        }
    }
    None
}

/// Z, A, S, and one table of each shape.
pub fn special_tables(random: &mut Random) -> Vec<Good> {
    let mut all = vec![z(), a(), s()];
    for shape in SHAPES {
        all.push(of_shape(random, shape));
    }
    all
}

/// Prepared tables with one thing wrong: lengths, places of p, wrong inverses.
pub fn damaged_tables(good: &Good) -> Vec<LentTable> {
    let mut all = vec![];
    let mut push = |name: String, words: Vec<u64>, refusal| {
        let refusal = Some(refusal);
        all.push(LentTable {
            name,
            words,
            refusal,
        });
    };
    for length in [0, 1, 395, 396, 397, 539, 541] {
        let name = format!("table of {length} words");
        push(name, vec![P; length], Refusal::TableLength);
    }
    for index in [0, 143, 144, 287, 288, 539] {
        let mut words = vec![0; 540];
        words[index] = P;
        push(format!("p at table word {index}"), words, table_word(index));
    }
    for index in [0, 11, 132, 143, 144, 155, 276, 287] {
        let mut words = good.prepared.clone();
        words[index] = add(words[index], 1);
        let cell = first_unlike_identity(&words).expect("altered") as u64;
        let name = format!("table word {index} altered");
        push(name, words, Refusal::InverseCell { cell });
    }
    all
}

fn prepare_corners(seed: u64) -> Vec<PrepareCase> {
    let mut random = Random::new(seed);
    let mut cases = vec![];
    for good in special_tables(&mut random) {
        cases.push(PrepareCase {
            name: good.name,
            raw: good.raw,
            destination: 540,
            refusal: None,
            prepared: good.prepared,
        });
    }
    cases.extend(refused_raw_tables(&mut random));
    cases
}

fn refused_raw_tables(random: &mut Random) -> Vec<PrepareCase> {
    let mut cases = vec![];
    let mut push = |name: String, raw: Vec<u64>, destination, refusal| {
        cases.push(PrepareCase {
            name,
            raw,
            destination,
            refusal: Some(refusal),
            prepared: vec![],
        });
    };
    for rank in 0..12 {
        let raw = [of_rank(random, rank), random.canonicals(252)].concat();
        push(format!("rank {rank}"), raw, 540, Refusal::NoInverse);
    }
    for length in [0, 1, 144, 395, 397, 539, 540, 541] {
        let name = format!("{length} raw words");
        push(name, vec![P; length], 539, Refusal::TableLength);
    }
    for length in [0, 1, 396, 539, 541] {
        let name = format!("into {length}");
        push(name, vec![P; 396], length, Refusal::DestinationLength);
    }
    for index in [0, 143, 144, 155, 156, 395] {
        let mut raw = vec![0; 396];
        raw[index] = P;
        push(format!("p at word {index}"), raw, 540, table_word(index));
    }
    cases
}

/// Prepare: 1, 8, 2, 3. The corner cases and `n` others.
pub fn prepare_cases(seed: u64, n: usize) -> Vec<PrepareCase> {
    let mut random = Random::new(seed);
    let make = |number| {
        let [length, destination, word, inverse] = damage(&mut random, number);
        let good = good(&mut random);
        let mut name = good.name.clone();
        let mut raw = good.raw.clone();
        let mut order = [None; 4];
        if inverse {
            (name, raw) = singular(&mut random);
            order[3] = Some(Refusal::NoInverse);
        }
        let mut spoilt = String::new();
        if word {
            let index = random.spoil(&mut raw);
            spoilt = format!("word {index} not canonical");
            order[2] = Some(table_word(index));
        }
        let mut lent = 540;
        if destination {
            let other = other_length(&mut random, 540);
            lent = random.pick(&[396, other]);
            order[1] = Some(Refusal::DestinationLength);
        }
        if length {
            let any = random.pick(&LENGTHS);
            raw.resize(random.pick(&[any, 540]), random.word());
            order[0] = Some(Refusal::TableLength);
        }
        let lengths = format!("{} words into {lent}", raw.len());
        PrepareCase {
            name: join(&[&name, &spoilt, &lengths]),
            raw,
            destination: lent,
            refusal: first_of(&order),
            prepared: good.prepared,
        }
    };
    let mut cases = prepare_corners(seed);
    cases.extend((0..n).map(make));
    cases
}
