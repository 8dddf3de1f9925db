//! The program's input and its line (document 01, "The board file", from "The
//! program reads").

use crate::cases::{damage, first_of, join, table_word, ClearCase};
use crate::files::{bytes, bytes_of, lent_file, short_words_of, words_of, Damaged};
use crate::random::Random;
use crate::tables::{dense, good, singular, Good};
use crate::taps::list;
use crate::traces::{day, with_faults};
use second::field::add;
use second::Refusal;

/// The program's input: a raw table, then a file.
fn input_of(raw: &[u64], file: &[u8]) -> Vec<u8> {
    let mut input: Vec<u8> = raw.iter().flat_map(|word| word.to_le_bytes()).collect();
    input.extend(file);
    input
}

/// A raw table as lent to the program.
struct LentRaw {
    name: String,
    words: Vec<u64>,
    refusal: Option<Refusal>,
}

fn lent_raw(random: &mut Random, good: &Good, damaged: bool) -> LentRaw {
    let mut lent = LentRaw {
        name: good.name.clone(),
        words: good.raw.clone(),
        refusal: None,
    };
    if damaged {
        if random.one_in(2) {
            (lent.name, lent.words) = singular(random);
            lent.refusal = Some(Refusal::NoInverse);
        }
        if lent.refusal.is_none() || random.one_in(4) {
            let index = random.spoil(&mut lent.words);
            lent.refusal = Some(table_word(index));
        }
    }
    lent
}

/// The claim with one column altered, and the refusal that this brings about:
/// its place is among the last four.
fn wrong_claim(random: &mut Random, k: usize, claim: &mut [u64; 4]) -> Refusal {
    let column = random.below(4);
    claim[column] = add(claim[column], random.unit());
    Refusal::Constraint {
        row: 32 * k as u64 - 1,
        constraint: 49 + column as u64,
        tests: 372 * k as u64 - 3 + column as u64,
    }
}

/// The program's lengths, and lines at the edges of them.
fn clear_corners(seed: u64) -> Vec<ClearCase> {
    let mut random = Random::new(seed);
    let good = dense(&mut random);
    let mut cases = vec![];
    let mut push = |name: String, input: Vec<u8>, line: &str| {
        let line = format!("{line}\n");
        cases.push(ClearCase { name, input, line });
    };
    for length in [0, 1, 396, 3167] {
        push(format!("{length} bytes"), vec![255; length], "refused 1");
    }
    for length in [5573, 5574, 7876, 65536] {
        push(format!("{length} bytes"), vec![255; length], "too long");
    }
    for length in [3168, 3171, 3172, 3412, 5572] {
        push(format!("{length} x 255"), vec![255; length], "refused 2 0");
        push(format!("{length} x 0"), vec![0; length], "refused 3");
    }
    for (name, file, line) in files_of_one_word() {
        push(name, input_of(&good.raw, &file), line);
    }
    // A short file is refused for its mark, also where a full one of that k is too long.
    for k in [1, 2, 4, 8, 16, 32] {
        let file = short_words_of(k, &vec![0; 12 * k + 8]);
        let input = input_of(&good.raw, &bytes(&file));
        push(format!("short file, k = {k}"), input, "refused 14 0");
    }
    for k in [1, 2, 4, 8, 16, 32] {
        let honest = day(good.clone(), random.canonicals(12 * k + 4), k);
        let file = bytes_of(k, &honest.claim, &honest.taps);
        let line = match k {
            32 => String::from("too long"),
            _ => format!("accepted {k} {}", 372 * k),
        };
        push(
            format!("honest, k = {k}"),
            input_of(&good.raw, &file),
            &line,
        );
    }
    cases
}

/// Files of at most one word, and their lines.
fn files_of_one_word() -> Vec<(String, Vec<u8>, &'static str)> {
    let mut files = vec![];
    for length in 0..4 {
        let name = format!("{length} bytes of file");
        files.push((name, vec![255; length], "refused 12"));
    }
    for (word, line) in [
        (0, "refused 14 0"),
        (1, "refused 12"),
        (32, "refused 12"),
        (1024, "refused 12"),
        (2048, "refused 14 0"),
        (0x10000, "refused 14 0"),
        (0x10001, "refused 14 0"),
        (0x40000, "refused 14 0"),
        (0x20000001, "refused 14 0"),
        (0x20000800, "refused 14 0"),
        (0x20040000, "refused 14 0"),
        (0x40000001u32, "refused 13 0"),
    ] {
        let name = format!("word 0 alone, {word:x}");
        files.push((name, word.to_le_bytes().to_vec(), line));
    }
    files
}

/// The program's input and line: both lengths come first, then the table, the
/// file, and the claim. The corner cases and `n` others.
pub fn clear_cases(seed: u64, n: usize) -> Vec<ClearCase> {
    let mut random = Random::new(seed);
    let make = |number| {
        let flags: [bool; 8] = damage(&mut random, number);
        let damaged = Damaged {
            cut: flags[3],
            kind: flags[3] && random.one_in(2),
            mark: flags[4] && random.one_in(4),
            head: flags[4],
            length: flags[5],
            kinds: flags[6],
            values: flags[7],
            ..Damaged::default()
        };
        let k = random.pick(&[1, 1, 1, 1, 2, 2, 4, 8, 16]);
        let good = good(&mut random);
        let table = lent_raw(&mut random, &good, flags[0]);
        let taps = list(&mut random, k);
        let (_, mut claim) = with_faults(&good, &taps, k, &[]);
        let wrong = flags[1] || flags[2];
        let fails = wrong.then(|| wrong_claim(&mut random, k, &mut claim));
        let file = lent_file(&mut random, &words_of(k, &claim, &taps), damaged);
        let refusal = first_of(&[table.refusal, file.read_into(None), fails]);
        let mut input = input_of(&table.words, &file.bytes);
        if number % 16 == 15 {
            let length = outer_length(&mut random);
            input.resize(length, random.word() as u8);
        }
        let line = line_of(input.len(), k, refusal);
        ClearCase {
            name: join(&[&table.name, &format!("k = {k}"), &file.name]),
            input,
            line,
        }
    };
    let mut cases = clear_corners(seed);
    cases.extend((0..n).map(make));
    cases
}

/// A length that the program answers without reading further.
fn outer_length(random: &mut Random) -> usize {
    let below = random.below(3168);
    let above = 5573 + random.below(5000);
    random.pick(&[0, 1, 3167, below, 5573, 7876, above])
}

/// The line, in document 01's words. Numbers 1 and `too long` go by the length
/// alone.
fn line_of(length: usize, k: usize, refusal: Option<Refusal>) -> String {
    if length < 3168 {
        return String::from("refused 1\n");
    }
    if length > 5572 {
        return String::from("too long\n");
    }
    match refusal {
        None => format!("accepted {k} {}\n", 372 * k),
        Some(Refusal::TableWord { index }) => format!("refused 2 {index}\n"),
        Some(Refusal::NoInverse) => String::from("refused 3\n"),
        Some(Refusal::Constraint {
            row, constraint, ..
        }) => format!("refused 11 {row} {constraint}\n"),
        Some(Refusal::FileLength) => String::from("refused 12\n"),
        Some(Refusal::Kind { word }) => format!("refused 13 {word}\n"),
        Some(Refusal::Value { word }) => format!("refused 14 {word}\n"),
        Some(other) => unreachable!("the program never answers {other:?}"),
    }
}
