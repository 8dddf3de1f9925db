//! A season in one chain (document 02, U9): the operations at the largest k beside
//! themselves at k = 1024. What a batch takes should not depend on k, nor should the stack
//! that a call takes; the library has no other memory of its own.
//!
//! The answers are compared between the times that are measured.

use crate::editions::patterns;
use crate::stack::{Stack, PLACES};
use crate::timing::{goal_cell, nanoseconds, now};
use inputs::tables::dense;
use inputs::traces::output_after;
use inputs::Random;
use lemoncolumn::{file_bytes, short_file_bytes, tap_words, trace_words};
use lemoncolumn::{short_batches, Refusal, MOST_BATCHES, MOST_FILE_BATCHES};
use std::hint::black_box;

const SEED: u64 = 20261118;

/// What a batch may take, as a ratio to k = 1024.
const GOAL: f64 = 1.1;

/// The k whose times are compared with those of full size.
const SMALL: usize = 1024;
/// So many days of that k are as long as a season.
const DAYS: usize = MOST_BATCHES / SMALL;

/// Turns of an operation: first of so many batches, to find a place of the stack; then so
/// many at full size, each of one run and followed by one of each that is compared with
/// it, which has so many batches.
#[derive(Clone, Copy)]
struct Turns {
    to_find: usize,
    full: usize,
    batches: usize,
}
const FAST: Turns = Turns {
    to_find: MOST_BATCHES,
    full: 16,
    batches: MOST_BATCHES,
};
/// Three seconds a turn, for either k: what else the machine does counts for both alike.
const SLOW: Turns = Turns {
    to_find: 2 * SMALL,
    full: 3,
    batches: MOST_BATCHES,
};
/// Fifteen seconds and more.
const SLOWEST: Turns = Turns { full: 1, ..SLOW };
/// For whoever wants the answers and not the times.
const ONCE: Turns = Turns {
    full: 1,
    batches: 2 * SMALL,
    ..SLOW
};

/// What an operation is lent. All of it was written before, so that the time of its pages
/// does not count.
trait Lent {
    fn batches(&self) -> usize;
}

/// A list of taps, its trace and its output.
struct Season {
    k: usize,
    table: Vec<u64>,
    taps: Vec<u64>,
    trace: Vec<u64>,
    output: [u64; 4],
    read: Vec<u64>,
}

impl Lent for Season {
    fn batches(&self) -> usize {
        self.k
    }
}

impl Season {
    fn new(k: usize) -> Season {
        let mut random = Random::new(SEED);
        Season {
            k,
            table: dense(&mut random).prepared,
            taps: random.uniform(tap_words(k)),
            trace: vec![7; trace_words(k)],
            output: [7; 4],
            read: vec![7; tap_words(k)],
        }
    }

    fn build(&mut self) {
        let built = lemoncolumn::build(&self.table, &self.taps, &mut self.trace);
        self.output = built.expect("built");
    }

    fn check(&mut self) {
        let tests = lemoncolumn::check(&self.table, &self.trace, self.output, self.k);
        assert_eq!(tests, Ok(372 * self.k as u64));
    }

    fn edit_last(&mut self) {
        self.edit(3 * self.k);
    }

    fn edit_first(&mut self) {
        self.edit(0);
    }

    /// To the same words in the other order, and back the next time, in the list and in the
    /// trace.
    fn edit(&mut self, tap: usize) {
        let words = &mut self.taps[4 * tap..4 * tap + 4];
        words.reverse();
        let new = std::array::from_fn(|i| words[i]);
        let (trace, output) = (&mut self.trace, self.output);
        let edited = lemoncolumn::edit(&self.table, trace, output, self.k, tap, new);
        self.output = edited.expect("edited");
    }

    fn read_off(&mut self) {
        let (trace, read) = (&self.trace, &mut self.read);
        let tests = lemoncolumn::read_off(&self.table, trace, self.output, self.k, read);
        assert_eq!(tests, Ok(372 * self.k as u64));
    }

    /// The trace that was edited is that of the altered list: it was read off to that list
    /// under the last output, and at both ends the second implementation's Chain comes to
    /// what it shows. Chain of all would take longer than Build.
    fn compare(&self) {
        assert!(self.read == self.taps);
        assert_eq!(output_after(&self.trace, self.k), self.output);
        let batches = self.k.min(SMALL);
        for from in [0, self.k - batches] {
            let chained = second::chain(&self.table, &self.part(from, batches));
            let shown = output_after(&self.trace, from + batches);
            assert_eq!(chained, Ok(shown), "{batches} batches from {from} on");
        }
    }

    /// Another claim fails by its first cell, at the last row, where the four last tests
    /// are; a last word that is not canonical is named by its index.
    fn refuse(&mut self) {
        let k = self.k as u64;
        let mut claim = self.output;
        claim[0] = (claim[0] + 1) % lemoncolumn::P;
        let failing = Refusal::Constraint {
            row: 32 * k - 1,
            constraint: 49,
            tests: 372 * k - 3,
        };
        let checked = lemoncolumn::check(&self.table, &self.trace, claim, self.k);
        assert_eq!(checked, Err(failing));
        *self.trace.last_mut().expect("a batch") = lemoncolumn::P;
        let checked = lemoncolumn::check(&self.table, &self.trace, self.output, self.k);
        assert_eq!(checked, Err(Refusal::TraceWord { index: 384 * k - 1 }));
    }

    /// The list that some of the batches go on with: the output before them, and their taps.
    fn part(&self, from: usize, batches: usize) -> Vec<u64> {
        let taps = &self.taps[tap_words(from)..tap_words(from + batches)];
        match from {
            0 => [&self.taps[..4], taps].concat(),
            _ => [&output_after(&self.trace, from), taps].concat(),
        }
    }
}

/// A list of taps, its claim, and its short file.
struct Board {
    k: usize,
    claim: [u64; 4],
    taps: Vec<u64>,
    file: Vec<u8>,
    read: Vec<u64>,
}

impl Board {
    fn new(k: usize, claim: [u64; 4], taps: &[u64]) -> Board {
        Board {
            k,
            claim,
            taps: taps.to_vec(),
            file: vec![7; short_file_bytes(taps, claim)],
            read: vec![7; taps.len()],
        }
    }

    fn pack_short(&mut self) {
        let packed = lemoncolumn::pack_short(&self.taps, self.claim, &mut self.file);
        assert_eq!(packed, Ok(()));
    }

    fn unpack_short(&mut self) {
        let claim = lemoncolumn::unpack_short(&self.file, &mut self.read);
        assert_eq!(claim, Ok(self.claim));
    }

    /// The list was read again, and only one that is short enough has a full file.
    fn compare(&self) {
        assert!(self.read == self.taps);
        assert_eq!(short_batches(&self.file), Some(self.k));
        let mut full = vec![7; file_bytes(self.k)];
        let packed = lemoncolumn::pack(&self.taps, self.claim, &mut full);
        let converted = lemoncolumn::to_full(&self.file, &mut full);
        if self.k <= MOST_FILE_BATCHES {
            assert_eq!((packed, converted), (Ok(()), Ok(())));
        } else {
            assert_eq!(packed, Err(Refusal::TapLength));
            assert_eq!(converted, Err(Refusal::WrongValue { word: 0 }));
            assert!(full.iter().all(|&byte| byte == 7));
        }
    }
}

/// Some days of one k, one after the other.
struct Boards(Vec<Board>);

impl Lent for Boards {
    fn batches(&self) -> usize {
        self.0.iter().map(|board| board.k).sum()
    }
}

impl Boards {
    fn pack_short(&mut self) {
        self.0.iter_mut().for_each(Board::pack_short);
    }

    fn unpack_short(&mut self) {
        self.0.iter_mut().for_each(Board::unpack_short);
    }

    fn compare(&self) {
        self.0.iter().for_each(Board::compare);
    }
}

/// So many days of k batches, for each pattern of widths.
fn boards(k: usize, days: usize) -> impl Iterator<Item = (&'static str, Boards)> {
    let mut random = Random::new(SEED);
    let mut names = [""; 3];
    let mut boards = [(); 3].map(|()| Boards(vec![]));
    for _ in 0..days {
        for (i, (name, elements)) in patterns(&mut random, k).into_iter().enumerate() {
            let claim = std::array::from_fn(|i| elements[i]);
            names[i] = name;
            boards[i].0.push(Board::new(k, claim, &elements[4..]));
        }
    }
    names.into_iter().zip(boards)
}

/// The shortest times of a batch: at full size, at k = 1024, and where they were taken on
/// as many days of that k as a season has. And the stack.
struct Row {
    name: String,
    times: Vec<f64>,
    stack: usize,
}

/// The seventh table of docs/SPEED.md.
pub struct Table {
    rows: Vec<Row>,
    stack: Stack,
}

/// How long the operations on a trace run: once at full size, or long enough for times
/// that can be compared.
pub enum Runs {
    Once,
    Long,
}

pub fn measure(runs: Runs) -> Table {
    let mut table = Table {
        rows: vec![],
        stack: Stack::new(),
    };
    match runs {
        Runs::Once => measure_trace(&mut table, ONCE, ONCE),
        Runs::Long => measure_trace(&mut table, SLOW, SLOWEST),
    }
    measure_files(&mut table);
    table
}

/// Read off is what the edits leave. The season's own file is written and read at the end.
fn measure_trace(table: &mut Table, slow: Turns, slowest: Turns) {
    let mut seasons = [1, MOST_BATCHES, SMALL].map(Season::new);
    table.measure("build", slowest, Season::build, &mut seasons);
    table.measure("check", slow, Season::check, &mut seasons);
    table.measure("edit, last tap", slow, Season::edit_last, &mut seasons);
    table.measure("edit, tap 0", slowest, Season::edit_first, &mut seasons);
    table.measure("read-off", slow, Season::read_off, &mut seasons);
    for mut season in seasons {
        season.compare();
        season.refuse();
        let mut board = Board::new(season.k, season.output, &season.taps);
        board.pack_short();
        board.unpack_short();
        board.compare();
    }
}

/// A list and a file of full size do not fit the processor's caches. One day of k = 1024,
/// again and again, does; as many days as a season has do not.
fn measure_files(table: &mut Table) {
    let mut days =
        [(1, 1), (MOST_BATCHES, 1), (SMALL, 1), (SMALL, DAYS)].map(|(k, days)| boards(k, days));
    while let [Some((_, one)), Some((name, full)), Some((_, small)), Some((_, many))] =
        days.each_mut().map(Iterator::next)
    {
        let mut boards = [one, full, small, many];
        let row = format!("pack, short, {name}");
        table.measure(&row, FAST, Boards::pack_short, &mut boards);
        let row = format!("unpack, short, {name}");
        table.measure(&row, FAST, Boards::unpack_short, &mut boards);
        boards.iter().for_each(Boards::compare);
    }
}

impl Table {
    /// A row, of a single batch for its stack alone, of full size, and of what full size
    /// is compared with. All of them run where the first of the last is fastest.
    fn measure<L: Lent>(
        &mut self,
        name: &str,
        turns: Turns,
        operation: fn(&mut L),
        lent: &mut [L],
    ) {
        let [one, full, others @ ..] = lent else {
            unreachable!("a single batch and full size");
        };
        let mut shortest = f64::INFINITY;
        let mut fastest = 0;
        for place in 0..PLACES {
            let runs = turns.to_find / others[0].batches();
            let (time, _) = self.turn(place, runs, operation, &mut others[0]);
            if time < shortest {
                (shortest, fastest) = (time, place);
            }
        }
        let mut times = vec![f64::INFINITY; 1 + others.len()];
        let (_, stack) = self.turn(fastest, 1, operation, one);
        for _ in 0..turns.full {
            let (time, same) = self.turn(fastest, 1, operation, full);
            assert_eq!(same, stack, "the stack of {name}");
            times[0] = times[0].min(time);
            for (best, other) in times[1..].iter_mut().zip(&mut *others) {
                let runs = turns.batches / other.batches();
                let (time, _) = self.turn(fastest, runs, operation, other);
                *best = best.min(time);
            }
        }
        self.rows.push(Row {
            name: format!("{name}, k = {MOST_BATCHES}"),
            times,
            stack,
        });
    }

    /// So many runs: the time of a batch, and the stack. That is the same code for each
    /// k, so that only what the library takes may differ.
    #[inline(never)]
    fn turn<L: Lent>(
        &mut self,
        place: usize,
        runs: usize,
        operation: fn(&mut L),
        lent: &mut L,
    ) -> (f64, usize) {
        let mut time = 0.0;
        let stack = self.stack.run(place, &mut || {
            let start = now();
            for _ in 0..black_box(runs) {
                black_box(operation)(lent);
            }
            time = (now() - start).as_secs_f64();
        });
        (time * 1e9 / (runs * lent.batches()) as f64, stack)
    }

    pub fn print(&self) {
        println!(
            "| What | proved, ns a batch | of k = {SMALL} | of {DAYS} days | goal | stack, bytes |"
        );
        println!("|---|---|---|---|---|---|");
        for Row { name, times, stack } in &self.rows {
            let time = nanoseconds(times[0]);
            let ratio = times[0] / times[1];
            let of_days = times.get(2).map(|days| format!("{:.2} ", times[0] / days));
            let of_days = of_days.unwrap_or_default();
            let goal = goal_cell(&format!("{GOAL} of k = {SMALL}"), ratio > GOAL);
            println!("| {name} | {time} | {ratio:.2} | {of_days}| {goal} | {stack} |");
        }
    }
}
