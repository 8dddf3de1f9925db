//! The operations of document 01, on an honest day under a dense table.

use crate::newer::{self, Newer};
use crate::timing::{Goals, Table, Way};
use inputs::tables::dense;
use inputs::traces::output_after;
use inputs::Random;
use std::hint::black_box;
use yardstick::{Yardstick, BOTH};

const SEED: u64 = 20261115;

/// What the operations are given.
pub struct Day {
    pub k: usize,
    pub table: Vec<u64>,
    pub taps: Vec<u64>,
    pub trace: Vec<u64>,
    pub output: [u64; 4],
    file: Vec<u8>,
}

impl Day {
    pub fn new(k: usize) -> Day {
        let mut random = Random::new(SEED);
        let table = dense(&mut random).prepared;
        let taps = random.uniform(lemoncolumn::tap_words(k));
        let mut trace = vec![0; lemoncolumn::trace_words(k)];
        let output = lemoncolumn::build(&table, &taps, &mut trace).expect("built");
        let mut file = vec![0; lemoncolumn::file_bytes(k)];
        lemoncolumn::pack(&taps, output, &mut file).expect("packed");
        let day = Day {
            k,
            table,
            taps,
            trace,
            output,
            file,
        };
        day.compare();
        day
    }

    /// All come to the same.
    fn compare(&self) {
        let mut trace = vec![0; self.trace.len()];
        let second = second::build(&self.table, &self.taps, &mut trace);
        assert_eq!(second, Ok(self.output));
        assert!(trace == self.trace);
        let tests = 372 * self.k as u64;
        let check = lemoncolumn::check(&self.table, &self.trace, self.output, self.k);
        assert_eq!(check, Ok(tests));
        for yardstick in BOTH {
            trace.fill(0);
            let output = (yardstick.build)(&self.table, &self.taps, &mut trace);
            assert_eq!(output, Ok(self.output));
            assert!(trace == self.trace);
            let check = (yardstick.check)(&self.table, &self.trace, self.output, self.k);
            assert_eq!(check, Ok(tests));
        }
        if let Some(newer) = newer::found() {
            self.compare_newer(newer);
        }
    }

    /// For x86-64-v3 the library comes to the same as the plain one.
    fn compare_newer(&self, newer: Newer) {
        let pair = std::array::from_fn(|i| self.taps[i]);
        let state = lemoncolumn::hash(&self.table, pair);
        assert_eq!((newer.hash)(&self.table, pair), state);
        let mut trace = vec![0; self.trace.len()];
        let output = (newer.build)(&self.table, &self.taps, &mut trace);
        assert_eq!(output, Ok(self.output));
        assert!(trace == self.trace);
        let (table, claim) = (&self.table, self.output);
        let check = lemoncolumn::check(table, &trace, claim, self.k);
        assert_eq!((newer.check)(table, &trace, claim, self.k), check);
        let mut taps = vec![0; self.taps.len()];
        let read = (newer.read_off)(table, &trace, claim, self.k, &mut taps);
        assert_eq!(read, check);
        assert!(taps == self.taps);
    }
}

/// Measures all operations on days of k = 1, 64 and 1024; answers how the time of
/// a batch grows from k = 64 to k = 1024.
pub fn measure(table: &mut Table, days: &[Day; 3]) -> Vec<(&'static str, f64)> {
    let mut grown = vec![];
    let none = Goals::none();
    let of_second = Goals::of_second(1.0);
    let to_hash = Goals::of_yardstick(0.53, 0.53).and_newer(0.31);
    let to_build = Goals::of_yardstick(0.53, 0.52).and_newer(0.29);
    let to_check = Goals::of_yardstick(0.87, 0.84).and_newer(0.51);
    let to_read = Goals::of_yardstick(0.89, 0.89);
    let prepare = prepare as fn(&Day) -> Vec<Way>;
    for (name, goals, days, operation) in [
        ("prepare", of_second, &days[..1], prepare),
        ("hash, twelve cells", to_hash, &days[..1], hash),
        ("build", to_build, days, build),
        ("check", to_check, days, check),
        ("read-off", to_read, days, read_off),
        ("pack", none, days, pack),
        ("unpack", none, days, unpack),
    ] {
        let ways = days.iter().map(operation);
        if let [_] = days {
            table.row(name, goals, ways);
        } else {
            let row = format!("{name}, k = 1 / 64 / 1024, a batch");
            let times = table.row(&row, goals, ways);
            grown.push((name, times[2] / times[1]));
        }
    }
    grown
}

fn prepare(day: &Day) -> Vec<Way<'_>> {
    let raw = || [&day.table[..144], &day.table[288..]].concat();
    let (one, two) = (raw(), raw());
    let mut first = vec![0; 540];
    let mut second = vec![0; 540];
    vec![
        Way::new(1, move || {
            black_box(lemoncolumn::prepare(black_box(&one), &mut first)).expect("prepared");
        }),
        Way::new(1, move || {
            black_box(second::prepare(black_box(&two), &mut second)).expect("prepared");
        }),
    ]
}

fn hash(day: &Day) -> Vec<Way<'_>> {
    let words = std::array::from_fn(|i| day.taps[i]);
    let mut ways = vec![
        Way::new(1, move || {
            black_box(lemoncolumn::hash(black_box(&day.table), words)).expect("hashed");
        }),
        Way::new(1, move || {
            black_box(second::hash(black_box(&day.table), words)).expect("hashed");
        }),
    ];
    for Yardstick { hash, .. } in BOTH {
        ways.push(Way::new(1, move || {
            black_box(hash(black_box(&day.table), words)).expect("hashed");
        }));
    }
    if let Some(Newer { hash, .. }) = newer::found() {
        ways.push(Way::new(1, move || {
            black_box(hash(black_box(&day.table), words)).expect("hashed");
        }));
    }
    ways
}

fn build(day: &Day) -> Vec<Way<'_>> {
    let room = || vec![0; day.trace.len()];
    let (mut one, mut two) = (room(), room());
    let mut ways = vec![
        Way::new(day.k, move || {
            black_box(lemoncolumn::build(&day.table, &day.taps, &mut one)).expect("built");
        }),
        Way::new(day.k, move || {
            black_box(second::build(&day.table, &day.taps, &mut two)).expect("built");
        }),
    ];
    for Yardstick { build, .. } in BOTH {
        let mut three = room();
        ways.push(Way::new(day.k, move || {
            black_box(build(&day.table, &day.taps, &mut three)).expect("built");
        }));
    }
    if let Some(Newer { build, .. }) = newer::found() {
        let mut four = room();
        ways.push(Way::new(day.k, move || {
            black_box(build(&day.table, &day.taps, &mut four)).expect("built");
        }));
    }
    ways
}

fn check(day: &Day) -> Vec<Way<'_>> {
    let mut ways = vec![
        proved_check(day, day.k),
        Way::new(day.k, || {
            let tests = second::check(&day.table, &day.trace, day.output, day.k);
            black_box(tests).expect("accepted");
        }),
    ];
    for Yardstick { check, .. } in BOTH {
        ways.push(Way::new(day.k, move || {
            let tests = check(&day.table, &day.trace, day.output, day.k);
            black_box(tests).expect("accepted");
        }));
    }
    if let Some(Newer { check, .. }) = newer::found() {
        ways.push(Way::new(day.k, move || {
            let tests = check(&day.table, &day.trace, day.output, day.k);
            black_box(tests).expect("accepted");
        }));
    }
    ways
}

/// The proved Check under the claim of this c.
pub fn proved_check(day: &Day, c: usize) -> Way<'_> {
    let claim = output_after(&day.trace, c);
    Way::new(day.k, move || {
        let tests = lemoncolumn::check(&day.table, &day.trace, claim, c);
        black_box(tests).expect("accepted");
    })
}

/// The proved Read-off under the claim of this c.
pub fn proved_read_off(day: &Day, c: usize) -> Way<'_> {
    let claim = output_after(&day.trace, c);
    let mut taps = vec![0; day.taps.len()];
    Way::new(day.k, move || {
        let tests = lemoncolumn::read_off(&day.table, &day.trace, claim, c, &mut taps);
        black_box(tests).expect("read");
    })
}

fn read_off(day: &Day) -> Vec<Way<'_>> {
    let room = || vec![0; day.taps.len()];
    let mut two = room();
    let mut ways = vec![
        proved_read_off(day, day.k),
        Way::new(day.k, move || {
            let read = second::read_off(&day.table, &day.trace, day.output, day.k, &mut two);
            black_box(read).expect("read");
        }),
    ];
    for Yardstick { read_off, .. } in BOTH {
        let mut three = room();
        ways.push(Way::new(day.k, move || {
            let read = read_off(&day.table, &day.trace, day.output, day.k, &mut three);
            black_box(read).expect("read");
        }));
    }
    if let Some(Newer { read_off, .. }) = newer::found() {
        let mut four = room();
        ways.push(Way::new(day.k, move || {
            let read = read_off(&day.table, &day.trace, day.output, day.k, &mut four);
            black_box(read).expect("read");
        }));
    }
    ways
}

fn pack(day: &Day) -> Vec<Way<'_>> {
    let (mut one, mut two) = (day.file.clone(), day.file.clone());
    vec![
        Way::new(day.k, move || {
            black_box(lemoncolumn::pack(&day.taps, day.output, &mut one)).expect("packed");
        }),
        Way::new(day.k, move || {
            black_box(second::pack(&day.taps, day.output, &mut two)).expect("packed");
        }),
    ]
}

fn unpack(day: &Day) -> Vec<Way<'_>> {
    let (mut one, mut two) = (day.taps.clone(), day.taps.clone());
    vec![
        Way::new(day.k, move || {
            black_box(lemoncolumn::unpack(&day.file, &mut one)).expect("unpacked");
        }),
        Way::new(day.k, move || {
            black_box(second::unpack(&day.file, &mut two)).expect("unpacked");
        }),
    ]
}
