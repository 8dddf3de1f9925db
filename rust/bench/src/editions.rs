//! Days in both editions of the board file (document 02, U7), the ways to write and to
//! read them, and a table of ratios for each k: what `short` and `converters` measure with.

use crate::timing::{goal_cell, nanoseconds, times, Way};
use inputs::files::{any_widths, widths};
use inputs::Random;
use lemoncolumn::{file_bytes, pack, pack_short, short_file_bytes, tap_words};
use lemoncolumn::{to_full, to_short, unpack, unpack_short};
use std::hint::black_box;

const SEED: u64 = 20261117;

/// The batches of a day.
const BATCHES: [usize; 3] = [1, 64, 1024];

/// Batches of the random mix, on several days: a processor would learn the widths of one
/// day that comes again and again.
const MIXED_BATCHES: usize = 16 * 1024;

/// The name of the days whose elements are small or large by chance.
pub const MIX: &str = "random mix";

/// A day, and its two files.
pub struct Day {
    pub claim: [u64; 4],
    pub taps: Vec<u64>,
    pub short: Vec<u8>,
    pub full: Vec<u8>,
}

impl Day {
    fn new(k: usize, elements: &[u64]) -> Day {
        let claim = std::array::from_fn(|i| elements[i]);
        let taps = elements[4..].to_vec();
        let mut short = vec![0; short_file_bytes(&taps, claim)];
        pack_short(&taps, claim, &mut short).expect("packed");
        let mut full = vec![0; file_bytes(k)];
        pack(&taps, claim, &mut full).expect("packed");
        let day = Day {
            claim,
            taps,
            short,
            full,
        };
        day.compare();
        day
    }

    /// The second implementation writes the same files, they hold this day, and each is
    /// converted to the other.
    fn compare(&self) {
        let mut short = vec![0; self.short.len()];
        let mut full = vec![0; self.full.len()];
        second::pack_short(&self.taps, self.claim, &mut short).expect("packed");
        second::pack(&self.taps, self.claim, &mut full).expect("packed");
        assert!(short == self.short && full == self.full);
        let mut taps = [vec![0; self.taps.len()], vec![0; self.taps.len()]];
        assert_eq!(unpack_short(&short, &mut taps[0]), Ok(self.claim));
        assert_eq!(unpack(&full, &mut taps[1]), Ok(self.claim));
        assert!(taps.iter().all(|taps| *taps == self.taps));
        let mut other = [vec![0; short.len()], vec![0; full.len()]];
        assert_eq!(to_short(&full, &mut other[0]), Ok(()));
        assert_eq!(to_full(&short, &mut other[1]), Ok(()));
        assert!(other == [short, full]);
    }
}

/// Days of one k and of elements alike, one after the other.
pub struct Days {
    name: &'static str,
    pub k: usize,
    days: Vec<Day>,
}

impl Days {
    /// A way that goes through the days.
    pub fn way<'a>(&'a self, mut run: impl FnMut(&Day) + 'a) -> Way<'a> {
        let mut days = self.days.iter().cycle();
        Way::new(self.k, move || run(black_box(days.next().expect("a day"))))
    }

    pub fn pack(&self) -> Way<'_> {
        let mut file = vec![0; file_bytes(self.k)];
        self.way(move |day| {
            black_box(pack(&day.taps, day.claim, &mut file)).expect("packed");
        })
    }

    pub fn unpack(&self) -> Way<'_> {
        let mut taps = vec![0; tap_words(self.k)];
        self.way(move |day| {
            black_box(unpack(&day.full, &mut taps)).expect("unpacked");
        })
    }

    pub fn pack_short(&self) -> Way<'_> {
        let mut room = vec![0; file_bytes(self.k)];
        self.way(move |day| {
            let file = &mut room[..day.short.len()];
            black_box(pack_short(&day.taps, day.claim, file)).expect("packed");
        })
    }

    pub fn unpack_short(&self) -> Way<'_> {
        let mut taps = vec![0; tap_words(self.k)];
        self.way(move |day| {
            black_box(unpack_short(&day.short, &mut taps)).expect("unpacked");
        })
    }
}

/// The elements of k batches whose widths follow a pattern, and its name; in turn, those
/// that begin with a small one.
pub fn patterns(random: &mut Random, k: usize) -> [(&'static str, Vec<u64>); 3] {
    let [(_, small), (_, large), (_, alternating), _, _] = widths(random, k);
    [
        ("all small", small),
        ("all large", large),
        ("alternating", alternating),
    ]
}

/// The days of k batches, a row of a table each.
fn all_days(random: &mut Random, k: usize) -> [Days; 4] {
    let [small, large, alternating] = patterns(random, k).map(|(name, elements)| Days {
        name,
        k,
        days: vec![Day::new(k, &elements)],
    });
    let mix = Days {
        name: MIX,
        k,
        days: (0..MIXED_BATCHES / k)
            .map(|_| Day::new(k, &any_widths(random, k)))
            .collect(),
    };
    [small, large, alternating, mix]
}

/// The days of each k.
pub struct Editions(Vec<[Days; 4]>);

impl Editions {
    pub fn new() -> Editions {
        let mut random = Random::new(SEED);
        Editions(BATCHES.map(|k| all_days(&mut random, k)).into())
    }
}

/// What an operation may take at most, as a ratio, on the days from this number on.
#[derive(Clone, Copy)]
pub struct Goal {
    pub most: f64,
    pub from: usize,
}

/// For each k the shortest time of a batch, and the sum of those that it goes by.
struct Row {
    name: String,
    times: Vec<[f64; 2]>,
    goal: Option<Goal>,
}

/// The fifth and the sixth table of docs/SPEED.md.
pub struct Table {
    /// Whose times they go by.
    of: &'static str,
    rows: Vec<Row>,
}

impl Table {
    pub fn new(of: &'static str) -> Table {
        Table { of, rows: vec![] }
    }

    /// A row for each kind of days: the first way, beside the others together. The goal
    /// goes by the name of the days.
    pub fn measure<'a>(
        &mut self,
        operation: &str,
        editions: &'a Editions,
        ways: impl Fn(&'a Days) -> Vec<Way<'a>>,
        goal: impl Fn(&str) -> Option<Goal>,
    ) {
        for i in 0..editions.0[0].len() {
            let days = editions.0.iter().map(|days| &days[i]);
            let name = editions.0[0][i].name;
            let times = days.map(|days| {
                let best = times(&mut ways(days));
                [best[0], best[1..].iter().sum()]
            });
            self.rows.push(Row {
                name: format!("{operation}, {name}, k = 1 / 64 / 1024"),
                times: times.collect(),
                goal: goal(name),
            });
        }
    }

    pub fn print(&self) {
        println!("| What | proved, ns a batch | of {} | goal |", self.of);
        println!("|---|---|---|---|");
        for row in &self.rows {
            let times = row.times.iter().map(|&[own, _]| nanoseconds(own));
            let times: Vec<String> = times.collect();
            let ratios = row.ratios().into_iter().map(|ratio| format!("{ratio:.2}"));
            let ratios: Vec<String> = ratios.collect();
            let cells = [
                row.name.clone(),
                times.join(" / "),
                ratios.join(" / "),
                row.goal(self.of),
            ];
            let line = format!("| {} |", cells.join(" | "));
            println!("{}", line.replace("  ", " "));
        }
    }
}

impl Row {
    fn ratios(&self) -> Vec<f64> {
        self.times.iter().map(|[own, other]| own / other).collect()
    }

    fn goal(&self, of: &str) -> String {
        let Some(Goal { most, from }) = self.goal else {
            return String::new();
        };
        let missed = self.ratios()[from..].iter().any(|&ratio| ratio > most);
        goal_cell(&format!("{most} of {of}"), missed)
    }
}
