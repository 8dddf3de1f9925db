//! Times of several ways to do one thing, taken in turn.

use std::hint::black_box;
use std::time::Duration;

/// The kernel's `struct timespec`, and its clock of this thread's own time:
/// what the processor spends on others does not count.
#[repr(C)]
struct Timespec {
    seconds: i64,
    nanoseconds: i64,
}
const THREAD_TIME: i32 = 3;

extern "C" {
    fn clock_gettime(clock: i32, time: *mut Timespec) -> i32;
}

/// The thread's own time.
pub fn now() -> Duration {
    let mut time = Timespec {
        seconds: 0,
        nanoseconds: 0,
    };
    // SAFETY: `time` is there to be written.
    let status = unsafe { clock_gettime(THREAD_TIME, &mut time) };
    assert_eq!(status, 0, "no clock of the thread's own time");
    Duration::new(time.seconds as u64, time.nanoseconds as u32)
}

/// The shortest stretch that is timed at once.
const STRETCH: Duration = Duration::from_millis(2);
/// Turns of each way: at least so many, and as many more as this time allows.
const TURNS: usize = 7;
const TIME: Duration = Duration::from_millis(1500);

/// Places of the stack at which the turns run, one after the other. At a few in a
/// hundred Hash, Check or Unhash was seen to take up to a quarter more; the shortest
/// time should not depend on where a process happens to begin.
const PLACES: usize = 16;

/// Runs at a place that is so many frames further down, of some 240 bytes each.
#[inline(never)]
fn further_down(frames: usize, run: &mut dyn FnMut() -> Duration) -> Duration {
    let frame = black_box([0_u8; 200]);
    let time = match frames {
        0 => run(),
        _ => further_down(frames - 1, run),
    };
    black_box(&frame);
    time
}

/// One way to do a thing; each run of it counts `units`.
pub struct Way<'a> {
    run: Box<dyn FnMut() + 'a>,
    units: f64,
}

impl<'a> Way<'a> {
    pub fn new(units: usize, run: impl FnMut() + 'a) -> Way<'a> {
        Way {
            run: Box::new(run),
            units: units as f64,
        }
    }

    /// How many runs fill a stretch.
    fn calibrate(&mut self) -> usize {
        let mut runs = 1;
        loop {
            let time = self.time(runs);
            if time >= STRETCH {
                return runs;
            }
            runs = (runs * 2).max((runs as f64 * 1.2 * ratio(STRETCH, time)) as usize);
        }
    }

    fn time(&mut self, runs: usize) -> Duration {
        let start = now();
        for _ in 0..runs {
            (self.run)();
        }
        now() - start
    }
}

fn ratio(one: Duration, other: Duration) -> f64 {
    one.as_secs_f64() / other.as_secs_f64().max(1e-9)
}

/// The shortest time of each way, in nanoseconds for a unit.
pub fn times(ways: &mut [Way]) -> Vec<f64> {
    let runs: Vec<usize> = ways.iter_mut().map(Way::calibrate).collect();
    let mut best = vec![f64::INFINITY; ways.len()];
    let start = now();
    let mut turns = 0;
    while turns < TURNS || now() - start < TIME {
        for (number, way) in ways.iter_mut().enumerate() {
            let time = further_down(turns % PLACES, &mut || way.time(runs[number]));
            let time = time.as_secs_f64() * 1e9;
            let unit = time / (runs[number] as f64 * way.units);
            best[number] = best[number].min(unit);
        }
        turns += 1;
    }
    best
}

/// The shortest times of an operation: of the proved library, of the second
/// implementation (a), of the yardsticks (b) and (c), and of the proved library for
/// x86-64-v3, as far as they have it.
struct Times(Vec<f64>);

/// Places among them.
const PROVED: usize = 0;
const NEWER: usize = 4;

impl Times {
    /// The time of one, of that of another.
    fn ratio(&self, one: usize, other: usize) -> Option<f64> {
        Some(self.0.get(one)? / self.0.get(other)?)
    }
}

/// The most that an operation should take, as a ratio to the time of another
/// implementation, which has this place among the times and this letter: on the first
/// day, which is so short that the table takes a good part, and on the longer ones.
#[derive(Clone, Copy)]
struct Goal {
    first: f64,
    longer: f64,
    place: usize,
    letter: char,
}

impl Goal {
    fn of_yardstick(first: f64, longer: f64) -> Goal {
        Goal {
            first,
            longer,
            place: 2,
            letter: 'b',
        }
    }
}

/// What the proved library should take, and what it should for x86-64-v3.
#[derive(Clone, Copy, Default)]
pub struct Goals {
    plain: Option<Goal>,
    newer: Option<Goal>,
}

impl Goals {
    pub fn none() -> Goals {
        Goals::default()
    }

    pub fn of_second(most: f64) -> Goals {
        Goals {
            plain: Some(Goal {
                first: most,
                longer: most,
                place: 1,
                letter: 'a',
            }),
            newer: None,
        }
    }

    pub fn of_yardstick(first: f64, longer: f64) -> Goals {
        Goals {
            plain: Some(Goal::of_yardstick(first, longer)),
            newer: None,
        }
    }

    /// And so much of the yardstick for x86-64-v3.
    pub fn and_newer(self, most: f64) -> Goals {
        Goals {
            newer: Some(Goal::of_yardstick(most, most)),
            ..self
        }
    }
}

/// A row: the times of one input, or of each of several, and the goals.
struct Row {
    name: String,
    times: Vec<Times>,
    goals: Goals,
}

impl Row {
    /// A cell, with one number for each input, or with one where all are alike.
    fn cell(&self, number: impl Fn(&Times) -> Option<String>) -> String {
        let numbers = self.times.iter().map(number);
        let mut all: Vec<String> = numbers.map(Option::unwrap_or_default).collect();
        if all.iter().all(|one| *one == all[0]) {
            all.truncate(1);
        }
        all.join(" / ")
    }

    fn time(&self, of: usize) -> String {
        self.cell(|times| times.0.get(of).map(|&time| nanoseconds(time)))
    }

    fn ratio(&self, one: usize, other: usize) -> String {
        self.cell(|times| Some(format!("{:.2}", times.ratio(one, other)?)))
    }

    /// The goal of the one that has this place among the times.
    fn goal(&self, of: usize, goal: Option<Goal>) -> String {
        let (Some(goal), true) = (goal, self.times[0].0.len() > of) else {
            return String::new();
        };
        let missed = |(day, times): (usize, &Times)| {
            let most = if day == 0 { goal.first } else { goal.longer };
            times.ratio(of, goal.place).is_some_and(|it| it > most)
        };
        let most = match goal.first == goal.longer {
            true => format!("{:.2}", goal.first),
            false => format!("{:.2} / {:.2}", goal.first, goal.longer),
        };
        goal_cell(
            &format!("{most} of ({})", goal.letter),
            self.times.iter().enumerate().any(missed),
        )
    }
}

/// A goal, and whether it is missed.
pub fn goal_cell(goal: &str, missed: bool) -> String {
    match missed {
        true => format!("{goal}, missed"),
        false => goal.to_string(),
    }
}

/// Nanoseconds, with a space before each three digits.
pub fn nanoseconds(time: f64) -> String {
    if time < 10.0 {
        return format!("{time:.1}");
    }
    let digits = format!("{time:.0}");
    let mut spaced = String::new();
    for (place, digit) in digits.chars().enumerate() {
        if place > 0 && (digits.len() - place) % 3 == 0 {
            spaced.push(' ');
        }
        spaced.push(digit);
    }
    spaced
}

/// The first table of docs/SPEED.md.
pub struct Table(Vec<Row>);

impl Table {
    pub fn new() -> Table {
        Table(vec![])
    }

    /// Measures the proved library, the second implementation, the yardsticks and then
    /// the proved library for x86-64-v3, on each input; answers the proved library's
    /// times.
    pub fn row<'a>(
        &mut self,
        name: &str,
        goals: Goals,
        inputs: impl IntoIterator<Item = Vec<Way<'a>>>,
    ) -> Vec<f64> {
        let measured = inputs.into_iter().map(|mut ways| Times(times(&mut ways)));
        let row = Row {
            name: name.to_string(),
            times: measured.collect(),
            goals,
        };
        let proved = row.times.iter().map(|times| times.0[PROVED]).collect();
        self.0.push(row);
        proved
    }

    pub fn print(&self) {
        println!(
            "| What | proved, ns | of (a) | of (b) | of (c) | goal \
             | for x86-64-v3, ns | of (b) | of (c) | goal |"
        );
        println!("|---|---|---|---|---|---|---|---|---|---|");
        for row in &self.0 {
            let cells = [
                row.name.clone(),
                row.time(PROVED),
                row.ratio(PROVED, 1),
                row.ratio(PROVED, 2),
                row.ratio(PROVED, 3),
                row.goal(PROVED, row.goals.plain),
                row.time(NEWER),
                row.ratio(NEWER, 2),
                row.ratio(NEWER, 3),
                row.goal(NEWER, row.goals.newer),
            ];
            let line = format!("| {} |", cells.join(" | "));
            println!("{}", line.replace("  ", " "));
        }
    }
}
