//! Edit (document 02, U1), beside the proved Check and Build of the same day: it
//! tests the trace, and builds it again from the altered tap on.

use crate::operations::{proved_check, Day};
use crate::timing::{goal_cell, nanoseconds, times, Way};
use inputs::edits::{tap_of, with_tap};
use std::hint::black_box;

/// What an edit may take, as a ratio to Check, or to Check and Build together.
enum Goal {
    OfCheck(f64),
    OfCheckAndBuild(f64),
}

/// The shortest times of a batch.
struct Row {
    name: String,
    edit: f64,
    check: f64,
    build: f64,
    goal: Goal,
}

/// The second table of docs/SPEED.md.
pub struct Table(Vec<Row>);

/// The last tap, after which nothing is built but its own hash, and tap 0, after
/// which everything is.
pub fn measure(day: &Day) -> Table {
    let rows = [
        ("last tap", 3 * day.k, Goal::OfCheck(1.05)),
        ("tap 0", 0, Goal::OfCheckAndBuild(1.02)),
    ];
    let rows = rows.map(|(name, tap, goal)| row(day, name, tap, goal));
    Table(rows.into())
}

fn row(day: &Day, name: &str, tap: usize, goal: Goal) -> Row {
    compare(day, tap);
    let mut room = vec![0; day.trace.len()];
    let mut ways = [
        there_and_back(day, tap),
        proved_check(day, day.k),
        Way::new(day.k, || {
            black_box(lemoncolumn::build(&day.table, &day.taps, &mut room)).expect("built");
        }),
    ];
    let best = times(&mut ways);
    Row {
        name: format!("edit, {name}, k = {}", day.k),
        edit: best[0],
        check: best[1],
        build: best[2],
        goal,
    }
}

/// The tap of the day, and another.
fn two_taps(day: &Day, tap: usize) -> [[u64; 4]; 2] {
    let old = tap_of(&day.taps, tap).expect("a tap");
    let [a, b, c, d] = old;
    [old, [d, c, b, a]]
}

/// One edit after the other, to the other tap and back, each of the trace that the
/// one before has left, under its output. So nothing is copied between them.
fn there_and_back(day: &Day, tap: usize) -> Way<'_> {
    let mut trace = day.trace.clone();
    let mut claim = day.output;
    let [mut other, mut new] = two_taps(day, tap);
    Way::new(day.k, move || {
        let edited = lemoncolumn::edit(&day.table, &mut trace, claim, day.k, tap, new);
        claim = black_box(edited).expect("edited");
        std::mem::swap(&mut new, &mut other);
    })
}

/// An edit comes to what a build of the altered list comes to.
fn compare(day: &Day, tap: usize) {
    let [_, new] = two_taps(day, tap);
    let mut trace = day.trace.clone();
    let edited = lemoncolumn::edit(&day.table, &mut trace, day.output, day.k, tap, new);
    let mut built = vec![0; trace.len()];
    let altered = with_tap(&day.taps, tap, new);
    let second = second::build(&day.table, &altered, &mut built);
    assert_eq!(edited.ok(), second.ok());
    assert!(trace == built);
}

impl Row {
    fn of_check(&self) -> f64 {
        self.edit / self.check
    }

    fn of_check_and_build(&self) -> f64 {
        self.edit / (self.check + self.build)
    }

    fn goal(&self) -> String {
        let (most, name, ratio) = match self.goal {
            Goal::OfCheck(most) => (most, "Check", self.of_check()),
            Goal::OfCheckAndBuild(most) => (most, "Check + Build", self.of_check_and_build()),
        };
        goal_cell(&format!("{most} of {name}"), ratio > most)
    }
}

impl Table {
    pub fn print(&self) {
        println!("| What | proved, ns a batch | of Check | of Check + Build | goal |");
        println!("|---|---|---|---|---|");
        for row in &self.0 {
            let time = nanoseconds(row.edit);
            let (one, two) = (row.of_check(), row.of_check_and_build());
            println!(
                "| {} | {time} | {one:.2} | {two:.2} | {} |",
                row.name,
                row.goal()
            );
        }
    }
}
