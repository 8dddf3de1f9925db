//! Unhash (document 02, U5), beside the proved Hash and that of the yardstick (b): ten
//! rounds undone are ten rounds, so that it should take of (b)'s what Hash should.

use crate::operations::Day;
use crate::timing::{goal_cell, nanoseconds, times, Way};
use lemoncolumn::{Refusal, PAIR_WORDS, STATE_WORDS};
use std::hint::black_box;

/// What it may take, as a ratio to (b)'s hash.
const GOAL: f64 = 0.53;

/// The shortest times: of the proved library, of the second implementation, of the
/// proved Hash, and of (b)'s.
struct Row {
    name: &'static str,
    proved: f64,
    second: f64,
    hash: f64,
    yardstick: f64,
}

/// The third table of docs/SPEED.md.
pub struct Table(Vec<Row>);

/// A state that has a pair, and one that has none, which only the end shows.
pub fn measure(day: &Day) -> Table {
    let pair = std::array::from_fn(|i| day.taps[i]);
    let state = lemoncolumn::hash(&day.table, pair).expect("hashed");
    let none = state.map(|cell| cell / 2);
    let rows = [
        ("unhash", state, Ok(pair)),
        ("unhash, no pair", none, Err(Refusal::NoPair)),
    ];
    Table(
        rows.map(|(name, state, answer)| row(day, name, state, pair, answer))
            .into(),
    )
}

fn row(
    day: &Day,
    name: &'static str,
    state: [u64; STATE_WORDS],
    pair: [u64; PAIR_WORDS],
    answer: Result<[u64; PAIR_WORDS], Refusal>,
) -> Row {
    let table = &day.table;
    assert_eq!(lemoncolumn::unhash(table, state), answer);
    assert_eq!(second::unhash(table, state).ok(), answer.ok());
    let mut ways = [
        Way::new(1, || {
            black_box(lemoncolumn::unhash(black_box(table), state)).ok();
        }),
        Way::new(1, || {
            black_box(second::unhash(black_box(table), state)).ok();
        }),
        Way::new(1, || {
            black_box(lemoncolumn::hash(black_box(table), pair)).expect("hashed");
        }),
        Way::new(1, || {
            black_box((yardstick::EACH.hash)(black_box(table), pair)).expect("hashed");
        }),
    ];
    let best = times(&mut ways);
    Row {
        name,
        proved: best[0],
        second: best[1],
        hash: best[2],
        yardstick: best[3],
    }
}

impl Table {
    pub fn print(&self) {
        println!("| What | proved, ns | of (a) | of Hash | of (b)'s hash | goal |");
        println!("|---|---|---|---|---|---|");
        for row in &self.0 {
            let time = nanoseconds(row.proved);
            let of_second = row.proved / row.second;
            let of_hash = row.proved / row.hash;
            let of_yardstick = row.proved / row.yardstick;
            let goal = goal_cell(&format!("{GOAL} of (b)'s hash"), of_yardstick > GOAL);
            println!(
                "| {} | {time} | {of_second:.2} | {of_hash:.2} | {of_yardstick:.2} | {goal} |",
                row.name
            );
        }
    }
}
