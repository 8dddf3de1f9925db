//! Claims that end before the rows do (document 02, U6): Check and Read-off beside
//! themselves with c = k. Every batch is tested whatever c is, so that their time
//! should not depend on it.

use crate::operations::{proved_check, proved_read_off, Day};
use crate::timing::{goal_cell, nanoseconds, times, Way};

/// What they may take, as a ratio to what they take with c = k: the same, but for what
/// one run differs from another, up to 3 % on shared cores.
const GOAL: f64 = 1.05;
/// A ratio so near to 1 wants more turns than those of the other tables.
const ROUNDS: usize = 4;

/// The shortest times of a batch, with this c and with c = k.
struct Row {
    name: String,
    early: f64,
    whole: f64,
}

/// The fourth table of docs/SPEED.md.
pub struct Table(Vec<Row>);

/// The first batch alone, and one past the middle, which is no power of two.
pub fn measure(day: &Day) -> Table {
    let check = proved_check as fn(&Day, usize) -> Way;
    let mut rows = vec![];
    for (name, way) in [("check", check), ("read-off", proved_read_off)] {
        let cs = [1, day.k / 2 + 1, day.k];
        let best = best(&mut cs.map(|c| way(day, c)));
        for (c, &early) in cs.iter().zip(&best[..2]) {
            rows.push(Row {
                name: format!("{name}, c = {c}, k = {}", day.k),
                early,
                whole: best[2],
            });
        }
    }
    Table(rows)
}

fn best(ways: &mut [Way]) -> Vec<f64> {
    let mut best = times(ways);
    for _ in 1..ROUNDS {
        for (best, time) in best.iter_mut().zip(times(ways)) {
            *best = best.min(time);
        }
    }
    best
}

impl Table {
    pub fn print(&self) {
        println!("| What | proved, ns a batch | of c = k | goal |");
        println!("|---|---|---|---|");
        for row in &self.0 {
            let time = nanoseconds(row.early);
            let ratio = row.early / row.whole;
            let goal = goal_cell(&format!("{GOAL} of c = k"), ratio > GOAL);
            println!("| {} | {time} | {ratio:.2} | {goal} |", row.name);
        }
    }
}
