//! The short edition of the board file (document 02, U7), beside the full edition of the
//! same elements: one word or three, each is written and read as often as there, so that
//! neither should take much more.

use crate::editions::{Editions, Goal, Table, MIX};

/// What they may take, as a ratio to the full edition's, on days of more than one batch.
const GOAL: Goal = Goal { most: 1.5, from: 1 };

/// None for the random mix, where it is up to the processor how well it foretells the
/// width of the next element.
fn goal(days: &str) -> Option<Goal> {
    (days != MIX).then_some(GOAL)
}

/// The fifth table of docs/SPEED.md.
pub fn measure(editions: &Editions) -> Table {
    let mut table = Table::new("the full edition's");
    table.measure(
        "pack, short",
        editions,
        |days| vec![days.pack_short(), days.pack()],
        goal,
    );
    table.measure(
        "unpack, short",
        editions,
        |days| vec![days.unpack_short(), days.unpack()],
        goal,
    );
    table
}
