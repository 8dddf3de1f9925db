//! The converters between the editions of the board file (document 02, U8), beside what
//! they save a caller: to unpack the one file and to pack the other.

use crate::editions::{Days, Editions, Goal, Table};
use crate::timing::Way;
use lemoncolumn::{file_bytes, to_full, to_short};
use std::hint::black_box;

/// What they may take, as a ratio to unpacking and packing, on all days.
const GOAL: Goal = Goal { most: 1.3, from: 0 };

impl Days {
    fn to_short(&self) -> Way<'_> {
        let mut room = vec![0; file_bytes(self.k)];
        self.way(move |day| {
            let file = &mut room[..day.short.len()];
            black_box(to_short(&day.full, file)).expect("converted");
        })
    }

    fn to_full(&self) -> Way<'_> {
        let mut file = vec![0; file_bytes(self.k)];
        self.way(move |day| {
            black_box(to_full(&day.short, &mut file)).expect("converted");
        })
    }
}

/// The sixth table of docs/SPEED.md.
pub fn measure(editions: &Editions) -> Table {
    let mut table = Table::new("unpacking and packing");
    table.measure(
        "full to short",
        editions,
        |days| vec![days.to_short(), days.unpack(), days.pack_short()],
        |_| Some(GOAL),
    );
    table.measure(
        "short to full",
        editions,
        |days| vec![days.to_full(), days.unpack_short(), days.pack()],
        |_| Some(GOAL),
    );
    table
}
