//! The proved library's time beside that of the second implementation (a), of the
//! yardstick (b), and of the yardstick that reduces late (c), as ratios of one run.
//!
//!     tools/build lemoncolumn && tools/build speed_probes && tools/staticlib-for x86-64-v3
//!     cd rust && cargo run --release --offline -p bench
//!
//! prints the tables of docs/SPEED.md. The last of the three archives, linked by
//! `newer`, is for the columns of the first table that have its name; without it, or on a
//! processor of a lower level, they are empty.
//!
//! A further operation gets its row, with its goals, in the list of `operations` or in
//! `field`; one that alters what is lent to it, as Edit does, in `edits`. Unhash, whose
//! goal goes by the hash of (b), is in `unhash`, claims that end before the rows do in
//! `claims`, the short edition of the board file, whose goals go by the full one, in
//! `short`, the converters between the two, whose goals go by unpacking and packing, in
//! `converters`, and all of them at the largest k, whose goals go by k = 1024, in
//! `season`.
//!
//!     cargo run --release --offline -p bench season
//!
//! prints the table of `season` alone, in a minute: each operation on a trace runs once
//! at the largest k, and too short at k = 1024 for times that can be compared well.
//!
//! The implementations take turns, many times over, and the shortest time of
//! each counts, in the thread's own time: what else the machine does lengthens
//! some turns of each.

mod claims;
mod converters;
mod editions;
mod edits;
mod field;
mod newer;
mod operations;
mod season;
mod short;
mod stack;
mod timing;
mod unhash;

use editions::Editions;
use operations::Day;
use season::Runs;
use std::process::ExitCode;
use timing::Table;

fn main() -> ExitCode {
    let arguments: Vec<String> = std::env::args().skip(1).collect();
    match arguments.iter().map(String::as_str).collect::<Vec<_>>()[..] {
        [] => all_tables(),
        ["season"] => season::measure(Runs::Once).print(),
        _ => {
            eprintln!("usage: bench [season]");
            return ExitCode::from(2);
        }
    }
    ExitCode::SUCCESS
}

fn all_tables() {
    let mut table = Table::new();
    field::measure(&mut table);
    let days = [1, 64, 1024].map(Day::new);
    let growth = operations::measure(&mut table, &days);
    let unhash = unhash::measure(&days[0]);
    let edits = edits::measure(&days[2]);
    let claims = claims::measure(&days[2]);
    let editions = Editions::new();
    let short = short::measure(&editions);
    let converters = converters::measure(&editions);
    let season = season::measure(Runs::Long);
    table.print();
    let growth: Vec<String> = growth
        .iter()
        .map(|(operation, growth)| format!("{growth:.2} ({operation})"))
        .collect();
    let growth = growth.join(", ");
    println!("\nA batch at k = 1024 takes {growth} times what it takes at k = 64.\n");
    edits.print();
    println!();
    unhash.print();
    println!();
    claims.print();
    println!();
    short.print();
    println!();
    converters.print();
    println!();
    season.print();
}
