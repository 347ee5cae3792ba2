//! Times our calls and the crate's on the same registers and clocks, in turn, and holds each line to its bar.
//! `bench/run` builds and runs it; docs/BENCHMARKS.md says what the lines mean.

mod calls;
mod crates_own;
mod loads;
mod measure;
mod ours;
mod side;
mod table;

use std::process::exit;
use table::{PLAIN, Table};

fn main() {
    let wanted: Vec<String> = std::env::args().skip(1).collect();
    let said = wanted.join(" ");
    let mut table = Table::of(wanted);
    loads::lines(&mut table);
    if PLAIN {
        calls::lines(&mut table);
    }
    if table.lines == 0 {
        eprintln!("bench: no line has any of these words: {said}");
        exit(2);
    }
    exit((table.missed > 0) as i32);
}
