//! The table: a line to each work that is wanted, and the bar that the line is held to.

use crate::measure::{Times, Work, beside_the_crate, held};

/// Whether this build is the crate's plain one, for the ratios, or the oracle, for its last column.
pub const PLAIN: bool = cfg!(feature = "plain");

/// A call by itself takes at most so many nanoseconds, or so many times the crate's.
const CALL_NANOSECONDS: f64 = 20.0;
const CALL_RATIO: f64 = 8.0;
/// Nanoseconds that a call may take more when writes wait.
const FLAT: f64 = 10.0;

/// The most that ours may take.
#[derive(Clone, Copy)]
pub enum Bar {
    None,
    /// Times the crate's.
    Ratio(f64),
    /// Nanoseconds, or times the crate's.
    Call,
    /// The same; and flat in what waits, beside our nanoseconds when nothing does.
    FlatCall(f64),
}

impl Bar {
    fn holds(self, times: Times) -> bool {
        match self {
            Bar::None => true,
            Bar::Ratio(most) => times.ratio() <= most,
            Bar::Call => times.ours <= CALL_NANOSECONDS || times.ratio() <= CALL_RATIO,
            Bar::FlatCall(none_waits) => Bar::Call.holds(times) && times.ours <= none_waits + FLAT,
        }
    }

    fn shown(self) -> String {
        match self {
            Bar::None => String::new(),
            Bar::Ratio(most) => format!("{most:.2}"),
            Bar::Call => format!("{CALL_NANOSECONDS} ns or {CALL_RATIO:.2}"),
            Bar::FlatCall(none_waits) => format!("{}; flat: {none_waits:.1} + {FLAT} ns", Bar::Call.shown()),
        }
    }
}

/// What a line says of its work. The load and the rate are the words that select it.
pub struct Label {
    pub load: &'static str,
    pub what: String,
    pub rate: u32,
    pub block: Option<usize>,
}

pub struct Table {
    wanted: Vec<String>,
    pub lines: usize,
    pub missed: usize,
}

impl Table {
    /// Of no words, all lines.
    pub fn of(wanted: Vec<String>) -> Table {
        let theirs = if PLAIN { "crate" } else { "oracle" };
        println!("{:8}{:36}{:>6}{:>6}{:>11}{theirs:>11}{:>8}  bar", "load", "what", "rate", "block", "ours", "ratio");
        Table { wanted, lines: 0, missed: 0 }
    }

    fn wants(&self, label: &Label) -> bool {
        self.wanted.is_empty() || self.wanted.iter().any(|word| word == label.load || *word == label.rate.to_string())
    }

    /// Measures the work and prints its line, if it is wanted: our nanoseconds.
    pub fn line(&mut self, label: Label, work: &impl Work, bar: Bar) -> Option<f64> {
        self.measured(label, beside_the_crate(work), bar)
    }

    /// The same of any two sides that a run times in turn. The oracle's build holds nothing to a bar.
    pub fn measured(&mut self, label: Label, run: impl FnMut() -> Times, bar: Bar) -> Option<f64> {
        if !self.wants(&label) {
            return None;
        }
        let bar = if PLAIN { bar } else { Bar::None };
        let times = held(run, |times| bar.holds(times));
        self.lines += 1;
        self.missed += !bar.holds(times) as usize;
        print(&label, times, bar);
        Some(times.ours)
    }
}

fn print(label: &Label, times: Times, bar: Bar) {
    let Label { load, what, rate, block } = label;
    let block = block.map_or(String::new(), |words| words.to_string());
    let verdict = if bar.holds(times) { "" } else { "  MISSED" };
    let (ours, theirs, ratio, most) = (times.ours, times.theirs, times.ratio(), bar.shown());
    let line = format!("{load:8}{what:36}{rate:>6}{block:>6}{ours:>11.1}{theirs:>11.1}{ratio:>8.2}  {most}{verdict}");
    println!("{}", line.trim_end());
}
