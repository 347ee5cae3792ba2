//! Scripts: a batch to a process of the other side, every line compared, the first difference shrunk.

use crate::draw::{self, Drawn};
use crate::other;
use crate::parting::{Parting, parting};
use crate::shrink::{shortest, smallest};
use crate::tally::Tally;
use crate::{BATCH, Options, SHRINKING};
use oracle::random::Random;
use oracle::refusal::{self, ACCEPTED};
use oracle::script::Bench;
use oracle::script_cases;
use std::time::Instant;

/// Ticks that a script being shrunk may always run.
const SLACK: u64 = 100_000;

#[derive(Default)]
pub struct Scripts {
    pub calls: u64,
    pub words: u64,
    pub ticks: u64,
    pub scripts: u64,
    pub cases: u64,
    pub differences: u64,
}

/// The scripts of a run, as many to a batch as one process gets.
pub struct Batches {
    random: Random,
    pub tally: Tally,
    count: u64,
    asked: u64,
    drawn: u64,
}

impl Batches {
    pub fn new(options: &Options) -> Batches {
        Batches { random: Random(options.seed), tally: Tally::default(), count: options.count, asked: 0, drawn: 0 }
    }

    /// The first script begins on the default chip, each other makes its own. None where enough are drawn.
    pub fn next(&mut self) -> Option<Vec<Drawn>> {
        while self.drawn >= self.asked {
            if self.asked >= self.count {
                return None;
            }
            self.asked += BATCH.min(self.count - self.asked);
        }
        let mut batch = Vec::new();
        while self.drawn < self.asked {
            let drawn = draw::script(&mut self.random, &mut self.tally, batch.is_empty());
            self.drawn += drawn.calls;
            batch.push(drawn);
        }
        Some(batch)
    }
}

impl Scripts {
    pub fn report(&self, path: &str) {
        let Scripts { calls, words, ticks, scripts, cases, differences } = self;
        println!(
            "calls={calls} words={words} ticks={ticks} scripts={scripts} cases={cases} differences={differences} ({path})"
        );
    }

    /// The cases, a process to each, up to the first difference where that is enough.
    pub fn compare_cases(&mut self, path: &str, first: bool) {
        for case in script_cases::all() {
            if !(first && self.differences > 0) {
                self.compare(path, &[draw::case(case)], first);
            }
        }
    }

    pub fn compare(&mut self, path: &str, batch: &[Drawn], first: bool) {
        let input: String = batch.iter().map(|drawn| drawn.script.as_str()).collect();
        let output = other::run(path, input.into_bytes());
        let mut theirs = output.as_slice();
        for (place, drawn) in batch.iter().enumerate() {
            let (its_own, rest) = cut(theirs, 2 * drawn.calls as usize);
            theirs = rest;
            if let Some(parting) = parting(drawn.printed.as_bytes(), its_own) {
                self.differences += 1;
                if self.differences == 1 {
                    match &drawn.case {
                        Some(name) => println!("first difference at case {name}"),
                        None => println!("first difference at call {}", self.calls + parting.line as u64 / 2 + 1),
                    }
                    show(path, &batch[..place], drawn);
                }
                if first {
                    return;
                }
            }
            if drawn.case.is_some() {
                self.cases += 1;
                continue;
            }
            self.calls += drawn.calls;
            self.words += drawn.words;
            self.ticks += drawn.ticks;
            self.scripts += 1;
        }
        if !theirs.is_empty() {
            self.differences += 1;
            println!("past the last line: {}", String::from_utf8_lossy(&theirs[..theirs.len().min(80)]));
        }
    }
}

/// The first lines of a text, and the rest.
fn cut(text: &[u8], lines: usize) -> (&[u8], &[u8]) {
    let ends = text.iter().enumerate().filter(|(_, byte)| **byte == b'\n').map(|(place, _)| place + 1);
    text.split_at(ends.take(lines).last().unwrap_or(0))
}

/// Where the sides part on this script, and the ticks it ran. None where they agree, or where it runs past the limit.
fn parts(path: &str, lines: &[String], limit: u64) -> Option<(Parting, u64)> {
    let mut bench = Bench::default();
    let mut printed = String::new();
    for line in lines {
        if bench.ticks + ticks_asked(&bench, line) > limit {
            return None;
        }
        bench.line(line, &mut printed);
    }
    let script: String = lines.iter().map(|line| format!("{line}\n")).collect();
    let parting = parting(printed.as_bytes(), &other::run(path, script.into_bytes()))?;
    Some((parting, bench.ticks))
}

/// Ticks that a call would run on this chip, or a few more.
fn ticks_asked(bench: &Bench, line: &str) -> u64 {
    if !bench.in_range() {
        return 0;
    }
    let (internal, rate, cycles) = bench.chip.clocks();
    let length = match line.strip_prefix("block ") {
        Some(length) => length.parse().unwrap_or(0),
        None => (line == "word") as usize,
    };
    match refusal::of_block(length, bench.chip.start(), cycles) {
        ACCEPTED => length as u64 * (internal / rate + 1) as u64,
        _ => 0,
    }
}

/// Shrinks the script and prints what is left. The scripts before it come in only where it alone shows nothing.
fn show(path: &str, before: &[Drawn], drawn: &Drawn) {
    let lines = |text: &str| text.lines().map(str::to_string).collect::<Vec<_>>();
    let mut script = lines(&drawn.script);
    if parts(path, &script, u64::MAX).is_none() {
        let all: String = before.iter().chain([drawn]).map(|drawn| drawn.script.as_str()).collect();
        script = lines(&all);
    }
    let Some((parting, _)) = parts(path, &script, u64::MAX) else {
        return println!("it does not show when run again");
    };
    script.truncate(parting.line / 2 + 1);

    let begun = Instant::now();
    // Smaller numbers can make slower clocks: what is tried may not run much longer than what is kept.
    let mut limit = u64::MAX;
    let mut fails = |lines: &[String]| {
        let found = if begun.elapsed() > SHRINKING { None } else { parts(path, lines, limit) };
        if let Some((_, ticks)) = found {
            limit = limit.min(SLACK + 2 * ticks);
        }
        found.is_some()
    };
    fails(&script);
    let script = shortest(&script, &mut fails);
    let script = smallest(&script, &mut fails);
    let script = shortest(&script, &mut fails);

    println!("shortest script that shows it ({} lines):", script.len());
    script.iter().for_each(|line| println!("    {line}"));
    if let Some((parting, _)) = parts(path, &script, u64::MAX) {
        parting.print();
    }
}
