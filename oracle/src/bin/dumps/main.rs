//! Draws dump texts and captures, good and damaged, and gives the oracle's reading of 01, and of 02's request 01, for each.
//!
//! `dumps texts` prints the texts, each as a line `text=N`, or `capture=N` for one to be read as a capture, and then its N
//! bytes; `dumps answers` prints a line for each: number and line, and where the number is 0 also master, rate, words and
//! frames of a dump, or master, rate, writes and words of a capture; `dumps names` prints the same with the text's name
//! before it.
//!
//! The dumps, in this order: good dumps; what is no dump at all; each line of a dump damaged; bytes that are no digits;
//! numbers on both sides of each limit; two errors at once; more or fewer frames than are due; bytes after the end; each cut
//! and each byte left out; the longest. Then the captures, likewise; `captures.rs` has their order. What is drawn at random,
//! runs of noise and damages to captures, has a fixed seed.

mod captures;
mod ends;
mod errors;
mod good;
mod limits;
mod lines;
mod others;

use oracle::text::Refused;
use oracle::{capture, dump};
use std::collections::HashSet;
use std::io::{self, BufWriter, Write, stdout};

/// What a text is to be read as.
#[derive(Clone, Copy, Debug, PartialEq, Eq, Hash)]
pub enum Kind {
    Dump,
    Capture,
}

impl Kind {
    fn key(self) -> &'static str {
        match self {
            Kind::Dump => "text",
            Kind::Capture => "capture",
        }
    }
}

/// A text and its name.
pub struct Text {
    pub kind: Kind,
    pub name: String,
    pub bytes: Vec<u8>,
}

pub fn text(name: impl Into<String>, bytes: impl Into<Vec<u8>>) -> Text {
    Text { kind: Kind::Dump, name: name.into(), bytes: bytes.into() }
}

fn main() -> io::Result<()> {
    let what = std::env::args().nth(1).unwrap_or_default();
    let mut out = BufWriter::new(stdout().lock());
    for text in texts() {
        match what.as_str() {
            "texts" => {
                writeln!(out, "{}={}", text.kind.key(), text.bytes.len())?;
                out.write_all(&text.bytes)?;
            }
            "answers" => writeln!(out, "{}", answer(&text))?,
            "names" => writeln!(out, "{}: {}: {}", text.kind.key(), text.name, answer(&text))?,
            _ => {
                eprintln!("usage: dumps texts | answers | names");
                std::process::exit(2);
            }
        }
    }
    out.flush()
}

/// All texts, each once of a kind, under the name that it gets first.
fn texts() -> Vec<Text> {
    let mut all = drawn();
    let mut seen = HashSet::new();
    all.retain(|text| seen.insert((text.kind, text.bytes.clone())));
    all
}

fn drawn() -> Vec<Text> {
    let mut all = good::texts();
    all.extend(others::texts());
    all.extend(lines::texts());
    all.extend(limits::not_digits());
    all.extend(limits::texts());
    all.extend(errors::texts());
    all.extend(ends::texts());
    all.extend(others::longest());
    all.extend(captures::texts());
    all
}

fn answer(text: &Text) -> String {
    let accepted = match text.kind {
        Kind::Dump => dump::read(&text.bytes)
            .map(|dump| format!("{} {} {} {}", dump.master, dump.rate, dump.words, dump.frames.len())),
        Kind::Capture => capture::read(&text.bytes)
            .map(|capture| format!("{} {} {} {}", capture.master, capture.rate, capture.writes.len(), capture.words)),
    };
    match accepted {
        Ok(sizes) => format!("0 0 {sizes}"),
        Err(Refused(number, line)) => format!("{number} {line}"),
    }
}

#[cfg(test)]
mod tests;
