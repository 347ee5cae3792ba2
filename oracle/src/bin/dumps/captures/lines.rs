//! Each line of a capture, damaged: `writes=` and the first write's lines in every way, the others in some.

use super::good::plain;
use crate::lines::{cut, damaged};
use crate::{Text, text};

const SOME: [&str; 8] = [
    "missing",
    "doubled",
    "an empty line before it",
    "LF missing",
    "CR LF",
    "CR for LF",
    "no value",
    "a zero in front",
];

pub fn texts() -> Vec<Text> {
    let mut all = Vec::new();
    for writes in [0, 2] {
        let lines = plain(writes);
        for at in 0..lines.len() {
            let name = |what: &str| format!("{writes} writes, line {}: {what}", at + 1);
            let (before, after) = (lines[..at].concat(), lines[at + 1..].concat());
            let in_every_way = writes == 2 && [2, 4, 5, 6].contains(&at);
            for (what, line) in damaged(&lines[at]) {
                if in_every_way || SOME.contains(&what) {
                    all.push(text(name(what), format!("{before}{line}{after}")));
                }
            }
            for (what, line) in cut(&lines[at]) {
                all.push(text(name(what), format!("{before}{line}")));
            }
        }
        all.extend(swapped(&lines));
    }
    all
}

/// Neighbours in each other's place, and the lines of one write in those of the other.
fn swapped(lines: &[String]) -> Vec<Text> {
    let mut all = Vec::new();
    for first in 0..lines.len() {
        for second in [first + 1, first + 3].into_iter().filter(|second| *second < lines.len()) {
            let mut swapped = lines.to_vec();
            swapped.swap(first, second);
            all.push(text(
                format!("{} lines, {} and {} swapped", lines.len(), first + 1, second + 1),
                swapped.concat(),
            ));
        }
    }
    all
}
