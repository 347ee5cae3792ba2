//! Two errors at once: which one is told.

use super::good::{head, write};
use crate::{Text, text};

/// For each line of a capture with two writes, lines not of their form and lines out of range; for the second stamp a lower one too.
const BAD: [&[&str]; 10] = [
    &["master=", "master=1073741824"],
    &["rate=x", "rate=0", "rate=250001"],
    &["writes=02", "writes=1501"],
    &["words=4 ", "words=0", "words=65537"],
    &["at=x", "at=18446744073709551616"],
    &["port=", "port=4"],
    &["value=0F"],
    &["at=041", "at=18446744073709551616", "at=39"],
    &["port=00", "port=9999999999"],
    &["value=0"],
];

/// Not of their form, and with a value out of range or lower.
#[rustfmt::skip]
const BOTH: [(usize, &str); 19] = [
    (2, "writes=01501"), (2, "writes=1501 "), (2, "writes=1501\r"), (2, "Writes=1501"), (2, "writes=-1"),
    (3, "words=00"), (3, "words=065537"), (3, "words=65537\r"), (3, "word=0"), (3, "words=-0"),
    (4, "at=018446744073709551616"), (4, "at=18446744073709551616 "), (4, "At=18446744073709551616"), (4, "at=-1"),
    (5, "port=04"), (5, "port=4 "), (5, "ports=4"), (7, "at=39 "), (7, "at=-39"),
];

/// How far apart the two lines are, at most.
const APART: usize = 2;

pub fn texts() -> Vec<Text> {
    let mut all = Vec::new();
    for (i, firsts) in BAD.iter().enumerate() {
        for first in *firsts {
            all.push(text(format!("line {}: {first}, and a write too many", i + 1), with(&[(i, first)]) + "at=64\n"));
            for (j, seconds) in BAD.iter().enumerate().skip(i + 1).take(APART) {
                for second in *seconds {
                    let name = format!("lines {} and {}: {first} and {second}", i + 1, j + 1);
                    all.push(text(name, with(&[(i, first), (j, second)])));
                }
            }
        }
    }
    for (i, line) in BOTH {
        all.push(text(line.escape_debug().to_string(), with(&[(i, line)])));
    }
    all.push(text("master=0 and rate=0", with(&[(0, "master=0"), (1, "rate=0")])));
    all
}

/// A capture with two writes, some of its lines replaced.
fn with(changes: &[(usize, &str)]) -> String {
    let mut lines = head("2000000", "250000", "2", "4");
    lines.extend(write("40", "0", "08"));
    lines.extend(write("41", "2", "0f"));
    for (i, line) in changes {
        lines[*i] = format!("{line}\n");
    }
    lines.concat()
}
