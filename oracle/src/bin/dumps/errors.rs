//! Two errors at once: which one is told.

use crate::good::{frame, plain};
use crate::{Text, text};

/// For each line of a dump with one frame, a line not of its form, and then lines out of range.
const BAD: [&[&str]; 5] = [
    &["master=", "master=1073741824"],
    &["rate=x", "rate=0", "rate=250001"],
    &["words=04", "words=0", "words=4097"],
    &["frames=1 ", "frames=1901"],
    &["regs=0"],
];

/// Not of their form, and with a value out of range.
#[rustfmt::skip]
const BOTH: [(usize, &str); 18] = [
    (0, "master=01073741824"), (0, "master=1073741824 "), (0, "master=1073741824\r"), (0, "Master=1073741824"),
    (0, "master=-1"), (1, "rate=00"), (1, "rate=-0"), (1, "rate=0 "), (1, "rate= 250001"), (1, "rate=0250001"),
    (2, "words=00"), (2, "words=04097"), (2, "words=4097\r"), (2, "Words=0"),
    (3, "frames=01901"), (3, "frames=1901 "), (3, "frames=1901\r"), (3, "frame=1901"),
];

pub fn texts() -> Vec<Text> {
    let mut all = Vec::new();
    for (i, firsts) in BAD.iter().enumerate() {
        for first in *firsts {
            all.push(text(format!("{first}, and a frame too many"), with(&[(i, first)]) + &frame(0)));
            for (j, seconds) in BAD.iter().enumerate().skip(i + 1) {
                for second in *seconds {
                    all.push(text(format!("{first} and {second}"), with(&[(i, first), (j, second)])));
                }
            }
        }
    }
    for (i, line) in BOTH {
        all.push(text(line.escape_debug().to_string(), with(&[(i, line)])));
    }
    all.push(text("master=0 and rate=0", with(&[(0, "master=0"), (1, "rate=0")])));
    all
}

/// The dump with one frame, some of its lines replaced.
fn with(changes: &[(usize, &str)]) -> String {
    let mut lines = plain(1);
    for (i, line) in changes {
        lines[*i] = format!("{line}\n");
    }
    lines.concat()
}
