//! Captures that pass.

use crate::{Text, text};

/// 02's own two writes, and two more by the other ports, with equal stamps.
const WRITES: [(&str, &str, &str); 4] = [("0", "0", "08"), ("33", "2", "0f"), ("64", "1", "a9"), ("64", "3", "7c")];

pub const LAST_STAMP: &str = "18446744073709551615";

pub fn head(master: &str, rate: &str, writes: &str, words: &str) -> Vec<String> {
    vec![
        format!("master={master}\n"),
        format!("rate={rate}\n"),
        format!("writes={writes}\n"),
        format!("words={words}\n"),
    ]
}

/// A write's three lines.
pub fn write(at: &str, port: &str, value: &str) -> [String; 3] {
    [format!("at={at}\n"), format!("port={port}\n"), format!("value={value}\n")]
}

/// A capture's lines, each with its LF; its writes all alike but for their stamps.
pub fn stamped(words: &str, stamps: &[&str]) -> Vec<String> {
    let mut lines = head("2000000", "250000", &stamps.len().to_string(), words);
    lines.extend(stamps.iter().flat_map(|at| write(at, "2", "0f")));
    lines
}

/// 02's capture, with 0 to 4 writes.
pub fn plain(writes: usize) -> Vec<String> {
    let mut lines = head("2000000", "250000", &writes.to_string(), "4");
    lines.extend(WRITES[..writes].iter().flat_map(|(at, port, value)| write(at, port, value)));
    lines
}

pub fn smallest(writes: usize) -> Vec<String> {
    let mut lines = head("8", "1", &writes.to_string(), "1");
    lines.extend((0..writes).flat_map(|_| write("0", "0", "00")));
    lines
}

pub fn largest(writes: usize) -> Vec<String> {
    let mut lines = head("1073741823", "134217727", &writes.to_string(), "65536");
    lines.extend((0..writes).flat_map(|_| write(LAST_STAMP, "3", "ff")));
    lines
}

pub fn texts() -> Vec<Text> {
    let mut all = Vec::new();
    for writes in 0..=4 {
        for (name, lines) in [("plain", plain(writes)), ("smallest", smallest(writes)), ("largest", largest(writes))] {
            all.push(text(format!("{name}, {writes} writes"), lines.concat()));
        }
    }
    all
}
