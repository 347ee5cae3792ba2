//! Dumps that pass.

use crate::{Text, text};

const FRAMES: [&str; 3] =
    ["020000000000003e0f0000000000", "0123456789abcdef0123456789ab", "ffffffffffffffffffffffffffff"];

/// A dump's lines, each with its LF. The frames come from FRAMES in turn.
pub fn dump(master: u64, rate: u64, words: u64, frames: usize) -> Vec<String> {
    let mut lines = head(&master.to_string(), &rate.to_string(), &words.to_string(), &frames.to_string());
    lines.extend((0..frames).map(frame));
    lines
}

pub fn head(master: &str, rate: &str, words: &str, frames: &str) -> Vec<String> {
    vec![
        format!("master={master}\n"),
        format!("rate={rate}\n"),
        format!("words={words}\n"),
        format!("frames={frames}\n"),
    ]
}

pub fn frame(f: usize) -> String {
    format!("regs={}\n", FRAMES[f % 3])
}

/// 01's dump, with 0, 1, 2 or 3 frames.
pub fn plain(frames: usize) -> Vec<String> {
    dump(2_000_000, 250_000, 4, frames)
}

pub fn smallest(frames: usize) -> Vec<String> {
    dump(8, 1, 1, frames)
}

pub fn largest(frames: usize) -> Vec<String> {
    dump(1_073_741_823, 134_217_727, 4_096, frames)
}

pub fn texts() -> Vec<Text> {
    let mut all = Vec::new();
    for frames in 0..=3 {
        for (name, lines) in [("plain", plain(frames)), ("smallest", smallest(frames)), ("largest", largest(frames))] {
            all.push(text(format!("{name}, {frames} frames"), lines.concat()));
        }
    }
    all
}
