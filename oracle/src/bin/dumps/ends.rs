//! More or fewer frames than are due, bytes after the end, cuts, and bytes left out.

use crate::good::{frame, head, plain, smallest};
use crate::{Text, text};

pub fn texts() -> Vec<Text> {
    let mut all = Vec::new();
    for due in 0..=3 {
        for there in 0..=4 {
            let lines = head("2000000", "250000", "4", &due.to_string()).concat();
            let frames: String = (0..there).map(frame).collect();
            all.push(text(format!("{due} frames due, {there} there"), lines + &frames));
        }
        all.extend(after_the_end(due));
    }
    all.extend(each_byte(&smallest(1).concat(), 0));
    all
}

fn after_the_end(frames: usize) -> Vec<Text> {
    let good = plain(frames).concat();
    let mut all =
        with_tails(&format!("{frames} frames"), &good, &[b"frames=0\n", b"regs=020000000000003e0f0000000000"]);
    all.push(text(format!("{frames} frames, then the dump again"), good.repeat(2)));
    all
}

/// A good text with bytes after its end: these of any text, and these of its own.
pub fn with_tails(name: &str, good: &str, its_own: &[&[u8]]) -> Vec<Text> {
    let tails: [&[u8]; 8] = [b"\n", b"x", b"\0", b"\xff", b" ", b"\r", b"\r\n", b"\n\n\n"];
    let named = |tail: &&[u8]| {
        text(format!("{name}, then {:?}", String::from_utf8_lossy(tail)), [good.as_bytes(), *tail].concat())
    };
    tails.iter().chain(its_own).map(named).collect()
}

/// The smallest text with one frame or write, cut before each byte from a place on, and without each byte.
pub fn each_byte(good: &str, from: usize) -> Vec<Text> {
    let good = good.as_bytes();
    let mut all = Vec::new();
    for place in from..good.len() {
        let (before, after) = (&good[..place], &good[place + 1..]);
        all.push(text(format!("smallest, cut before byte {place}"), before));
        all.push(text(format!("smallest, without byte {place}"), [before, after].concat()));
    }
    all
}
