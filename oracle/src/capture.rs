//! 02, request 01, "Raw bus captures", over the oracle's chip.

use crate::chip::Ym2149;
use crate::refusal::{self, *};
use crate::text::{Lines, Refused};
use std::io;

/// Digits of a stamp, at most: the one decimal that may be longer than 01's.
const STAMP_DIGITS: usize = 20;

/// What the CPU wrote: to this port this value, at this cycle.
pub struct Write {
    pub at: u64,
    pub port: u8,
    pub value: u8,
}

/// A capture that passed the whole check.
pub struct Capture {
    pub master: u32,
    pub rate: u32,
    pub words: usize,
    pub writes: Vec<Write>,
}

/// The whole check: 11, then line by line, form before range, and 12 as the third test of an `at=` line, then 10.
pub fn read(text: &[u8]) -> Result<Capture, Refused> {
    let mut lines = Lines::of(text)?;
    let (master, rate) = lines.clocks()?;
    let count = lines.number("writes=", 0..=WRITES_MAX)?;
    let words = lines.number("words=", 1..=CAPTURE_WORDS_MAX)?;
    let mut writes = Vec::new();
    let mut before = 0;
    for _ in 0..count {
        let at = lines.long_number("at=", STAMP_DIGITS, 0..=u64::MAX)?;
        if at < before {
            return Err(lines.refused(STAMP_LOWER));
        }
        before = at;
        let port = lines.number("port=", 0..=PORT_MAX)? as u8;
        let [value] = lines.bytes("value=")?;
        writes.push(Write { at, port, value });
    }
    lines.end()?;
    Ok(Capture { master, rate, words: words as usize, writes })
}

/// The line of a write's `at=`, the first write being 0.
fn line_of(write: usize) -> usize {
    5 + 3 * write
}

/// Prints the words of a capture and how many writes were never passed, or its refusal: 4 comes after the words before it.
pub fn play(text: &[u8], out: &mut impl io::Write) -> io::Result<()> {
    let capture = match read(text) {
        Ok(capture) => capture,
        Err(Refused(number, line)) => return writeln!(out, "refused={number} line={line}"),
    };
    let mut chip = Ym2149::with_clocks(capture.master, capture.rate);
    let cycles = 4 * capture.master as u64 / capture.rate as u64;
    let mut end = 0;
    let mut passed = 0;
    writeln!(out, "words={}", capture.words)?;
    for _ in 0..capture.words {
        end += cycles;
        while let Some(write) = capture.writes.get(passed).filter(|write| write.at <= end) {
            let refusal = refusal::of_port(write.port, chip.pending_write_count());
            if refusal != ACCEPTED {
                return writeln!(out, "refused={refusal} line={}", line_of(passed));
            }
            chip.set_cpu_cycle(write.at);
            chip.write_port(write.port, write.value);
            passed += 1;
        }
        writeln!(out, "{}", chip.compute_next_sample())?;
    }
    writeln!(out, "left={}", capture.writes.len() - passed)
}
