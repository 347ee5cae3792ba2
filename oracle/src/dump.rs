//! 01, "The dump player", as request 02 of 02 amends it, over the oracle's chip.

use crate::chip::Ym2149;
use crate::refusal::*;
use crate::text::{Lines, Refused};
use std::io::{self, Write};

const REGISTERS: usize = 14;

/// A dump that passed the whole check.
pub struct Dump {
    pub master: u32,
    pub rate: u32,
    pub words: usize,
    pub frames: Vec<[u8; REGISTERS]>,
}

/// The whole check: 11, then line by line, form before range, then 10.
pub fn read(text: &[u8]) -> Result<Dump, Refused> {
    let mut lines = Lines::of(text)?;
    let (master, rate) = lines.clocks()?;
    let words = lines.number("words=", 1..=WORDS_MAX)?;
    let count = lines.number("frames=", 0..=FRAMES_MAX)?;
    let mut frames = Vec::new();
    for _ in 0..count {
        frames.push(lines.bytes("regs=")?);
    }
    lines.end()?;
    Ok(Dump { master, rate, words: words as usize, frames })
}

/// From R0 on. 02, request 02: "a frame whose last byte is ff now writes R0..R12 only"; the byte is the line's, before any mask.
fn registers_written(frame: &[u8; REGISTERS]) -> usize {
    if frame[13] == 0xff { 13 } else { 14 }
}

/// Prints the words of a dump, or its refusal.
pub fn play(text: &[u8], out: &mut impl Write) -> io::Result<()> {
    let dump = match read(text) {
        Ok(dump) => dump,
        Err(Refused(number, line)) => return writeln!(out, "refused={number} line={line}"),
    };
    let mut chip = Ym2149::with_clocks(dump.master, dump.rate);
    writeln!(out, "words={}", dump.words * dump.frames.len())?;
    for frame in &dump.frames {
        for (register, &value) in frame.iter().enumerate().take(registers_written(frame)) {
            chip.write_register(register as u8, value);
        }
        for _ in 0..dump.words {
            writeln!(out, "{}", chip.compute_next_sample())?;
        }
    }
    Ok(())
}
