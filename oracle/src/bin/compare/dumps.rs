//! Draws dumps, good and damaged.

use crate::damage;
use crate::players::{Fails, Kind, lines_of};
use crate::shrink::shortest;
use oracle::dump::{Dump, play, read};
use oracle::random::Random;
use oracle::refusal::{FRAMES_MAX, WORDS_MAX};
use oracle::shape_cases;

/// Words that one dump may ask for, and ticks.
const MOST_WORDS: u64 = 20_000;
const MOST_TICKS: u64 = 1_000_000;

pub const DUMPS: Kind = Kind { name: "dump", draw: dump, play: played, fewer: fewer_frames, cases };

fn played(text: &[u8]) -> Vec<u8> {
    let mut out = Vec::new();
    play(text, &mut out).unwrap();
    out
}

fn cases() -> Vec<(String, Vec<u8>)> {
    shape_cases::all().into_iter().map(|case| (case.name.clone(), case.text().into_bytes())).collect()
}

/// A dump that is played without the frames that are not needed: `frames=` says how many are left.
fn fewer_frames(dump: &[u8], fails: Fails) -> Vec<u8> {
    if read(dump).is_err() {
        return dump.to_vec();
    }
    let mut head = lines_of(dump);
    let frames = head.split_off(4);
    let of = |frames: &[Vec<u8>]| {
        let count = format!("frames={}\n", frames.len()).into_bytes();
        [head[..3].concat(), count, frames.concat()].concat()
    };
    of(&shortest(&frames, &mut |frames| fails(&of(frames))))
}

pub fn dump(random: &mut Random) -> Vec<u8> {
    loop {
        let text = drawn(random);
        // A damaged rate may make a good dump that takes hours.
        if read(&text).is_ok_and(|dump| ticks(&dump) > 2 * MOST_TICKS) {
            continue;
        }
        return text;
    }
}

fn ticks(dump: &Dump) -> u64 {
    let a_word = (dump.master / 8 / dump.rate) as u64 + 1;
    a_word * (dump.words * dump.frames.len()) as u64
}

fn drawn(random: &mut Random) -> Vec<u8> {
    let mut lines = good(random);
    let damages = random.pick(&[0, 0, 1, 1, 1, 2]);
    for _ in 0..damages {
        if random.one_in(2) {
            damage_line(random, &mut lines);
        }
    }
    let mut text = lines.concat().into_bytes();
    for _ in 0..damages {
        if random.one_in(2) {
            damage::text(random, &mut text, b"regs=0000000000000000000000000000\n");
        }
    }
    text
}

/// Lines with their LF, of a dump that passes.
fn good(random: &mut Random) -> Vec<String> {
    let (master, rate) = clocks(random);
    let (words, frames) = match random.below(24) {
        0 => (1, FRAMES_MAX),
        1 => (WORDS_MAX, random.within(1, 3)),
        2 => (random.spread(WORDS_MAX), 0),
        _ => (random.spread(200), random.within(1, 8)),
    };
    let ticks = master / 8 / rate + 1;
    let frames = frames.min(MOST_WORDS / words).min(MOST_TICKS / (words * ticks));
    let mut lines = vec![
        format!("master={master}\n"),
        format!("rate={rate}\n"),
        format!("words={words}\n"),
        format!("frames={frames}\n"),
    ];
    for _ in 0..frames {
        lines.push(frame(random));
    }
    lines
}

/// Clocks that pass, of up to some hundred ticks to a word.
pub fn clocks(random: &mut Random) -> (u64, u64) {
    match random.below(6) {
        0 => (2_000_000, 44_100),
        1 => (2_000_000, 250_000),
        2 => (8, 1),
        3 => (1_073_741_823, 134_217_727),
        _ => {
            let master = random.spread(1_073_741_823).max(8);
            let ticks = random.spread(300);
            (master, (master / 8 / ticks).max(1))
        }
    }
}

fn frame(random: &mut Random) -> String {
    let mut registers: [u8; 14] = std::array::from_fn(|_| random.byte());
    // Short periods and audible channels, or the words would hardly move.
    let tone = [random.below(4) as u8, 0];
    match random.below(3) {
        0 => {}
        1 => registers[..2].copy_from_slice(&tone),
        _ => {
            registers[..6].copy_from_slice(&tone.repeat(3));
            registers[7] = 0x38;
        }
    }
    // Likewise the envelope, or a restart would hardly show.
    if registers[12] & 1 == 0 {
        registers[11] &= 0x0f;
        registers[12] = 0;
    }
    registers[13] = shape(registers[13]);
    let digits: String = registers.iter().map(|byte| format!("{byte:02x}")).collect();
    format!("regs={digits}\n")
}

/// Of the bytes a third gives ff and a third one that a slip takes for it (02, request 02); the rest stay.
fn shape(byte: u8) -> u8 {
    match byte {
        0..85 => 0xff,
        85..170 => [0x0f, 0x1f, 0xef, 0xfe, 0xf0][byte as usize % 5],
        170.. => byte,
    }
}

fn damage_line(random: &mut Random, lines: &mut Vec<String>) {
    let place = random.below(lines.len() as u64) as usize;
    let head = random.below(lines.len().min(4) as u64) as usize;
    match random.below(16) {
        way @ 0..=4 => damage::line(way, lines, place, head),
        5 => lines[place] = lines[place].to_uppercase().replace("REGS", "regs"),
        way @ 6..=7 => damage::line(way - 1, lines, place, head),
        8 => damage::line(7, lines, head, place),
        _ => {
            let key = damage::key(&lines[head]);
            lines[head] = format!("{key}={}\n", limit(random, key));
        }
    }
}

/// A number on one side or the other of a limit, in good form or in bad.
fn limit(random: &mut Random, key: &str) -> &'static str {
    let its_own: &[&str] = match key {
        "master" => &["7", "8", "1073741823", "1073741824", "02000000", "2000000 "],
        "rate" => &["250000", "250001", "134217727", "134217728", "044100"],
        "words" => &["4096", "4097", "4095", "0004"],
        _ => &["1900", "1901", "2", "3"],
    };
    damage::number(random, its_own)
}
