//! Scripts about the shape that a level is worked out from (02, request 06): R13 written within a block, at once and between blocks, and
//! every place of every shape. `tests/wave.rs` holds the oracle to 01 on them; `compare` runs them on ours.

use crate::script_cases::{Case, case, due};
use std::fmt::Write;

/// A rate at 2,000,000, with its CPU cycles to a word; a period of the envelope, and the words of a block.
struct Pace {
    rate: u32,
    cycles: u64,
    period: u8,
    words: u64,
}

/// A tick and a step to a word. A block has all 128 places, and some again.
const PLAIN: Pace = Pace { rate: 250_000, cycles: 32, period: 1, words: 160 };
/// 5 or 6 ticks and as many steps to a word.
const USUAL: Pace = Pace { rate: 44_100, cycles: 181, period: 1, words: 32 };
/// 250 ticks to a word, and 12 or 13 steps.
const SLOW: Pace = Pace { rate: 1_000, cycles: 8_000, period: 20, words: 12 };

/// Only A is heard, by the envelope, ungated and whole.
const A_ALONE: &str = "mute 1 1\nmute 2 1\nwrite 0 2\nwrite 8 16\n";
/// All by the envelope and their tones, C halved and by the noise too.
const ALL_THREE: &str =
    "write 0 20\nwrite 2 35\nwrite 4 1\nwrite 6 3\nwrite 7 24\nwrite 8 16\nwrite 9 16\nwrite 10 16\n";

/// What is queued ahead of a block that begins with one shape and comes to another: the word that applies it, the first being 0, the
/// register and the value.
type Queued = fn(words: u64, from: u8, to: u8) -> Vec<(u64, u8, u8)>;

const NOTHING: Queued = |_, _, _| Vec::new();
const IN_THE_MIDDLE: Queued = |words, _, to| vec![(words / 2, 13, to)];
const FIRST_MIDDLE_AND_LAST: Queued = |words, from, to| vec![(0, 13, to), (words / 2, 13, from), (words - 1, 13, to)];

const QUEUED: [(&str, Queued); 8] = [
    ("the first word", |_, _, to| vec![(0, 13, to)]),
    ("a word in the middle", IN_THE_MIDDLE),
    ("the last word", |words, _, to| vec![(words - 1, 13, to)]),
    ("the first word of the next block", |words, _, to| vec![(words, 13, to)]),
    ("the first word, back in the middle, and the last", FIRST_MIDDLE_AND_LAST),
    ("a word, and back in the next", |words, from, to| vec![(words / 2, 13, to), (words / 2 + 1, 13, from)]),
    ("a word, and back in the same", |words, from, to| vec![(words / 2, 13, to), (words / 2, 13, from)]),
    ("a word that has no use for it", |words, _, to| vec![(0, 8, 15), (1, 13, to), (words / 2, 8, 16)]),
];

/// From each shape to itself, to the four that differ in one bit, and to the one that differs in all. 0 to 3 share a row, and 4 to 7.
fn pairs() -> impl Iterator<Item = (u8, u8)> {
    [0, 1, 2, 4, 8, 15].into_iter().flat_map(|bits| (0..16).map(move |from| (from, from ^ bits)))
}

/// A chip of this pace; what is asked of it comes behind.
fn chip(pace: &Pace, heard: &str) -> String {
    format!("new 2000000 {}\n{heard}write 11 {}\n", pace.rate, pace.period)
}

/// For each pair a block with these writes, and then a block and words that go on with what it left. The chip is handed over by value
/// with an even shape, and lent with an odd one.
fn blocks(pace: &Pace, heard: &str, pairs: impl Iterator<Item = (u8, u8)>, queued: Queued) -> String {
    let mut script = chip(pace, heard);
    for (from, to) in pairs {
        write!(script, "lent {}\nsync 0\nwrite 13 {from}\n", from % 2).unwrap();
        for (word, register, value) in queued(pace.words, from, to) {
            script += &due(pace.cycles, word, register, value);
        }
        write!(script, "block {0}\nblock {0}\nword\nword\n", pace.words).unwrap();
    }
    script
}

pub fn all() -> Vec<Case> {
    let mut all = a_alone();
    for pace in [PLAIN, USUAL, SLOW] {
        let script = blocks(&pace, ALL_THREE, pairs(), FIRST_MIDDLE_AND_LAST);
        all.push(case(format!("all three channels at {}", pace.rate), script));
    }
    all
}

/// Those in which A alone is heard.
pub fn a_alone() -> Vec<Case> {
    let mut all = Vec::new();
    for pace in [PLAIN, USUAL, SLOW] {
        for (name, queued) in QUEUED {
            all.push(case(format!("R13 in {name}, at {}", pace.rate), blocks(&pace, A_ALONE, pairs(), queued)));
        }
    }
    let bytes = || (0..=255).map(|byte: u8| (byte, !byte));
    all.extend([
        case("every byte in R13, at once", blocks(&USUAL, A_ALONE, bytes(), NOTHING)),
        case("every byte in R13, by the queue", blocks(&USUAL, A_ALONE, bytes(), IN_THE_MIDDLE)),
    ]);
    all.extend(places_and_restarts());
    all
}

/// To be run on chips of other variants too: A alone is heard.
pub fn for_a_variant() -> Vec<Case> {
    let name = |pace: &Pace| format!("R13 in the first word, back in the middle, and the last, at {}", pace.rate);
    let script = |pace: &Pace| blocks(pace, A_ALONE, pairs(), FIRST_MIDDLE_AND_LAST);
    let mut all: Vec<Case> = [PLAIN, USUAL, SLOW].iter().map(|pace| case(name(pace), script(pace))).collect();
    all.extend(places_and_restarts());
    all
}

fn places_and_restarts() -> [Case; 4] {
    [
        case("every place", every_place()),
        case("places that are set", places_set()),
        case("after a reset", after_a_reset()),
        case("between blocks", between_blocks()),
    ]
}

/// Two words at a place, so that -64 is heard too; up to 63, and then 0 to 63 again.
fn every_place() -> String {
    let mut script = chip(&Pace { period: 2, ..PLAIN }, A_ALONE);
    for shape in 0..16 {
        writeln!(script, "write 13 {shape}").unwrap();
        script += &"block 32\n".repeat(12);
    }
    script
}

/// A restart, another shape by a load, and the first again by a flush.
fn between_blocks() -> String {
    let mut script = chip(&USUAL, A_ALONE);
    for lent in [0, 1] {
        writeln!(script, "lent {lent}").unwrap();
        for (from, to) in pairs() {
            write!(script, "write 13 {from}\nblock 32\ntrigger\nblock 32\n").unwrap();
            write!(script, "load 020000000000003f1000000100{to:02x}0000\nblock 32\nword\n").unwrap();
            write!(script, "port 0 13\nport 2 {from}\nflush\nblock 32\nword\n").unwrap();
        }
    }
    script
}

/// The ends of -64 to -1 and of 0 to 63, by R13 and by the row alone. The first word has the place itself, the second the next.
fn places_set() -> String {
    let shapes = (0..16).map(|shape| format!("write 13 {shape}\n"));
    let rows = (0..10).map(|row| format!("set envelope_offset {}\nset envelope_counter 0\n", 128 * row));
    let mut script = chip(&Pace { period: 2, ..PLAIN }, A_ALONE);
    for (place, shape) in shapes.chain(rows).enumerate() {
        writeln!(script, "lent {}", place % 2).unwrap();
        for position in [-64, -1, 0, 63] {
            write!(script, "{shape}set envelope_position {position}\nword\nword\nblock 4\n").unwrap();
        }
    }
    script
}

/// A reset leaves the envelope at position 0 of shape 0. Then R13 comes by the queue, and at once.
fn after_a_reset() -> String {
    let mut script = chip(&PLAIN, A_ALONE);
    for lent in [0, 1] {
        writeln!(script, "lent {lent}").unwrap();
        for shape in 0..16 {
            write!(script, "write 13 {shape}\nblock 40\nreset\nwrite 0 2\nwrite 8 16\nword\nblock 32\n").unwrap();
            write!(script, "sync 0\n{}block 32\nword\n", due(PLAIN.cycles, 16, 13, shape)).unwrap();
            write!(script, "reset\nwrite 0 2\nwrite 8 16\nwrite 13 {shape}\nword\nblock 32\n").unwrap();
        }
    }
    script
}
