//! Scripts about writes that fall due together, and about what a block leaves: `due.script`, which has them by hand, and those that are
//! too long for that. `tests/due.rs` holds the oracle to 01 on them; `compare` runs them on ours.

use crate::script_cases::{Case, case, due};
use std::fmt::Write;

/// One tick to a word.
const RATE: u32 = 250_000;
const CYCLES: u64 = 32;
/// A ring that is full from this slot on goes round its end.
const FRONT: u64 = 200;
const FULL: u64 = 256;
/// By value and lent, outside the IRQ and in it.
const WAYS: [(u8, u8); 4] = [(0, 0), (0, 1), (1, 0), (1, 1)];

pub fn all() -> Vec<Case> {
    let mut all = by_calls();
    all.extend([
        case("slots that are left", slots_left()),
        case("a register out of range, from slot 0 on", one_register_out_of_range(0)),
        case(format!("a register out of range, from slot {FRONT} on"), one_register_out_of_range(FRONT)),
    ]);
    all
}

/// Those in which no line sets a field.
pub fn by_calls() -> Vec<Case> {
    let by_hand = include_str!("../due.script");
    vec![
        case("due.script, by value", format!("lent 0\n{by_hand}")),
        case("due.script, lent", format!("lent 1\n{by_hand}")),
        case("six words in pieces, at 250000", in_pieces(RATE, CYCLES)),
        case("six words in pieces, at 44100", in_pieces(44_100, 181)),
        case("six words in pieces, at 1000", in_pieces(1_000, 8_000)),
        case("256 due in one word", all_due_at_once()),
        case("a full ring round its end, by value", full_ring(0)),
        case("a full ring round its end, lent", full_ring(1)),
    ]
}

/// To be run on chips of other variants too.
pub fn for_a_variant() -> Vec<Case> {
    vec![case("six words in pieces, at 44100", in_pieces(44_100, 181))]
}

/// Word, register and value: every register, many more than once in a word, and none in the second word.
#[rustfmt::skip]
const SIX_WORDS: [(u64, u8, u8); 31] = [
    (0, 0, 1), (0, 0, 9), (0, 1, 1), (0, 7, 62), (0, 8, 15),
    (2, 13, 13), (2, 11, 2), (2, 13, 8), (2, 9, 16), (2, 2, 0), (2, 2, 30),
    (3, 7, 48), (3, 7, 54), (3, 6, 3), (3, 6, 1),
    (4, 3, 2), (4, 2, 1), (4, 3, 0), (4, 2, 7), (4, 4, 0), (4, 5, 0), (4, 4, 40), (4, 14, 7), (4, 15, 9), (4, 10, 31),
    (5, 8, 3), (5, 8, 0), (5, 13, 8), (5, 13, 8), (5, 12, 0), (5, 11, 1),
];

const PIECES: [&str; 7] = [
    "block 6\n",
    "word\nword\nword\nword\nword\nword\n",
    "block 1\nblock 1\nblock 1\nblock 1\nblock 1\nblock 1\n",
    "block 2\nblock 2\nblock 2\n",
    "word\nblock 5\n",
    "block 5\nword\n",
    "block 0\nblock 3\nword\nblock 0\nblock 2\nblock 0\n",
];

/// The same words by themselves and in blocks.
fn in_pieces(rate: u32, cycles: u64) -> String {
    let queued = SIX_WORDS.map(|(word, register, value)| due(cycles, word, register, value)).concat();
    let asked = |lent, irq, pieces| {
        format!("new 2000000 {rate}\nlent {lent}\nirq {irq}\n{queued}{pieces}outputs\nirq 0\nblock 6\n")
    };
    WAYS.iter().flat_map(|(lent, irq)| PIECES.map(|pieces| asked(lent, irq, pieces))).collect()
}

/// A chip whose ring is empty, its front at `FRONT`.
fn turned_ring() -> String {
    format!("new 2000000 {RATE}\nwrite 0 2\nport 0 8\n{}flush\n", "port 2 31\n".repeat(FRONT as usize))
}

/// 16 writes to each register. The last to R8 is the one numbered 248: 37 times that and 14, masked, is 6.
fn all_due_at_once() -> String {
    let turned = turned_ring();
    let queued: String = (0..FULL).map(|write| due(CYCLES, 0, write as u8 % 16, (37 * write + 14) as u8)).collect();
    let asked = |lent, irq, words| {
        let after = format!("port 2 0\n# answer: 4\n{words}\nread 8\n# answer: 0 6\nirq 0\nword\n");
        format!("lent {lent}\n{turned}irq {irq}\n{queued}{after}")
    };
    WAYS.iter().flat_map(|(lent, irq)| ["word", "block 1", "block 3"].map(|words| asked(lent, irq, words))).collect()
}

/// R8 at the word's number modulo 16.
fn volume(word: u64) -> String {
    due(CYCLES, word, 8, word as u8 % 16)
}

/// Each word takes a write, and its room is used again: the words say what the slots held.
fn full_ring(lent: u8) -> String {
    let mut script = format!("lent {lent}\n{}", turned_ring());
    script.extend((0..FULL).map(volume));
    script += "port 2 99\n# answer: 4\nwaiting 0\n# answer: 0 32 8 0\nwaiting 55\n# answer: 0 1792 8 7\n";
    script += "waiting 56\n# answer: 0 1824 8 8\nwaiting 255\n# answer: 0 8192 8 15\n";
    for turn in 1..=24 {
        script += "block 16\n";
        script += "# answer: 0 16 16 16 0 100 121 151 193 252 337 455 624 861 1198 1673 2346 3297 4642 6544 9234\n";
        let next = FULL + 16 * turn;
        script.extend((next - 16..next).map(volume));
        writeln!(script, "waiting 255\n# answer: 0 {} 8 15", CYCLES * next).unwrap();
    }
    script + "flush\nread 8\n# answer: 0 15\nblock 2\n# answer: 0 2 2 0 0 9234 9234\n"
}

/// A flush moves the front and leaves the slots; a reset leaves none.
fn slots_left() -> String {
    let asked = |lent| {
        format!("new 2000000 {RATE}\nlent {lent}\ncycle 5\nport 0 8\nport 2 1\nport 2 2\nport 2 3\nflush\n")
            + "set count 254\nwaiting 0\n# answer: 0 0 0 0\nwaiting 253\n# answer: 0 5 8 1\n"
            + "set count 0\nport 2 4\nreset\nset count 4\nwaiting 3\n# answer: 0 0 0 0\n"
    };
    asked(0) + &asked(1)
}

/// Each of 256 slots by itself: it is the last that waits, then it does not wait, then it is among 256. 15 is in range in all of them.
fn one_register_out_of_range(front: u64) -> String {
    let mut script = format!("new 2000000 {RATE}\nset head {front}\n");
    for place in 0..FULL {
        let (lent, register, last) = (place % 2, 16 << (place / 2 % 4), place + 1);
        write!(script, "lent {lent}\nset count {last}\nset waiting_register {register}\n").unwrap();
        write!(script, "pending\n# answer: 22 0\nset count {place}\npending\n# answer: 0 {place}\n").unwrap();
        write!(script, "set count {FULL}\nword\n# answer: 22 0 0 0 0\nblock 2\n# answer: 22 0 0 0 0\n").unwrap();
        write!(script, "set count {last}\nset waiting_register 15\n").unwrap();
        write!(script, "set count {FULL}\npending\n# answer: 0 {FULL}\n").unwrap();
    }
    script + "word\n# answer: 0 1 1 0 0 75\npending\n# answer: 0 0\n"
}
