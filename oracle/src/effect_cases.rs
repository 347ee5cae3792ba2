//! Scripts about what a call's writes changed (02, request 03): `effects.script`, which has them by hand, and those that are too long for
//! that. `tests/effects.rs` holds the oracle to the request on them; `compare` runs them on ours.

use crate::chip::Effects;
use crate::refusal::ACCEPTED;
use crate::script::rendered;
use crate::script_cases::{Case, case};
use crate::tables::REG_MASK;
use std::fmt::Write;

const REGISTERS: u8 = 14;
const SHAPE: u8 = 13;
/// CPU cycles to a word, which is one tick.
const CYCLES: u64 = 32;
const FULL: u64 = 256;
/// By value and lent, outside the IRQ and in it.
const WAYS: [(u8, u8); 4] = [(0, 0), (0, 1), (1, 0), (1, 1)];

pub fn all() -> Vec<Case> {
    let by_hand = include_str!("../effects.script");
    let of_all = |part: fn(u8, u8) -> String| WAYS.iter().map(|(lent, irq)| part(*lent, *irq)).collect();
    vec![
        case("effects.script, by value", format!("lent 0\n{by_hand}")),
        case("effects.script, lent", format!("lent 1\n{by_hand}")),
        case("each bit of each register", of_all(each_bit)),
        case("registers 14 and up", of_all(beyond)),
        case("256 writes at once", of_all(all_at_once)),
        case("256 writes, one to a word", of_all(one_to_a_word)),
    ]
}

/// A chip of which nothing is heard, so that every word is 0. Its ring goes round its end.
fn silent(lent: u8, irq: u8) -> String {
    format!("lent {lent}\nnew 2000000 250000\nmute 0 1\nmute 1 1\nmute 2 1\nirq {irq}\nset head 200\n")
}

/// What a call says that applied so many.
fn said(effects: Effects) -> String {
    format!("# answer: {ACCEPTED} {} {}\n", effects.changed, effects.restarted)
}

fn block(words: usize, effects: Effects) -> String {
    format!("block {words}\n# answer: {}\n", rendered(ACCEPTED, words as u64, effects, &vec![0; words]))
}

fn word(effects: Effects) -> String {
    format!("word\n# answer: {}\n", rendered(ACCEPTED, 1, effects, &[0]))
}

/// One write by each call that applies some.
fn each_way(register: u8, value: u8, changed: bool) -> [String; 5] {
    let effects = Effects { changed: changed as u32, restarted: (register == SHAPE) as u32 };
    let queued = format!("port 0 {register}\nport 2 {value}\n");
    [
        format!("write {register} {value}\n{}", said(effects)),
        format!("port_now 0 {register}\n{}port_now 2 {value}\n{}", said(Effects::default()), said(effects)),
        format!("{queued}flush\n{}", said(effects)),
        format!("{queued}{}", word(effects)),
        format!("{queued}{}", block(2, effects)),
    ]
}

/// Its own byte, the same with all bits above its mask, and each bit turned and turned back.
fn each_bit(lent: u8, irq: u8) -> String {
    let mut script = silent(lent, irq);
    for (register, mask) in (0..REGISTERS).zip(REG_MASK) {
        let (byte, above) = (0x55 & mask, !mask);
        writeln!(script, "write {register} {byte}").unwrap();
        let mut written = vec![(byte, false), (byte | above, false)];
        for bit in (0..8).map(|place| 1 << place).filter(|bit| bit & mask != 0) {
            written.extend([((byte ^ bit) | above, true), (byte, true)]);
        }
        for way in 0..5 {
            script.extend(written.iter().map(|(value, changed)| each_way(register, *value, *changed)[way].clone()));
        }
    }
    script
}

/// 14 and 15 by each call, and those above by the one that has them.
fn beyond(lent: u8, irq: u8) -> String {
    let mut script = silent(lent, irq) + "load 000102030405060708090a0b0c0d0e0f\n";
    for register in REGISTERS..16 {
        for value in [0, 1, 13, 255] {
            script += &each_way(register, value, false).concat();
        }
    }
    for register in 16..=255u8 {
        write!(script, "write {register} {}\n{}", !register, said(Effects::default())).unwrap();
    }
    script + "read 13\n# answer: 0 13\n# state: regs=000102030405060708090a0b0c0d\n"
}

/// Register and value of a write, by its number.
type Written = fn(u64) -> (u8, u8);

/// Whether each changes a byte: R8 and R13 to another one each time, R13 to the one that is there, and all fourteen in turn.
const FILLED: [(Written, bool); 4] = [
    (|write| (8, 1 + write as u8 % 2), true),
    (|write| (SHAPE, 1 + write as u8 % 2), true),
    (|_| (SHAPE, 0), false),
    (|write| ((write % 14) as u8, 1 + (write / 14) as u8 % 2), true),
];

/// What the writes of these numbers come to.
fn counted(written: Written, changed: bool, numbers: std::ops::Range<u64>) -> Effects {
    let restarted = numbers.clone().filter(|write| written(*write).0 == SHAPE).count() as u32;
    Effects { changed: if changed { (numbers.end - numbers.start) as u32 } else { 0 }, restarted }
}

/// A chip on which 256 wait, so many cycles apart. One more is refused by 4, and does not count.
fn full(lent: u8, irq: u8, written: Written, apart: u64) -> String {
    let mut script = silent(lent, irq);
    let mut selected = None;
    for write in 0..FULL {
        let (register, value) = written(write);
        if selected.replace(register) != Some(register) {
            writeln!(script, "port 0 {register}").unwrap();
        }
        if apart > 0 {
            writeln!(script, "cycle {}", (write + 1) * apart).unwrap();
        }
        writeln!(script, "port 2 {value}").unwrap();
    }
    script + "port 2 9\n# answer: 4\n"
}

/// All by a flush, by a word, and by the first word of a block. Then there is nothing to count.
fn all_at_once(lent: u8, irq: u8) -> String {
    let mut script = String::new();
    for (written, changed) in FILLED {
        let effects = counted(written, changed, 0..FULL);
        let queued = full(lent, irq, written, 0);
        for applied in [format!("flush\n{}", said(effects)), word(effects), block(3, effects)] {
            script += &format!("{queued}{applied}flush\n{}", said(Effects::default()));
        }
    }
    script
}

/// By words one by one, by one block with words to spare, and by some words, a block and a flush.
fn one_to_a_word(lent: u8, irq: u8) -> String {
    let mut script = String::new();
    for (written, changed) in FILLED {
        let of = |numbers| counted(written, changed, numbers);
        let words = |numbers: std::ops::Range<u64>| numbers.map(|write| word(of(write..write + 1))).collect::<String>();
        let queued = full(lent, irq, written, CYCLES);
        for applied in [
            words(0..FULL),
            block(300, of(0..FULL)),
            words(0..3) + &block(50, of(3..53)) + "flush\n" + &said(of(53..FULL)),
        ] {
            script += &format!("{queued}{applied}{}", word(Effects::default()));
        }
    }
    script
}
