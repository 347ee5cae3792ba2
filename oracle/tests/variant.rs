//! 02, request 05: chips of the three variants. The oracle beside what the scripts say of the request, and beside levels worked out from
//! its words (`common/levels.rs`), from the state that a word of one tick leaves.

mod common;
#[path = "common/levels.rs"]
mod levels;

use common::check;
use levels::{LEVELS, ROWS, entry, used};
use oracle::call::{Call, read};
use oracle::script::Bench;
use oracle::script_cases::Case;
use oracle::variant_cases::{by_hand, volumes};
use std::collections::BTreeSet;
use std::fs::read_to_string;

#[test]
fn as_02_says() {
    let named = by_hand().into_iter().inspect(|case| println!("{}", case.name));
    let checked: usize = named.map(|case| check(&case.script, |_, _, _| ())).sum();
    assert!(checked > 3_000, "{checked}");
}

/// What a state line shows.
struct State<'a>(&'a str);

impl<'a> State<'a> {
    fn field(&self, name: &str) -> Vec<&'a str> {
        let own = self.0.split(' ').find_map(|field| field.strip_prefix(name)?.strip_prefix('='));
        own.unwrap().split(',').collect()
    }

    fn number(&self, name: &str, place: usize) -> i64 {
        self.field(name)[place].parse().unwrap()
    }

    fn volume(&self, channel: usize) -> u8 {
        let registers = self.field("regs")[0];
        u8::from_str_radix(&registers[16 + 2 * channel..18 + 2 * channel], 16).unwrap()
    }

    fn halved(&self, channel: usize) -> bool {
        self.number(["A", "B", "C"][channel], 1) <= 1
    }

    /// The channel's five bits of the gate of the word's one tick.
    fn gate(&self, channel: usize) -> u64 {
        let edges: i64 = ["A", "B", "C"].iter().map(|tone| self.number(tone, 2)).sum();
        let gate = (edges | self.number("gates", 0)) & (self.number("noise", 3) | self.number("gates", 1));
        gate as u64 >> (5 * channel) & 31
    }

    fn envelope(&self) -> u64 {
        let row = self.number("envelope", 3) / 128;
        entry(ROWS[row as usize], (self.number("envelope", 2) + 64) as u64)
    }

    fn variant(&self) -> u8 {
        self.number("variant", 0) as u8
    }
}

fn level(index: u64, halved: bool) -> u16 {
    LEVELS[index as usize] / if halved { 2 } else { 1 }
}

/// What a channel gives to a word, its last output and its last amplitude.
fn heard(state: &State, channel: usize) -> (u16, f32, f32) {
    let (muted, drum) = match state.field(["a", "b", "c"][channel])[..] {
        [muted, drum, ..] => (muted, drum),
        _ => unreachable!(),
    };
    if muted == "1" {
        return (0, 0.0, 0.0);
    }
    if drum == "3f800000" {
        return (2_730, 2_730.0 / 10_922.0 * 2.0 - 1.0, 1.0);
    }
    assert_eq!(drum, "off");
    let ungated = used(state.variant(), state.volume(channel), state.envelope());
    let gate = state.gate(channel);
    let halved = state.halved(channel);
    let amplitude = level(ungated, halved) as f32 / 10_922.0;
    let output = match (ungated, gate) {
        (0, _) => 0.0,
        (_, 31) => amplitude,
        _ => -amplitude,
    };
    (level(ungated & gate, halved), output, amplitude)
}

/// Runs a script of one tick to a word, holds each word to what is worked out, and shows the state that it left.
fn each_word(case: &Case, mut seen: impl FnMut(&State)) {
    let mut bench = Bench::default();
    for (place, line) in case.script.lines().enumerate() {
        let mut printed = String::new();
        assert!(bench.line(line, &mut printed), "{line}");
        if !matches!(read(line), Some(Call::Word)) {
            continue;
        }
        let (answer, state) = printed.trim_end().split_once('\n').unwrap();
        let state = State(state);
        let all = [0, 1, 2].map(|channel| heard(&state, channel));
        let word: u16 = all.iter().map(|(out, _, _)| out).sum();
        assert_eq!(answer, format!("0 1 1 0 0 {word}"), "{}, line {}", case.name, place + 1);
        for (name, (_, output, amplitude)) in ["a", "b", "c"].iter().zip(all) {
            let bits = [output, amplitude].map(|value| format!("{:08x}", value.to_bits()));
            assert_eq!(state.field(name)[2..], bits, "{}, line {}, {name}", case.name, place + 1);
        }
        seen(&state);
    }
}

/// Every volume of each channel in each variant, halved and not, gated and not, muted and with a drum; every level of the envelope.
#[test]
fn every_volume() {
    let (mut plain, mut others, mut levels) = (BTreeSet::new(), BTreeSet::new(), BTreeSet::new());
    for case in volumes() {
        each_word(&case, |state| {
            let variant = state.variant();
            for channel in 0..3 {
                let (volume, halved) = (state.volume(channel), state.halved(channel));
                match state.field(["a", "b", "c"][channel])[..] {
                    ["0", "off", ..] => {
                        plain.insert((variant, channel, volume, halved, state.gate(channel)));
                    }
                    [muted, ..] => {
                        others.insert((variant, channel, volume, muted == "1"));
                    }
                    _ => unreachable!(),
                }
                if volume >= 16 {
                    levels.insert((variant, channel, state.envelope()));
                }
            }
        });
    }
    assert_eq!((plain.len(), others.len(), levels.len()), (3 * 3 * 32 * 2 * 2, 3 * 3 * 32 * 2, 3 * 3 * 32));
}

/// The request's own cases, by `make` and by the text of `examples/worked.dump`.
#[test]
fn worked_cases() {
    let dump = read_to_string(concat!(env!("CARGO_MANIFEST_DIR"), "/../examples/worked.dump")).unwrap();
    let registers = dump.lines().find_map(|line| line.strip_prefix("regs=")).unwrap();
    let dump = format!("load {registers}0000\nblock 4\n");
    let loud = "load 020002000200003f0f0f0f0000000000\nword\n".to_string();
    let rising = "write 0 2\nwrite 8 31\nwrite 13 13\nblock 5\n".to_string();
    for (variant, [four, one, five]) in [
        (0, ["0 4 4 0 0 9234 100 100 9234", "0 1 1 0 0 27552", "0 5 5 0 0 110 121 135 151 170"]),
        (1, ["0 4 4 0 0 10972 100 100 10972", "0 1 1 0 0 32766", "0 5 5 0 0 110 121 135 151 170"]),
        (2, ["0 4 4 0 0 9234 100 100 9234", "0 1 1 0 0 27552", "0 5 5 0 0 100 121 121 151 151"]),
    ] {
        let fresh = ("word\n".to_string(), "0 1 1 0 0 75");
        for (script, answer) in [fresh, (dump.clone(), four), (loud.clone(), one), (rising.clone(), five)] {
            let mut printed = String::new();
            let mut bench = Bench::default();
            for line in format!("make 2000000 250000 {variant}\n{script}").lines() {
                printed.clear();
                assert!(bench.line(line, &mut printed), "{line}");
            }
            assert_eq!(printed.lines().next(), Some(answer), "variant {variant}: {script}");
        }
    }
}
