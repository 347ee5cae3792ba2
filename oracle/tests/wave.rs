//! 02, request 06: an envelope's entry from its shape's bits. The oracle beside words worked out from 01, and beside the page that has the
//! crate's table. Those of 02's request 05 that are about shapes too.

#[path = "common/effects.rs"]
mod effects;
#[path = "common/levels.rs"]
mod levels;

use effects::Stored;
use levels::{LEVELS, ROWS, entry, used};
use oracle::call::{Call, read};
use oracle::chip::Effects;
use oracle::script::{Bench, rendered};
use oracle::script_cases::Case;
use oracle::set::Field;
use oracle::tables::ENV_DATA;
use oracle::variant_cases::shapes;
use oracle::wave_cases::a_alone;
use std::collections::VecDeque;

/// A chip of master 2,000,000 whose A alone is heard, ungated and whole. Its ticks and steps are worked out, not run.
#[derive(Default)]
struct ByHand {
    rate: u64,
    variant: u8,
    /// Since the chip was made or reset.
    words: u64,
    start: u64,
    stamp: u64,
    selection: u8,
    waiting: VecDeque<(u64, u8, u8)>,
    volume: u8,
    period: u64,
    shape: u8,
    stored: Stored,
    /// A place of the envelope, and the ticks that had run when it came to it with counter 0.
    from: (u64, u64),
}

impl ByHand {
    /// 01: "stops at the first tick that brings the accumulator to the internal clock", here 250,000, "which is then taken off"
    fn ticks(&self) -> u64 {
        (self.words * 250_000).div_ceil(self.rate)
    }

    fn place_at(&mut self, place: u64) {
        self.from = (place, self.ticks());
    }

    fn write(&mut self, register: u8, value: u8) {
        self.stored.write(register, value);
        match register {
            8 => self.volume = value,
            11 => self.period = value as u64,
            13 => {
                self.shape = value % 16;
                self.place_at(0);
            }
            _ => {}
        }
    }

    fn apply_up_to(&mut self, end: u64) {
        while let Some((stamp, register, value)) = self.waiting.front().copied() {
            if stamp > end {
                break;
            }
            self.waiting.pop_front();
            self.write(register, value);
        }
    }

    /// 01: "63 going to 0", which are places 127 and 64
    fn level(&self) -> u64 {
        let (place, then) = self.from;
        let place = place + (self.ticks() - then) / self.period;
        entry(self.shape, if place < 128 { place } else { 64 + place % 64 })
    }

    fn word(&mut self) -> u16 {
        self.start += 8_000_000 / self.rate;
        self.apply_up_to(self.start);
        self.words += 1;
        LEVELS[used(self.variant, self.volume, self.level()) as usize]
    }

    fn block(&mut self, length: usize) -> String {
        let before = self.ticks();
        let words: Vec<u16> = (0..length).map(|_| self.word()).collect();
        rendered(0, self.ticks() - before, self.stored.effects, &words)
    }

    /// What a word or a block answers.
    fn line(&mut self, line: &str) -> Option<String> {
        self.stored.effects = Effects::default();
        match read(line)? {
            Call::New(2_000_000, rate) => *self = ByHand { rate: rate as u64, ..ByHand::default() },
            Call::Make(2_000_000, rate, variant) => *self = ByHand { rate: rate as u64, variant, ..ByHand::default() },
            Call::Reset => {
                let ByHand { rate, variant, period, .. } = *self;
                *self = ByHand { rate, variant, period, from: (64, 0), ..ByHand::default() };
            }
            Call::Write(register, value) => self.write(register, value),
            Call::Load(bytes) => (0..14).zip(bytes).for_each(|(register, value)| self.write(register, value)),
            Call::Cycle(cycle) => self.stamp = cycle,
            Call::Sync(cycle) => (self.start, self.stamp) = (cycle, cycle),
            Call::Port(0, value) => self.selection = value,
            Call::Port(2, value) => self.waiting.push_back((self.stamp, self.selection, value)),
            Call::Flush => self.apply_up_to(u64::MAX),
            Call::Trigger => self.place_at(0),
            Call::Set(Field::EnvelopeOffset, offset) => self.shape = ROWS[offset as usize / 128],
            Call::Set(Field::EnvelopePosition, position) => self.place_at((position + 64) as u64),
            Call::Set(Field::EnvelopeCounter, 0) | Call::Mute(..) | Call::Lent(_) => {}
            Call::Word => return Some(self.block(1)),
            Call::Block(length) => return Some(self.block(length)),
            _ => panic!("{line}"),
        }
        None
    }
}

fn answer(bench: &mut Bench, line: &str) -> String {
    let mut printed = String::new();
    assert!(bench.line(line, &mut printed), "{line}");
    printed.lines().next().unwrap().to_string()
}

/// How many words were held beside those by hand.
fn held_to(cases: Vec<Case>) -> u64 {
    let mut words = 0;
    for case in cases {
        let (mut bench, mut by_hand) = (Bench::default(), ByHand::default());
        for (place, line) in case.script.lines().enumerate() {
            let ours = answer(&mut bench, line);
            if let Some(answer) = by_hand.line(line) {
                assert_eq!(ours, answer, "{}, line {}", case.name, place + 1);
            }
        }
        words += bench.words;
    }
    words
}

#[test]
fn words_of_01() {
    let words = held_to(a_alone());
    assert!(words > 300_000, "{words}");
}

#[test]
fn words_of_the_variants() {
    let words = held_to(shapes());
    assert!(words > 100_000, "{words}");
}

/// Shape 8 falls and 13 rises. R13 is written at the first word of eight, at the fifth and at the last: 6, 12, 18 and 23 steps, then 6, 12
/// and 17, then 6 at 44,100, and 1 to a word at 250,000.
#[test]
fn three_changes_by_hand() {
    for (rate, [first, fifth, last], words) in [
        (250_000, [32, 160, 256], "0 8 8 3 3 60 71 85 101 9184 7723 6494 60"),
        (44_100, [181, 905, 1_448], "0 8 46 3 3 143 405 1148 2730 3861 1365 574 143"),
    ] {
        let script = format!(
            "new 2000000 {rate}\nmute 1 1\nmute 2 1\nwrite 0 2\nwrite 8 16\nwrite 13 8\nport 0 13\n\
            cycle {first}\nport 2 13\ncycle {fifth}\nport 2 8\ncycle {last}\nport 2 13"
        );
        let mut bench = Bench::default();
        script.lines().for_each(|line| assert!(answer(&mut bench, line).starts_with('0'), "{line}"));
        assert_eq!(answer(&mut bench, "block 8"), words);
    }
}

/// The page of the proofs that lists the crate's table.
#[test]
fn page_of_the_table() {
    let path = concat!(env!("CARGO_MANIFEST_DIR"), "/../crates/laws_envelope_data/specs/Data.antt");
    let page = std::fs::read_to_string(path).unwrap();
    let code: Vec<&str> = page.lines().map(|line| line.split("--").next().unwrap()).collect();
    let code = code.join(" ");
    let (_, list) = code.split_once("env_data =").unwrap();
    let list = list.trim().strip_suffix("∷ []").unwrap();
    let numbers: Vec<u8> = list.split('∷').map(|number| number.trim().parse().unwrap()).collect();
    assert_eq!(numbers, ENV_DATA);
}
