//! What was drawn, counted: `--count` prints it.

use crate::due::{self, KINDS};
use oracle::call::{self, Call};
use oracle::capture;
use oracle::dump::{play, read};
use oracle::refusal::{ACCEPTED, NO_SUCH_CHANNEL, QUEUE_FULL, QUEUE_MAX, VARIANT_MAX};
use oracle::script::Bench;
use oracle::set::Field;
use oracle::tables::REG_MASK;
use oracle::text::Refused;
use std::collections::{BTreeMap, BTreeSet};

/// Ticks to a word, by their upper ends.
const TICKS: [u64; 6] = [1, 10, 100, 700, 26_843, u64::MAX];
/// Variants above 2 are counted as one.
const VARIANTS: usize = VARIANT_MAX as usize + 2;
const CALLS: [&str; VARIANTS] =
    ["calls at variant 0", "calls at variant 1", "calls at variant 2", "calls at a variant above 2"];
const WORDS: [&str; VARIANTS] = [
    "blocks and words at variant 0",
    "blocks and words at variant 1",
    "blocks and words at variant 2",
    "blocks and words at a variant above 2",
];

fn variant(bench: &Bench) -> usize {
    (bench.chip.mixer().variant() as usize).min(VARIANTS - 1)
}

#[derive(Default)]
pub struct Tally {
    counts: BTreeMap<&'static str, u64>,
    /// Of so many: which were seen.
    seen: BTreeMap<(&'static str, u64), BTreeSet<u64>>,
    answers: BTreeMap<u8, u64>,
    captures_refused: BTreeMap<u8, u64>,
    /// Of makings with a variant above 2, what they answered.
    no_variant: BTreeMap<u8, u64>,
    ticks: [u64; TICKS.len()],
    counter: u32,
    /// The ring was moved by a `set` since the chip was made or reset.
    moved: bool,
}

impl Tally {
    fn count(&mut self, what: &'static str) {
        *self.counts.entry(what).or_default() += 1;
    }

    fn see(&mut self, what: &'static str, place: u64) {
        self.see_of(256, what, place);
    }

    fn see_of(&mut self, of: u64, what: &'static str, place: u64) {
        self.seen.entry((what, of)).or_default().insert(place);
    }

    pub fn script(&mut self) {
        self.count("scripts");
        self.moved = false;
    }

    /// The call that a line is, on the bench before it.
    pub fn before(&mut self, line: &str, bench: &Bench) -> Call {
        let call = call::read(line).unwrap_or_else(|| panic!("not of the form: {line}"));
        self.count("calls");
        match call {
            Call::Port(port, _) => self.see("ports of `port`", port as u64),
            Call::PortNow(port, _) => self.see("ports of `port_now`", port as u64),
            Call::ReadPort(port) => self.see("ports of `read_port`", port as u64),
            Call::Mute(256.., _) | Call::Muted(256..) | Call::Drum(256.., _) => self.count("channels above 255"),
            Call::Drum(_, Some(sample)) => self.drum(sample),
            Call::New(..) | Call::Make(..) | Call::Default | Call::Reset => self.moved = false,
            Call::Set(Field::Head | Field::Count, _) => self.moved = true,
            Call::Write(register @ 0..14, value) if bench.in_range() => self.write(register, value, bench),
            Call::Word if bench.in_range() => self.block(1, bench),
            Call::Block(length) if bench.in_range() => self.block(length as u64, bench),
            _ => {}
        }
        call
    }

    fn write(&mut self, register: u8, value: u8, bench: &Bench) {
        let stored = bench.chip.read_register(register);
        self.count(match value & REG_MASK[register as usize] {
            masked if masked != stored => "`write` of another byte",
            _ if value != stored => "`write` of the stored byte, with bits above its mask",
            _ => "`write` of the stored byte",
        });
    }

    fn drum(&mut self, sample: f32) {
        self.count("drums");
        let level = sample as f64 / 4.0 * 10_922.0;
        let step = (sample.abs().next_up() - sample.abs()) as f64 / 4.0 * 10_922.0;
        let kind = match sample {
            _ if sample.is_nan() => "drums that are NaN",
            _ if sample.is_infinite() => "drums that are infinite",
            _ if sample.is_subnormal() || sample == 0.0 => "drums of 0 and below the normal numbers",
            _ if sample < 0.0 => "drums below 0",
            _ if level > 10_924.0 => "drums above the highest level",
            _ if (level - level.round()).abs() <= 4.0 * step => "drums close to the cut",
            _ => "other drums",
        };
        self.count(kind);
    }

    fn block(&mut self, length: u64, bench: &Bench) {
        self.count("blocks and words");
        self.count(WORDS[variant(bench)]);
        let (internal, rate, cycles) = bench.chip.clocks();
        if length == 0 {
            return self.count("empty blocks");
        }
        let ticks = internal.div_ceil(rate) as u64;
        let place = TICKS.iter().position(|most| ticks <= *most).unwrap();
        self.ticks[place] += 1;
        self.due(length, bench);
        // The front write beside the ends of the block's words.
        let Some((stamp, _, _)) = bench.chip.waiting(0) else { return };
        let Some(after) = stamp.checked_sub(bench.chip.start()) else { return };
        let words = after as u128 / cycles as u128;
        if cycles > 2 && words <= length as u128 {
            match (words, after % cycles) {
                (1.., 0) => self.count("front stamps at a word's end"),
                (1.., 1) => self.count("front stamps one after a word's end"),
                (_, rest) if rest == cycles - 1 && words < length as u128 => {
                    self.count("front stamps one before a word's end")
                }
                _ => {}
            }
        }
    }

    fn due(&mut self, length: u64, bench: &Bench) {
        let registers = if bench.chip.irq() { "registers due in the IRQ" } else { "registers due outside the IRQ" };
        for due in due::words(bench, length) {
            due.writes.iter().for_each(|(register, _)| self.see_of(16, registers, *register as u64));
            KINDS.iter().filter(|(_, is_so)| is_so(&due, bench)).for_each(|(what, _)| self.count(what));
        }
    }

    /// The number that it answered, and the bench after it.
    pub fn after(&mut self, call: Call, number: u8, bench: &Bench) {
        *self.answers.entry(number).or_default() += 1;
        self.count(CALLS[variant(bench)]);
        match call {
            Call::Make(_, _, 3..) => *self.no_variant.entry(number).or_default() += 1,
            Call::Mute(_, false) if number == NO_SUCH_CHANNEL => self.count("`mute N 0` refused"),
            Call::Set(..) if bench.in_range() => self.count("fields set inside"),
            Call::Set(..) => self.count("fields set outside"),
            Call::Port(..) if number == ACCEPTED => self.count("ports written"),
            _ => {}
        }
        self.counter = self.counter.max(bench.chip.envelope().view().0);
        if bench.chip.envelope().view().0 >= 32_768 {
            self.count("calls with the envelope's counter from 32,768 up");
        }
        let ring = &bench.ring;
        if ring.fits() {
            let full = ring.count == QUEUE_MAX as u64;
            self.see("ring's places", ring.head);
            if full {
                self.see("ring's places when full", ring.head);
            }
            if !self.moved {
                self.see("ring's places, by calls alone", ring.head);
                if full {
                    self.see("ring's places when full, by calls alone", ring.head);
                }
            }
        }
    }

    pub fn dump(&mut self, text: &[u8]) {
        self.count("dumps");
        let Ok(dump) = read(text) else { return };
        self.count("dumps that are played");
        for frame in &dump.frames {
            self.count("frames");
            match frame[13] {
                0xff => self.count("frames of ff"),
                0x0f | 0x1f | 0xef | 0xfe | 0xf0 => self.count("frames of 0f, 1f, ef, fe or f0"),
                _ => {}
            }
            if frame[8..=10].iter().any(|volume| volume & 0x10 != 0) && frame[12] == 0 && frame[11] < 16 {
                self.count("frames with an envelope on, of a period up to 15");
            }
        }
        // No other line of a dump that is played ends so.
        let written = String::from_utf8_lossy(text).replace("ff\n", "0f\n");
        let words = |text: &[u8]| {
            let mut out = Vec::new();
            play(text, &mut out).unwrap();
            out
        };
        if words(written.as_bytes()) != words(text) {
            self.count("dumps whose words would change were ff written");
        }
    }

    pub fn capture(&mut self, text: &[u8]) {
        self.count("captures");
        let capture = match capture::read(text) {
            Ok(capture) => capture,
            Err(Refused(number, _)) => return *self.captures_refused.entry(number).or_default() += 1,
        };
        self.count("captures that are played");
        let cycles = 4 * capture.master as u64 / capture.rate as u64;
        let last = cycles * capture.words as u64;
        let mut due = BTreeMap::new();
        for write in &capture.writes {
            self.count("writes of captures");
            match write.at {
                at if at > last => self.count("writes never reached"),
                at if at > 0 && at % cycles == 0 => self.count("stamps at a word's end"),
                at if at % cycles == cycles - 1 => self.count("stamps one before a word's end"),
                at if at > cycles && at % cycles == 1 => self.count("stamps one after a word's end"),
                _ => {}
            }
            if write.port & 2 != 0 && write.at <= last {
                *due.entry(write.at.div_ceil(cycles).max(1)).or_insert(0) += 1;
            }
        }
        if capture.writes.iter().all(|write| write.at > last) && !capture.writes.is_empty() {
            self.count("captures whose writes are all late");
        }
        for (word, count) in &due {
            match count {
                255 => self.count("words with 255 data writes due"),
                256 if due.get(&(word + 1)) == Some(&256) => self.count("words with 256 due, and 256 in the next"),
                256 => self.count("words with 256 due"),
                257 => self.count("words with 257 due"),
                258.. => self.count("words with more due"),
                _ => {}
            }
        }
        if due.values().any(|count| *count > QUEUE_MAX) {
            *self.captures_refused.entry(QUEUE_FULL).or_default() += 1;
        }
    }

    pub fn print(&self) {
        for ((what, of), seen) in &self.seen {
            println!("{:>9} of {of} {what}", seen.len());
        }
        for (what, count) in &self.counts {
            println!("{count:>9} {what}");
        }
        println!("{:>9} highest counter of the envelope", self.counter);
        let mut least = 1;
        for (most, count) in TICKS.iter().zip(self.ticks) {
            let most_text = if *most == u64::MAX { "up".into() } else { format!("to {most}") };
            println!("{count:>9} blocks and words of {least} {most_text} ticks a word");
            least = most.wrapping_add(1);
        }
        for (number, count) in &self.answers {
            println!("{count:>9} calls that answered {number}");
        }
        for (number, count) in &self.no_variant {
            println!("{count:>9} makings with a variant above 2 that answered {number}");
        }
        for (number, count) in &self.captures_refused {
            println!("{count:>9} captures refused by {number}");
        }
    }
}
