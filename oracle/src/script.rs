//! A script of calls: one call to a line, and for each its answer and the whole state, a line each.
//! README.md has the form. Answers come from the crate; a refused call never reaches it.

use crate::call::Call;
use crate::chip::{Effects, Ym2149};
use crate::generators::ToneGenerator;
use crate::lines;
use crate::mixer::ChannelState;
use crate::range;
use crate::refusal::{self, ACCEPTED, BAD_RECORD};
use crate::ring::Ring;
use std::fmt::{Display, Write};

/// A longer block prints its first and last word and a check of all.
const WORDS_SHOWN: usize = 32;
/// 02, request 05: "0, the crate's".
const CRATES_VARIANT: u8 = 0;
/// 01: "The default clocks are 2,000,000 and" 250,000, by 02's request 07. The crate's own default rate stays 44,100.
const DEFAULT_MASTER: u32 = 2_000_000;
const DEFAULT_RATE: u32 = 250_000;

/// One chip and what has been asked of it.
pub struct Bench {
    pub chip: Ym2149,
    /// Our record has these two, and the crate has not.
    pub master: u32,
    pub ring: Ring,
    pub calls: u64,
    pub words: u64,
    pub ticks: u64,
}

impl Default for Bench {
    fn default() -> Self {
        let (chip, ring) = (default_chip(), Ring::default());
        Bench { chip, master: DEFAULT_MASTER, ring, calls: 0, words: 0, ticks: 0 }
    }
}

impl Bench {
    /// One line: a comment prints nothing, a call its answer and the state, anything else `bad`, and gives false.
    pub fn line(&mut self, line: &str, out: &mut String) -> bool {
        lines::line(line, out, |call, out| self.called(call, out))
    }

    /// A call's answer and the state after it, a line each.
    pub fn called(&mut self, call: Call, out: &mut String) {
        self.calls += 1;
        out.push_str(&self.answer(call));
        out.push('\n');
        self.state(out);
    }

    /// 01, "What changes shape".
    pub fn in_range(&self) -> bool {
        range::in_range(&self.chip, self.master, &self.ring)
    }

    fn answer(&mut self, call: Call) -> String {
        match call {
            Call::New(master, rate) => self.make(master, rate, CRATES_VARIANT),
            Call::Make(master, rate, variant) => self.make(master, rate, variant),
            Call::Default => self.make_default(ACCEPTED),
            Call::Waiting(place) => self.waiting(place),
            Call::Lent(_) => done(()),
            Call::Set(field, value) => done(self.set(field, value)),
            // 01: "22 is checked before all else."
            _ if !self.in_range() => out_of_range(call),
            _ => {
                let before = self.chip.pending_write_count();
                let answer = self.asked(call);
                self.follow(call, before);
                answer
            }
        }
    }

    /// A call on a record in range.
    fn asked(&mut self, call: Call) -> String {
        let chip = &mut self.chip;
        match call {
            Call::Reset => done(chip.reset()),
            Call::Write(register, value) => self.reported(|chip| chip.write_register(register, value)),
            Call::Read(register) => value(chip.read_register(register)),
            Call::Load(bytes) => self.reported(|chip| chip.load_registers(&bytes)),
            Call::Dump => value(hex(&chip.dump_registers())),
            Call::Port(port, value) => self.write_port(port, value),
            Call::PortNow(port, value) => self.reported(|chip| chip.write_port_immediate(port, value)),
            Call::ReadPort(port) => value(chip.read_port(port)),
            Call::Cycle(cycle) => done(chip.set_cpu_cycle(cycle)),
            Call::GetCycle => value(chip.cpu_cycle()),
            Call::Sync(cycle) => done(chip.sync_sample_cycle(cycle)),
            Call::Flush => self.reported(|chip| chip.flush_pending_writes()),
            Call::Pending => value(chip.pending_write_count()),
            Call::Irq(on) => done(chip.set_timer_irq_state(on)),
            Call::InsideIrq(on) => done(chip.inside_timer_irq(on)),
            Call::Trigger => done(chip.trigger_envelope()),
            Call::Mute(channel, on) => self.mute(channel, on),
            Call::Muted(channel) => value(chip.is_channel_muted(channel as usize) as u8),
            Call::Drum(channel, sample) => self.drum(channel, sample),
            Call::Outputs => {
                let (a, b, c) = chip.get_channel_outputs();
                value(format!("{} {} {}", bits(a), bits(b), bits(c)))
            }
            Call::Word => self.block(1),
            Call::Block(length) => self.block(length),
            Call::New(..) | Call::Make(..) | Call::Default => unreachable!(),
            Call::Waiting(_) | Call::Lent(_) | Call::Set(..) => unreachable!(),
        }
    }

    /// The ring does as the crate's queue did, of which so many writes waited before the call.
    fn follow(&mut self, call: Call, before: usize) {
        let after = self.chip.pending_write_count();
        if matches!(call, Call::Reset) {
            self.ring = Ring::default();
        } else if after > before {
            self.ring.push(self.chip.waiting(before).unwrap());
        } else {
            self.ring.drop_front((before - after) as u64);
        }
    }

    fn make(&mut self, master: u32, rate: u32, variant: u8) -> String {
        let refusal = refusal::of_making(master, rate, variant);
        if refusal != ACCEPTED {
            return self.make_default(refusal);
        }
        self.chip = Ym2149::with_clocks(master, rate);
        self.chip.set_variant(variant);
        self.master = master;
        self.ring = Ring::default();
        refusal.to_string()
    }

    fn make_default(&mut self, refusal: u8) -> String {
        self.chip = default_chip();
        self.master = DEFAULT_MASTER;
        self.ring = Ring::default();
        refusal.to_string()
    }

    fn write_port(&mut self, port: u8, value: u8) -> String {
        let refusal = refusal::of_port(port, self.chip.pending_write_count());
        if refusal == ACCEPTED {
            self.chip.write_port(port, value);
        }
        refusal.to_string()
    }

    /// The crate's queue says what waits, unless `set` has made a ring that it cannot stand for.
    fn waiting(&self, place: u8) -> String {
        let write = match self.ring.fits() {
            true => self.chip.waiting(place as usize),
            false => self.ring.at(place as u64),
        };
        match write {
            Some((stamp, register, value)) => format!("{ACCEPTED} {stamp} {register} {value}"),
            None => format!("{ACCEPTED} none"),
        }
    }

    fn mute(&mut self, channel: u64, on: bool) -> String {
        let refusal = refusal::of_channel(channel);
        if refusal == ACCEPTED {
            self.chip.set_channel_mute(channel as usize, on);
        }
        refusal.to_string()
    }

    fn drum(&mut self, channel: u64, sample: Option<f32>) -> String {
        let refusal = refusal::of_channel(channel);
        if refusal == ACCEPTED {
            self.chip.set_drum_sample_override(channel as usize, sample);
        }
        refusal.to_string()
    }

    fn block(&mut self, length: usize) -> String {
        let (_, _, cycles) = self.chip.clocks();
        let refusal = refusal::of_block(length, self.chip.start(), cycles);
        if refusal != ACCEPTED {
            return rendered(refusal, 0, Effects::default(), &[]);
        }
        self.chip.take_effects();
        let before = self.chip.ticks();
        let words: Vec<u16> = (0..length).map(|_| self.chip.compute_next_sample()).collect();
        let ticks = self.chip.ticks() - before;
        let effects = self.chip.take_effects();
        self.words += length as u64;
        self.ticks += ticks;
        rendered(refusal, ticks, effects, &words)
    }

    /// A call that says what its writes did, counted from 0 on. 02, request 03.
    fn reported(&mut self, call: impl FnOnce(&mut Ym2149)) -> String {
        self.chip.take_effects();
        call(&mut self.chip);
        let Effects { changed, restarted } = self.chip.take_effects();
        format!("{ACCEPTED} {changed} {restarted}")
    }

    fn state(&self, out: &mut String) {
        let chip = &self.chip;
        let (noise_counter, noise_period, register, output, half) = chip.noise().view();
        let (envelope_counter, envelope_period, position, offset) = chip.envelope().view();
        let (tone_mask, noise_mask) = chip.mixer().config.view();
        let (internal, rate, cycles) = chip.clocks();
        let registers = hex(&chip.dump_registers()[..14]);
        write!(out, "regs={registers} select={}", chip.selection()).unwrap();
        for (name, tone) in ["A", "B", "C"].iter().zip(chip.tones()) {
            write!(out, " {name}={}", tone_text(tone)).unwrap();
        }
        write!(out, " noise={noise_counter},{noise_period},{register},{output},{}", half as u8).unwrap();
        write!(out, " envelope={envelope_counter},{envelope_period},{position},{offset}").unwrap();
        write!(out, " gates={tone_mask},{noise_mask}").unwrap();
        for (name, channel) in ["a", "b", "c"].iter().zip(&chip.mixer().channels) {
            write!(out, " {name}={}", channel_text(channel)).unwrap();
        }
        let waiting = if self.ring.fits() { chip.pending_write_count() as u64 } else { self.ring.count };
        write!(out, " waiting={waiting} clocks={internal},{rate},{cycles}").unwrap();
        write!(out, " accumulator={} stamp={}", chip.accumulator(), chip.cpu_cycle()).unwrap();
        writeln!(out, " start={} irq={} variant={}", chip.start(), chip.irq() as u8, chip.mixer().variant()).unwrap();
    }
}

/// What `new` gives, a refused making leaves and a script begins on.
fn default_chip() -> Ym2149 {
    Ym2149::with_clocks(DEFAULT_MASTER, DEFAULT_RATE)
}

fn tone_text(tone: &ToneGenerator) -> String {
    let (counter, period, edges, pending) = tone.view();
    format!("{counter},{period},{edges},{}", pending as u8)
}

fn channel_text(channel: &ChannelState) -> String {
    let muted = channel.muted as u8;
    let drum = channel.drum_override.map_or("off".to_string(), bits);
    format!("{muted},{drum},{},{}", bits(channel.last_output), bits(channel.last_amplitude))
}

fn done<T>(_: T) -> String {
    ACCEPTED.to_string()
}

fn value<T: Display>(value: T) -> String {
    format!("{ACCEPTED} {value}")
}

/// 01: "nothing changes, other answers 0 or no".
fn out_of_range(call: Call) -> String {
    let others = match call {
        Call::Read(_) | Call::ReadPort(_) | Call::GetCycle | Call::Pending | Call::Muted(_) => " 0",
        Call::Dump => " 00000000000000000000000000000000",
        Call::Outputs => " 00000000 00000000 00000000",
        // 02, request 03: "A refused call reports 0 and 0."
        Call::Write(..) | Call::PortNow(..) | Call::Load(_) | Call::Flush => " 0 0",
        Call::Word | Call::Block(_) => " 0 0 0 0",
        _ => "",
    };
    format!("{BAD_RECORD}{others}")
}

/// What `word` and `block` answer.
pub fn rendered(number: u8, ticks: u64, effects: Effects, words: &[u16]) -> String {
    let Effects { changed, restarted } = effects;
    let mut answer = format!("{number} {} {ticks} {changed} {restarted}", words.len());
    if words.len() <= WORDS_SHOWN {
        for word in words {
            write!(answer, " {word}").unwrap();
        }
    } else {
        write!(answer, " {} {} {:08x}", words[0], words[words.len() - 1], check(words)).unwrap();
    }
    answer
}

pub fn hex(bytes: &[u8]) -> String {
    bytes.iter().map(|byte| format!("{byte:02x}")).collect()
}

/// The eight hex digits of an f32. Rattle has one NaN, so every NaN prints alike.
pub fn bits(value: f32) -> String {
    let bits = if value.is_nan() { 0x7fc0_0000 } else { value.to_bits() };
    format!("{bits:08x}")
}

/// 32-bit FNV-1a over the words' bytes, the low byte of each first.
fn check(words: &[u16]) -> u32 {
    words
        .iter()
        .flat_map(|word| word.to_le_bytes())
        .fold(2_166_136_261, |sum, byte| (sum ^ byte as u32).wrapping_mul(16_777_619))
}
