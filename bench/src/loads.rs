//! Words: blocks of a chip that is left alone, and of one whose registers are written.

use crate::measure::{Times, Work, timed};
use crate::side::{BUSY, MASTER, RING, SILENT, Side, cycles_of_a_word};
use crate::table::{Bar, Label, PLAIN, Table};
use std::hint::black_box;
use ym2149_proved::Chip;

/// At few words a second, which are ticks and little else.
const SLOW_BAR: f64 = if cfg!(target_arch = "aarch64") { 1.15 } else { 1.25 };
/// Words a second, and the bar of a block of 4,096.
const BUSY_BARS: [(u32, f64); 4] = [(250_000, 0.75), (44_100, 0.85), (1_000, SLOW_BAR), (10, SLOW_BAR)];
const SILENT_BARS: [(u32, f64); 4] = [(250_000, 0.8), (44_100, 0.85), (1_000, 1.0), (10, 1.0)];
const DUE_BAR: Bar = Bar::Ratio(1.15);
const VARIANT_BAR: Bar = Bar::Ratio(1.02);

/// Registers that are written in turn.
type Written = &'static [u8];
pub const VOLUMES: Written = &[8, 9, 10];
const ALL: Written = &[0, 1, 2, 3, 4, 5, 6, 7, 8, 9, 10, 11, 12, 13];
const DUE: [Written; 7] = [VOLUMES, &[0, 1, 2, 3, 4, 5], &[6], &[7], &[11, 12], &[13], ALL];

#[derive(Clone, Copy)]
enum Load {
    Busy,
    Silent,
    /// Busy, and a write falls due in every word; the ring was filled before the time begins.
    Due(Written),
    /// The same of the volumes, and filling the ring through the ports is timed too.
    Ports,
}

impl Load {
    fn name(self) -> &'static str {
        match self {
            Load::Busy => "busy",
            Load::Silent => "silent",
            Load::Due(_) => "due",
            Load::Ports => "ports",
        }
    }

    fn written(self) -> Written {
        match self {
            Load::Busy | Load::Silent => &[],
            Load::Due(registers) => registers,
            Load::Ports => VOLUMES,
        }
    }

    /// Blocks to a run: of chips with a full ring few enough to stay close to the processor.
    fn most_blocks(self) -> usize {
        match self {
            Load::Busy | Load::Silent => 4096,
            Load::Due(_) => 16,
            Load::Ports => 1,
        }
    }
}

struct Play {
    load: Load,
    variant: u8,
    rate: u32,
    block: usize,
    count: usize,
}

impl Play {
    /// Enough blocks for about 2,000,000 ticks.
    fn new(load: Load, rate: u32, block: usize) -> Play {
        let ticks = (MASTER / 8 / rate) as usize;
        Play { load, variant: 0, rate, block, count: (2_000_000 / (ticks * block)).clamp(1, load.most_blocks()) }
    }

    fn of_variant(self, variant: u8) -> Play {
        Play { variant, ..self }
    }

    fn label(&self) -> Label {
        let what = match self.load.written() {
            [] => String::new(),
            [only] => format!("R{only}"),
            [first, .., last] => format!("R{first}..R{last}"),
        };
        Label { load: self.load.name(), what, rate: self.rate, block: Some(self.block) }
    }

    /// A busy chip with one write for every word of a block.
    fn filled<S: Side>(&self) -> S {
        let mut chip = S::loaded(self.variant, self.rate, &BUSY);
        chip.fill(self.load.written(), cycles_of_a_word(self.rate));
        chip
    }

    /// Making the chip is timed too.
    fn undisturbed<S: Side>(&self, registers: &[u8; 16], out: &mut [u16]) -> (f64, S) {
        timed(|| {
            let mut chip = S::loaded(self.variant, self.rate, registers);
            (0..self.count).for_each(|_| chip.block(black_box(out)));
            chip
        })
    }

    /// Each block begins at the full ring: the chips are copied beforehand.
    fn due<S: Side>(&self, out: &mut [u16]) -> (f64, S) {
        let mut chips = vec![self.filled::<S>(); self.count];
        let (spent, ()) = timed(|| chips.iter_mut().for_each(|chip| chip.block(black_box(out))));
        (spent, chips.swap_remove(0))
    }

    fn ports<S: Side>(&self, out: &mut [u16]) -> (f64, S) {
        timed(|| {
            let mut chip: S = self.filled();
            chip.block(out);
            chip
        })
    }
}

impl Work for Play {
    fn answers(&self) -> usize {
        self.block
    }

    fn run<S: Side>(&self, out: &mut [u16]) -> (f64, S) {
        let (spent, chip) = match self.load {
            Load::Busy => self.undisturbed(&BUSY, out),
            Load::Silent => self.undisturbed(&SILENT, out),
            Load::Due(_) => self.due(out),
            Load::Ports => self.ports(out),
        };
        (spent / (self.block * self.count) as f64, chip)
    }
}

fn line(table: &mut Table, load: Load, rate: u32, block: usize, bar: Bar) {
    let play = Play::new(load, rate, block);
    table.line(play.label(), &play, bar);
}

/// The oracle shows the long blocks alone.
fn blocks(table: &mut Table, load: Load, bars: [(u32, f64); 4]) {
    for (rate, most) in bars {
        line(table, load, rate, 4096, Bar::Ratio(most));
        if PLAIN {
            line(table, load, rate, 64, Bar::None);
        }
    }
}

fn due(table: &mut Table) {
    for registers in DUE {
        line(table, Load::Due(registers), 250_000, RING, DUE_BAR);
        line(table, Load::Due(registers), 44_100, RING, DUE_BAR);
    }
    line(table, Load::Due(ALL), 1_000, RING, Bar::None);
    line(table, Load::Due(ALL), 10, RING, Bar::None);
}

fn ports(table: &mut Table) {
    for rate in [250_000, 44_100, 1_000, 10] {
        line(table, Load::Ports, rate, RING, Bar::None);
    }
}

/// A variant beside variant 0, both ours: what a variant means is worked out once for a block, so it costs nothing.
fn variants(table: &mut Table) {
    for (load, name, block) in [(Load::Busy, "busy", 4096), (Load::Due(VOLUMES), "due R8..R10", RING)] {
        for rate in [250_000, 44_100] {
            for variant in [1, 2] {
                let label = Label { load: "variant", what: format!("{variant} beside 0, {name}"), rate, block: Some(block) };
                let (play, plain) = (Play::new(load, rate, block).of_variant(variant), Play::new(load, rate, block));
                let mut out = vec![0; block];
                let mut spent = move |play: &Play| play.run::<Chip>(&mut out).0;
                table.measured(label, || Times { ours: spent(&play), theirs: spent(&plain) }, VARIANT_BAR);
            }
        }
    }
}

pub fn lines(table: &mut Table) {
    blocks(table, Load::Busy, BUSY_BARS);
    blocks(table, Load::Silent, SILENT_BARS);
    due(table);
    ports(table);
    if PLAIN {
        variants(table);
    }
}
