//! Calls by themselves, on a chip that plays busy registers.

use crate::loads::VOLUMES;
use crate::measure::{Work, timed};
use crate::side::{BUSY, RING, Side, cycles_of_a_word};
use crate::table::{Bar, Label, Table};
use std::hint::black_box;

/// Calls to a run: reading the clock, some 300 ns, is then four hundredths of the crate's shortest.
const CALLS: usize = 10_000;
/// A cycle that no word reaches.
const LATER: u64 = (1 << 60) - 1;
/// Chips whose rings are filled in a run: few enough to stay close to the processor.
const CHIPS: usize = 16;

#[derive(Clone, Copy)]
enum Call {
    Select,
    SetCycle,
    Cycle,
    ReadPort,
    ReadRegister,
    WriteRegister,
    DataAtOnce,
    Flush,
    Word,
    BlockOfOne,
    /// Select, data and the word in which that write is due.
    WriteAndWord,
}

impl Call {
    fn name(self) -> &'static str {
        match self {
            Call::Select => "select",
            Call::SetCycle => "set_cpu_cycle",
            Call::Cycle => "cpu_cycle",
            Call::ReadPort => "read_port",
            Call::ReadRegister => "read_register",
            Call::WriteRegister => "write_register, R0..R13",
            Call::DataAtOnce => "write_port_immediate",
            Call::Flush => "flush",
            Call::Word => "word",
            Call::BlockOfOne => "block of 1",
            Call::WriteAndWord => "select + data + word",
        }
    }

    /// Makes the call once for each answer.
    fn make<S: Side>(self, chip: &mut S, answers: &mut [u16]) {
        match self {
            Call::Select => told(chip, answers, |chip, place| chip.select(place as u8 & 15)),
            Call::SetCycle => told(chip, answers, |chip, place| chip.set_cycle(place as u64)),
            Call::Cycle => asked(chip, answers, |chip, _| chip.cycle() as u16),
            Call::ReadPort => asked(chip, answers, |chip, place| chip.read_port(place as u8 & 2).into()),
            Call::ReadRegister => asked(chip, answers, |chip, place| chip.read_register(place as u8 & 15).into()),
            Call::WriteRegister => told(chip, answers, |chip, place| chip.write_register((place % 14) as u8, place as u8)),
            Call::DataAtOnce => told(chip, answers, |chip, place| chip.data_at_once(place as u8)),
            Call::Flush => told(chip, answers, |chip, _| chip.flush()),
            Call::Word => asked(chip, answers, |chip, _| chip.word()),
            Call::BlockOfOne => answers.chunks_mut(1).for_each(|out| black_box(&mut *chip).block(out)),
            Call::WriteAndWord => asked(chip, answers, |chip, place| {
                chip.select(8 + (place % 3) as u8);
                chip.data(place as u8);
                chip.word()
            }),
        }
    }
}

fn asked<S: Side>(chip: &mut S, answers: &mut [u16], call: impl Fn(&mut S, usize) -> u16) {
    for (place, answer) in answers.iter_mut().enumerate() {
        *answer = call(black_box(chip), place);
    }
}

/// Of calls that answer nothing: what they did is seen of the chip.
fn told<S: Side>(chip: &mut S, answers: &mut [u16], call: impl Fn(&mut S, usize)) {
    for place in 0..answers.len() {
        call(black_box(chip), place);
    }
}

/// One call over and over, while writes wait that no word reaches.
struct Burst {
    call: Call,
    waiting: usize,
    rate: u32,
}

impl Work for Burst {
    fn answers(&self) -> usize {
        CALLS
    }

    fn run<S: Side>(&self, answers: &mut [u16]) -> (f64, S) {
        let mut chip = S::loaded(0, self.rate, &BUSY);
        (0..self.waiting).for_each(|_| chip.queue(LATER, 8, 1));
        let (spent, ()) = timed(|| self.call.make(&mut chip, answers));
        (spent / CALLS as f64, chip)
    }
}

/// Cycle, select and data, until an empty ring is full.
struct Filling;

impl Filling {
    const RATE: u32 = 44_100;

    fn fill<S: Side>(chip: &mut S) {
        black_box(chip).fill(VOLUMES, cycles_of_a_word(Filling::RATE));
    }
}

impl Work for Filling {
    fn answers(&self) -> usize {
        0
    }

    /// The rings have been full before: the crate's has its memory by then.
    fn run<S: Side>(&self, _: &mut [u16]) -> (f64, S) {
        let mut chips = vec![S::loaded(0, Filling::RATE, &BUSY); CHIPS];
        chips.iter_mut().for_each(Filling::fill);
        chips.iter_mut().for_each(S::flush);
        let (spent, ()) = timed(|| chips.iter_mut().for_each(Filling::fill));
        (spent / (CHIPS * RING) as f64, chips.swap_remove(0))
    }
}

fn label(what: String, rate: u32) -> Label {
    Label { load: "calls", what, rate, block: None }
}

fn line(table: &mut Table, call: Call, waiting: usize, rate: u32, bar: Bar) -> Option<f64> {
    let what = format!("{}, {waiting} waiting", call.name());
    table.line(label(what, rate), &Burst { call, waiting, rate }, bar)
}

/// A call that does not look at what waits, and must not take longer for it.
fn flat(table: &mut Table, call: Call) {
    let none_waits = line(table, call, 0, 44_100, Bar::Call);
    line(table, call, RING / 2, 44_100, Bar::Call);
    line(table, call, RING, 44_100, none_waits.map_or(Bar::Call, Bar::FlatCall));
}

fn filling(table: &mut Table) {
    table.line(label("cycle + select + data, 0 to 256".to_string(), Filling::RATE), &Filling, Bar::Ratio(6.0));
}

pub fn lines(table: &mut Table) {
    for call in [Call::Select, Call::SetCycle, Call::Cycle, Call::ReadPort, Call::ReadRegister] {
        flat(table, call);
    }
    filling(table);
    line(table, Call::WriteRegister, 0, 44_100, Bar::Ratio(7.0));
    line(table, Call::Word, 0, 250_000, Bar::Ratio(2.8));
    line(table, Call::Word, 0, 44_100, Bar::Ratio(2.2));
    line(table, Call::Word, RING / 2, 44_100, Bar::None);
    line(table, Call::Word, RING, 44_100, Bar::None);
    line(table, Call::BlockOfOne, 0, 250_000, Bar::None);
    line(table, Call::BlockOfOne, 0, 44_100, Bar::None);
    line(table, Call::WriteAndWord, 0, 250_000, Bar::None);
    line(table, Call::DataAtOnce, 0, 44_100, Bar::None);
    line(table, Call::Flush, 0, 44_100, Bar::None);
}
