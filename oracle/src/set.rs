//! `set`: one field of the record, for records that no call leads to. What the crate has not, the master clock and the ring's place
//! and count, the bench keeps beside it.

use crate::script::Bench;
use std::ops::RangeInclusive;

#[derive(Clone, Copy, PartialEq)]
pub enum Field {
    Master,
    Rate,
    Internal,
    Cycles,
    Variant,
    Accumulator,
    Stamp,
    Start,
    Stored(usize),
    Select,
    ToneCounter(usize),
    TonePeriod(usize),
    ToneEdges(usize),
    NoiseCounter,
    NoisePeriod,
    NoiseRegister,
    NoiseOutput,
    EnvelopeCounter,
    EnvelopePeriod,
    EnvelopePosition,
    EnvelopeOffset,
    GatesTone,
    GatesNoise,
    Head,
    Count,
    WaitingRegister,
}

use Field::*;

const U8: (i128, i128) = (0, u8::MAX as i128);
const U16: (i128, i128) = (0, u16::MAX as i128);
const U32: (i128, i128) = (0, u32::MAX as i128);
const U64: (i128, i128) = (0, u64::MAX as i128);
const I32: (i128, i128) = (i32::MIN as i128, i32::MAX as i128);

/// Every field, its name and its type's limits.
#[rustfmt::skip]
pub const FIELDS: [(&str, Field, (i128, i128)); 45] = [
    ("master", Master, U32), ("rate", Rate, U32), ("internal", Internal, U32), ("cycles", Cycles, U64),
    ("variant", Variant, U8), ("accumulator", Accumulator, U32), ("stamp", Stamp, U64), ("start", Start, U64),
    ("R0", Stored(0), U8), ("R1", Stored(1), U8), ("R2", Stored(2), U8), ("R3", Stored(3), U8), ("R4", Stored(4), U8),
    ("R5", Stored(5), U8), ("R6", Stored(6), U8), ("R7", Stored(7), U8), ("R8", Stored(8), U8), ("R9", Stored(9), U8),
    ("R10", Stored(10), U8), ("R11", Stored(11), U8), ("R12", Stored(12), U8), ("R13", Stored(13), U8), ("select", Select, U8),
    ("A_counter", ToneCounter(0), U16), ("A_period", TonePeriod(0), U16), ("A_edges", ToneEdges(0), U32),
    ("B_counter", ToneCounter(1), U16), ("B_period", TonePeriod(1), U16), ("B_edges", ToneEdges(1), U32),
    ("C_counter", ToneCounter(2), U16), ("C_period", TonePeriod(2), U16), ("C_edges", ToneEdges(2), U32),
    ("noise_counter", NoiseCounter, U16), ("noise_period", NoisePeriod, U8),
    ("noise_register", NoiseRegister, U32), ("noise_output", NoiseOutput, U32),
    ("envelope_counter", EnvelopeCounter, U16), ("envelope_period", EnvelopePeriod, U16),
    ("envelope_position", EnvelopePosition, I32), ("envelope_offset", EnvelopeOffset, U16),
    ("gates_tone", GatesTone, U32), ("gates_noise", GatesNoise, U32),
    ("head", Head, U64), ("count", Count, U64), ("waiting_register", WaitingRegister, U8),
];

pub fn named(name: &str) -> Option<(Field, RangeInclusive<i128>)> {
    let (_, field, (least, most)) = FIELDS.iter().find(|(own, _, _)| *own == name)?;
    Some((*field, *least..=*most))
}

impl Bench {
    /// The value is within the field's limits.
    pub fn set(&mut self, field: Field, value: i128) {
        let (internal, rate, cycles) = self.chip.clocks();
        let (tone_mask, noise_mask) = self.chip.mixer().config.view();
        match field {
            Master => self.master = value as u32,
            Rate => self.chip.set_clocks(internal, value as u32, cycles),
            Internal => self.chip.set_clocks(value as u32, rate, cycles),
            Cycles => self.chip.set_clocks(internal, rate, value as u64),
            Variant => self.chip.set_variant(value as u8),
            Accumulator => self.chip.set_accumulator(value as u32),
            Stamp => self.chip.set_cpu_cycle(value as u64),
            Start => self.chip.set_start(value as u64),
            Stored(register) => self.chip.set_stored(register, value as u8),
            Select => self.chip.set_selection(value as usize),
            ToneCounter(channel) => self.chip.tone_mut(channel).set_counter(value as u32),
            TonePeriod(channel) => self.chip.tone_mut(channel).set_period(value as u32),
            ToneEdges(channel) => self.chip.tone_mut(channel).set_edge_bits(value as u32),
            NoiseCounter => self.chip.noise_mut().set_counter(value as u32),
            NoisePeriod => self.chip.noise_mut().set_period(value as u32),
            NoiseRegister => self.chip.noise_mut().set_register(value as u32),
            NoiseOutput => self.chip.noise_mut().set_output(value as u32),
            EnvelopeCounter => self.chip.envelope_mut().set_counter(value as u32),
            EnvelopePeriod => self.chip.envelope_mut().set_period(value as u32),
            EnvelopePosition => self.chip.envelope_mut().set_position(value as i32),
            EnvelopeOffset => self.chip.envelope_mut().set_offset(value as usize),
            GatesTone => self.chip.config_mut().set_masks(value as u32, noise_mask),
            GatesNoise => self.chip.config_mut().set_masks(tone_mask, value as u32),
            Head => self.ring.head = value as u64,
            Count => self.ring.count = value as u64,
            WaitingRegister => self.ring.set_last_register(value as u8),
        }
        if matches!(field, Head | Count | WaitingRegister) && self.ring.fits() {
            self.chip.set_waiting(&self.ring.all());
        }
    }

    pub fn held(&self, field: Field) -> i128 {
        let (internal, rate, cycles) = self.chip.clocks();
        let (tone_mask, noise_mask) = self.chip.mixer().config.view();
        let noise = self.chip.noise().view();
        let envelope = self.chip.envelope().view();
        let tone = |channel: usize| self.chip.tones()[channel].view();
        match field {
            Master => self.master as i128,
            Rate => rate as i128,
            Internal => internal as i128,
            Cycles => cycles as i128,
            Variant => self.chip.mixer().variant() as i128,
            Accumulator => self.chip.accumulator() as i128,
            Stamp => self.chip.cpu_cycle() as i128,
            Start => self.chip.start() as i128,
            Stored(register) => self.chip.dump_registers()[register] as i128,
            Select => self.chip.selection() as i128,
            ToneCounter(channel) => tone(channel).0 as i128,
            TonePeriod(channel) => tone(channel).1 as i128,
            ToneEdges(channel) => tone(channel).2 as i128,
            NoiseCounter => noise.0 as i128,
            NoisePeriod => noise.1 as i128,
            NoiseRegister => noise.2 as i128,
            NoiseOutput => noise.3 as i128,
            EnvelopeCounter => envelope.0 as i128,
            EnvelopePeriod => envelope.1 as i128,
            EnvelopePosition => envelope.2 as i128,
            EnvelopeOffset => envelope.3 as i128,
            GatesTone => tone_mask as i128,
            GatesNoise => noise_mask as i128,
            Head => self.ring.head as i128,
            Count => self.ring.count as i128,
            WaitingRegister => self.ring.last_register() as i128,
        }
    }
}
