//! What a script sees and sets of the record itself, outside any call.

use oracle::script::{bits, hex};
use oracle::set::Field;
use ym2149_proved::Record;
use ym2149_proved::record::{Channel, Queue, Tone};

/// The slot of the waiting write at a place, 0 being the front; on a ring of any place and count.
fn slot(queue: &Queue, place: usize) -> usize {
    (queue.head % 256 + place % 256) % 256
}

pub fn waiting(record: &Record, place: u8) -> String {
    let (queue, place) = (&record.queue, place as usize);
    if place >= queue.count {
        return "none".into();
    }
    let at = slot(queue, place);
    format!("{} {} {}", queue.stamps[at], queue.registers[at], queue.values[at])
}

/// One field, in range or not; the value is of its type.
pub fn set(record: &mut Record, field: Field, value: i128) {
    let Record { core, queue } = record;
    let voice = &mut core.voice;
    let generators = &mut voice.generators;
    let (noise, envelope) = (&mut generators.noise, &mut generators.envelope);
    let tones = [&mut generators.a, &mut generators.b, &mut generators.c];
    match field {
        Field::Master => core.clocks.master = value as u32,
        Field::Rate => core.clocks.rate = value as u32,
        Field::Internal => core.clocks.internal = value as u32,
        Field::Cycles => core.clocks.cycles = value as u64,
        Field::Variant => core.variant = value as u8,
        Field::Accumulator => core.accumulator = value as u32,
        Field::Stamp => core.stamp = value as u64,
        Field::Start => core.start = value as u64,
        Field::Stored(register) => voice.registers[register] = value as u8,
        Field::Select => core.selected = value as u8,
        Field::ToneCounter(channel) => tones[channel].counter = value as u16,
        Field::TonePeriod(channel) => tones[channel].period = value as u16,
        Field::ToneEdges(channel) => tones[channel].edges = value as u32,
        Field::NoiseCounter => noise.counter = value as u16,
        Field::NoisePeriod => noise.period = value as u8,
        Field::NoiseRegister => noise.register = value as u32,
        Field::NoiseOutput => noise.output = value as u32,
        Field::EnvelopeCounter => envelope.counter = value as u16,
        Field::EnvelopePeriod => envelope.period = value as u16,
        Field::EnvelopePosition => envelope.position = value as i32,
        Field::EnvelopeOffset => envelope.offset = value as u16,
        Field::GatesTone => voice.gates.tone = value as u32,
        Field::GatesNoise => voice.gates.noise = value as u32,
        Field::Head => queue.head = value as usize,
        Field::Count => queue.count = value as usize,
        Field::WaitingRegister => {
            if let Some(last) = queue.count.checked_sub(1) {
                queue.registers[slot(queue, last)] = value as u8;
            }
        }
    }
}

/// The whole state, as a line without its end.
pub fn state(record: &Record) -> String {
    let Record { core, queue } = record;
    let (clocks, voice) = (core.clocks, core.voice);
    let (generators, gates) = (voice.generators, voice.gates);
    let (noise, envelope) = (generators.noise, generators.envelope);
    [
        format!("regs={} select={}", hex(&voice.registers), core.selected),
        format!("A={} B={} C={}", tone(generators.a), tone(generators.b), tone(generators.c)),
        format!("noise={},{},{},{},{}", noise.counter, noise.period, noise.register, noise.output, noise.half as u8),
        format!("envelope={},{},{},{}", envelope.counter, envelope.period, envelope.position, envelope.offset),
        format!("gates={},{}", gates.tone, gates.noise),
        format!("a={} b={} c={}", channel(core.a), channel(core.b), channel(core.c)),
        format!("waiting={} clocks={},{},{}", queue.count, clocks.internal, clocks.rate, clocks.cycles),
        format!("accumulator={} stamp={} start={}", core.accumulator, core.stamp, core.start),
        format!("irq={} variant={}", voice.irq as u8, core.variant),
    ]
    .join(" ")
}

fn tone(tone: Tone) -> String {
    format!("{},{},{},{}", tone.counter, tone.period, tone.edges, tone.pending as u8)
}

fn channel(channel: Channel) -> String {
    let drum = if channel.drum.on { bits(channel.drum.sample) } else { "off".into() };
    format!("{},{drum},{},{}", channel.muted as u8, bits(channel.output), bits(channel.amplitude))
}
