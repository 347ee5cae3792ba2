//! generators.rs, and what chip.rs does with it.

use crate::generators::{EnvelopeGenerator, NUM_CHANNELS, NoiseGenerator, ToneGenerator};
use crate::say;

// chip.rs, 45..49
/// Simple PRNG for unpredictable power-on state
fn random_seed(seed: &mut u32) -> u16 {
    *seed = seed.wrapping_mul(214013).wrapping_add(2531011);
    ((*seed >> 16) & 0x7fff) as u16
}

// chip.rs, 172..173
fn random_edges() -> u32 {
    let mut seed = 1u32;
    (random_seed(&mut seed) as u32 & ((1 << 10) | (1 << 5) | 1)) * 0x1f
}

// ---- tones

fn tone(counter: u32, period: u32, edge_bits: u32, pending_reset: bool) -> ToneGenerator {
    ToneGenerator {
        counter,
        period,
        edge_bits,
        pending_reset,
    }
}

fn say_tone(t: &ToneGenerator) {
    say::number(t.counter as u64);
    say::text("/");
    print!("{:x}", t.edge_bits);
}

fn tone_ticks(period: u32, counter: u32, channel: u32) {
    print!("tone {period} {counter} {channel}:");
    let mut t = tone(counter, period, 0, false);
    for _ in 0..8 {
        t.tick(channel * 5);
        say_tone(&t);
    }
    say::end();
}

fn tone_flips(period: u32) {
    print!("tone {period} flips at:");
    let mut t = tone(0, period, 0, false);
    for tick in 1..=8200u64 {
        let before = t.edge_bits;
        t.tick(0);
        if t.edge_bits != before {
            say::number(tick);
        }
    }
    say::end();
}

// chip.rs, 370..375: a write of a tone period
fn set_period(t: &mut ToneGenerator, period: u32, in_timer_irq: bool) {
    t.set_period(period);
    if period <= 1 && in_timer_irq {
        t.mark_pending_reset();
    }
}

fn period_set(period: u32, irq: bool) {
    print!("period {period}: {}", irq as u8);
    let mut t = tone(7, 5, 0x3e0, false);
    set_period(&mut t, period, irq);
    say_tone(&t);
    say::flag(t.pending_reset);
    say::flag(t.is_half_amplitude());
    t.apply_pending_reset(5);
    say_tone(&t);
    say::flag(t.pending_reset);
    t.apply_pending_reset(5);
    say_tone(&t);
    say::end();
}

pub fn tones() {
    say::text("seeds of 0, 1, 2, 2^16, 2^31, 2^32 - 1:");
    for seed in [0, 1, 2, 65536, 0x8000_0000, 0xffff_ffff] {
        let mut seed = seed;
        say::number(random_seed(&mut seed) as u64);
    }
    say::end();
    say::text("power-on edges:");
    say::hex(random_edges());
    say::end();

    tone_ticks(0, 0, 0);
    tone_ticks(1, 0, 1);
    tone_ticks(2, 0, 2);
    tone_ticks(3, 0, 0);
    tone_ticks(4095, 0, 1);
    tone_ticks(4095, 4091, 2);
    tone_ticks(0, 65535, 0);
    tone_ticks(4095, 65535, 1);
    tone_ticks(65535, 65532, 2);
    tone_flips(4095);

    for period in [0, 1, 2, 4095] {
        period_set(period, false);
        period_set(period, true);
    }

    say::text("tone reset:");
    let mut t = tone(9, 4095, 0x1f, true);
    t.reset();
    t.set_edge_bits(0x3e0);
    say_tone(&t);
    say::number(t.period as u64);
    say::flag(t.pending_reset);
    say::end();
}

// ---- noise

fn noise(
    counter: u32,
    period: u32,
    lfsr: u32,
    output_mask: u32,
    half_tick: bool,
) -> NoiseGenerator {
    NoiseGenerator {
        counter,
        period,
        lfsr,
        output_mask,
        half_tick,
    }
}

fn say_noise(n: &NoiseGenerator) {
    say::number(n.counter as u64);
    say::flag(n.half_tick);
    say::hex(n.lfsr);
    say::hex(n.output_mask);
}

fn noise_registers() {
    let mut n = NoiseGenerator::new();
    for _ in 0..41 {
        say::hex(n.lfsr);
        n.tick();
        n.tick();
    }
}

fn noise_ticks(from: &NoiseGenerator) {
    let mut n = from.clone();
    for tick in 1..=6u32 {
        print!("noise {} {tick}:", n.period);
        n.tick();
        say_noise(&n);
        say::end();
    }
}

fn noise_steps(period: u32) {
    print!("noise steps {period}:");
    let mut n = NoiseGenerator::new();
    n.set_period(period);
    for tick in 1..=200u64 {
        let before = n.lfsr;
        n.tick();
        if n.lfsr != before {
            say::number(tick);
        }
    }
    say::end();
}

pub fn noises() {
    say::text("noise registers:");
    noise_registers();
    say::end();

    noise_ticks(&noise(0, 0, 1, 0, false));
    noise_ticks(&noise(0, 1, 1, 0, false));
    noise_ticks(&noise(0, 2, 1, 0, false));
    noise_ticks(&noise(30, 31, 131071, 0, false));
    noise_ticks(&noise(65535, 31, 65536, 0xffff_ffff, true));
    noise_ticks(&noise(65535, 255, 2, 0, false));
    noise_steps(0);
    noise_steps(1);
    noise_steps(2);
    noise_steps(31);

    say::text("noise reset:");
    let mut n = noise(5, 7, 0x12000, 0xffff_ffff, true);
    n.set_period(31);
    n.reset();
    say_noise(&n);
    say::number(n.period as u64);
    say::end();
}

// ---- envelope

fn envelope(counter: u32, period: u32, position: i32, data_offset: usize) -> EnvelopeGenerator {
    EnvelopeGenerator {
        counter,
        period,
        position,
        data_offset,
    }
}

fn say_envelope(e: &EnvelopeGenerator) {
    say::number(e.counter as u64);
    say::number(e.period as u64);
    say::flag(e.position == -64);
    say::number(e.data_offset as u64);
    say::end();
}

/// 131 levels: the whole row from -64, then round to 0 and 1.
fn shape_levels(shape: u8) {
    print!("shape {shape}:");
    let mut e = EnvelopeGenerator::new();
    e.set_shape(shape);
    for _ in 0..131 {
        say::number(e.level() as u64);
        e.tick();
    }
    say::end();
}

/// Row 6 is the rising shape 12, so that each step shows.
fn envelope_ticks(counter: u32, period: u32) {
    print!("envelope {period} {counter}:");
    let mut e = envelope(counter, period, -64, 768);
    for _ in 0..12 {
        say::number(e.level() as u64);
        e.tick();
    }
    say::end();
}

pub fn envelopes() {
    for shape in 0..16 {
        shape_levels(shape);
    }
    shape_levels(24);

    say::text("shape 8 at 63, then:");
    let mut e = envelope(0, 1, 63, 256);
    say::number(e.level() as u64);
    e.tick();
    say::number(e.level() as u64);
    e.tick();
    say::number(e.level() as u64);
    say::end();

    envelope_ticks(0, 0);
    envelope_ticks(0, 1);
    envelope_ticks(0, 2);
    envelope_ticks(0, 3);
    envelope_ticks(65533, 65535);
    envelope_ticks(65535, 65535);
    envelope_ticks(65535, 0);

    let mut e = envelope(6, 7, -64, 1152);
    e.tick();
    say::text("ticked:");
    say_envelope(&e);
    let mut other = e.clone();
    other.set_period(65535);
    say::text("period set:");
    say_envelope(&other);
    let mut other = e.clone();
    other.trigger();
    say::text("restarted:");
    say_envelope(&other);
    e.reset();
    say::text("envelope reset:");
    say_envelope(&e);
}

// ---- all generators, as chip.rs holds them

struct Generators {
    tone_generators: [ToneGenerator; NUM_CHANNELS],
    noise_generator: NoiseGenerator,
    envelope_generator: EnvelopeGenerator,
}

impl Generators {
    // chip.rs, 148..154 and 165
    fn new() -> Self {
        let mut g = Self {
            tone_generators: [
                ToneGenerator::new(),
                ToneGenerator::new(),
                ToneGenerator::new(),
            ],
            noise_generator: NoiseGenerator::new(),
            envelope_generator: EnvelopeGenerator::new(),
        };
        g.reset();
        g
    }

    // chip.rs, 175..182
    fn reset(&mut self) {
        let random_edges = random_edges();
        for (i, tone) in self.tone_generators.iter_mut().enumerate() {
            tone.reset();
            // Set random edge bits for this channel
            tone.set_edge_bits(random_edges & (0x1f << (i * 5)));
        }

        self.noise_generator.reset();
        self.envelope_generator.reset();
    }

    // chip.rs, 507..509
    fn apply_pending_resets(&mut self) {
        for (i, tone) in self.tone_generators.iter_mut().enumerate() {
            tone.apply_pending_reset(i as u32 * 5);
        }
    }

    // chip.rs, 421..431
    fn tick_generators(&mut self) {
        let mut tone_edges = 0u32;
        for (i, tone) in self.tone_generators.iter_mut().enumerate() {
            tone_edges |= tone.tick(i as u32 * 5);
        }
        assert_eq!(tone_edges, self.edges());

        // Tick noise (runs at half rate internally)
        self.noise_generator.tick();

        // Tick envelope
        self.envelope_generator.tick();
    }

    fn edges(&self) -> u32 {
        self.tone_generators
            .iter()
            .fold(0, |edges, t| edges | t.edge_bits)
    }
}

fn say_generators(g: &Generators) {
    for t in &g.tone_generators {
        say_tone(t);
        say::flag(t.pending_reset);
    }
    say::hex(g.edges());
    say_noise(&g.noise_generator);
    say_envelope(&g.envelope_generator);
}

fn change(g: &mut Generators, step: u8) {
    match step {
        1 => set_period(&mut g.tone_generators[0], 2, false),
        2 => set_period(&mut g.tone_generators[1], 3, false),
        3 => set_period(&mut g.tone_generators[2], 1, true),
        0 | 4 => {}
        5 => {
            g.noise_generator.set_period(3);
            g.envelope_generator.set_period(2);
            g.envelope_generator.set_shape(14);
        }
        18 => set_period(&mut g.tone_generators[0], 0, true),
        19 | 20 => g.apply_pending_resets(),
        21 => g.reset(),
        _ => g.tick_generators(),
    }
}

pub fn together() {
    let mut g = Generators::new();
    for step in 0..24 {
        change(&mut g, step);
        print!("generators {step}:");
        say_generators(&g);
    }
}
