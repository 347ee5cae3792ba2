//! The crate's files as published, with a filter that lets every total through, give the words of the changed ones.

// `chip.rs` takes its trait from another crate: here that crate is this one.
extern crate self as ym2149_common;

#[allow(dead_code)]
#[path = "../originals/chip.rs"]
mod chip;
#[allow(dead_code)]
#[path = "../originals/generators.rs"]
mod generators;
#[path = "../originals/mixer.rs"]
mod mixer;
#[path = "../originals/tables.rs"]
mod tables;

mod dc_filter {
    #[derive(Clone)]
    pub struct DcFilter;

    impl DcFilter {
        pub fn new() -> Self {
            DcFilter
        }
        pub fn reset(&mut self) {}
        pub fn process(&mut self, total: u16) -> i16 {
            i16::try_from(total).unwrap()
        }
    }
}

pub const MASTER_GAIN: f32 = 1.0;

pub trait Ym2149Backend {
    fn new() -> Self;
    fn with_clocks(master_clock: u32, sample_rate: u32) -> Self;
    fn reset(&mut self);
    fn write_register(&mut self, addr: u8, value: u8);
    fn read_register(&self, addr: u8) -> u8;
    fn load_registers(&mut self, regs: &[u8; 16]);
    fn dump_registers(&self) -> [u8; 16];
    fn clock(&mut self);
    fn get_sample(&self) -> f32;
    fn get_channel_outputs(&self) -> (f32, f32, f32);
    fn set_channel_mute(&mut self, channel: usize, mute: bool);
    fn is_channel_muted(&self, channel: usize) -> bool;
    fn set_color_filter(&mut self, enabled: bool);
    fn trigger_envelope(&mut self);
    fn set_drum_sample_override(&mut self, channel: usize, sample: Option<f32>);
    fn set_mixer_overrides(&mut self, force_tone: [bool; 3], force_noise_mute: [bool; 3]);
}

/// The same call on both.
macro_rules! both {
    ($one:ident, $other:ident, $call:ident($($argument:expr),*)) => {{
        $one.$call($($argument),*);
        $other.$call($($argument),*);
    }};
}

#[test]
fn same_words_as_published() {
    let mut state = 1u64;
    let mut draw = move || {
        state = state.wrapping_mul(6_364_136_223_846_793_005).wrapping_add(1_442_695_040_888_963_407);
        state >> 33
    };
    for master in [2_000_000, 8, 1_000_003, 1_073_741_823] {
        for ticks in [1, 2, 6, 40] {
            let rate = (master / 8 / ticks).max(1);
            let mut one = chip::Ym2149::with_clocks(master, rate);
            let mut other = oracle::chip::Ym2149::with_clocks(master, rate);
            for _ in 0..10_000 {
                let (channel, byte, on) = (draw() as usize % 4, draw() as u8, draw() % 2 == 0);
                let (register, number) = (draw() as u8 % 16, draw());
                let low = if on { byte % 3 } else { byte };
                let cycle = other.start() + number % 4_000;
                let sample = on.then(|| f32::from_bits((number << 1) as u32));
                let registers = std::array::from_fn(|_| draw() as u8);
                match draw() % 16 {
                    0..=2 => both!(one, other, write_register(register, byte)),
                    3 => both!(one, other, write_register(register % 6, low)),
                    4 => both!(one, other, write_port(0, byte)),
                    5 => both!(one, other, write_port(2, low)),
                    6 => both!(one, other, write_port_immediate(byte, low)),
                    7 => both!(one, other, set_cpu_cycle(cycle)),
                    8 => both!(one, other, set_timer_irq_state(on)),
                    9 => both!(one, other, set_channel_mute(channel, on)),
                    10 => both!(one, other, set_drum_sample_override(channel, sample)),
                    11 => both!(one, other, trigger_envelope()),
                    12 => both!(one, other, load_registers(&registers)),
                    13 if byte < 8 => both!(one, other, reset()),
                    14 if byte < 32 => both!(one, other, flush_pending_writes()),
                    15 if byte < 32 => both!(one, other, sync_sample_cycle(number * 97)),
                    _ => {
                        for _ in 0..byte % 32 {
                            assert_eq!(one.compute_next_sample() as u16, other.compute_next_sample());
                        }
                    }
                }
                assert_eq!(one.dump_registers(), other.dump_registers());
                assert_eq!(one.read_port(0), other.read_port(0));
                assert_eq!(one.cpu_cycle(), other.cpu_cycle());
                assert_eq!(one.pending_write_count(), other.pending_write_count());
                assert_eq!(one.get_channel_outputs(), other.get_channel_outputs());
                assert_eq!(one.is_channel_muted(channel), other.is_channel_muted(channel));
            }
        }
    }
}
