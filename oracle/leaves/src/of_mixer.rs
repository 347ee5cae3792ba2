//! mixer.rs, and what chip.rs does with it.

use crate::generators::NUM_CHANNELS;
use crate::mixer::{Mixer, MixerConfig};
use crate::say;

// ---- gates

fn config(value: u8) -> MixerConfig {
    let mut c = MixerConfig::default();
    c.set_from_register(value);
    c
}

fn masks(value: u8) {
    let c = config(value);
    say::hex(c.tone_mask);
    print!("/{:x}", c.noise_mask);
}

fn gates_of(value: u8) {
    print!("gate by {value}:");
    let c = config(value);
    for edges in [0, 0x3ff, 0x7fff] {
        say::hex(c.compute_gate_mask(edges, 0));
        say::hex(c.compute_gate_mask(edges, 0xffff_ffff));
    }
    say::end();
}

pub fn gates() {
    say::text("gates of 0 to 63:");
    for value in 0..64 {
        masks(value);
    }
    say::end();
    for value in [0, 0x07, 0x38, 0x3f, 0x2a, 0x15, 0x3e] {
        gates_of(value);
    }
}

// ---- level indices

fn used_with(envelope: u32) {
    print!("volumes 0 to 31 with envelope {envelope}:");
    for volume in 0..32 {
        let (_, ungated) = Mixer::new().compute_levels([volume, 0, 0], envelope, 0);
        say::number((ungated & 0x1f) as u64);
    }
    say::end();
}

fn gated_by(gate: u32) {
    print!("indices 0 to 31 gated by {gate}:");
    for index in 0..32 {
        let (gated, _) = Mixer::new().compute_levels([0x10, 0, 0], index, gate);
        say::number((gated & 0x1f) as u64);
    }
    say::end();
}

pub fn levels() {
    used_with(0);
    used_with(17);
    used_with(31);
    gated_by(0);
    gated_by(0x15);
    gated_by(0x1f);
    gated_by(0xffff_ffff);
}

// ---- one channel

fn say_channel(m: &Mixer, channel: usize) {
    let c = &m.channels[channel];
    say::flag(c.muted);
    say::flag(c.drum_override.is_some());
    say::bits(c.last_output);
    say::bits(c.last_amplitude);
}

fn heard(m: &mut Mixer, gated: u32, ungated: u32, half: bool) {
    let out = m.compute_channel_output(0, gated, ungated, half);
    say::number(out as u64);
    say::bits(m.channels[0].last_output);
    say::bits(m.channels[0].last_amplitude);
}

/// Open and shut, whole and halved.
fn level(index: u32) {
    print!("level {index}:");
    heard(&mut Mixer::new(), index, index, false);
    heard(&mut Mixer::new(), 0, index, false);
    heard(&mut Mixer::new(), index, index, true);
    heard(&mut Mixer::new(), 0, index, true);
    say::end();
}

pub fn channels() {
    for index in 0..32 {
        level(index);
    }
    say::text("16 of 31:");
    heard(&mut Mixer::new(), 16, 31, false);
    say::text(" 1 of 17, halved:");
    heard(&mut Mixer::new(), 1, 17, true);
    say::end();

    let mut m = Mixer::new();
    for step in 0..6 {
        match step {
            1 => m.set_mute(0, true),
            2 => m.set_drum_override(0, Some(1.0)),
            3 => m.set_mute(0, false),
            4 => m.reset(),
            5 => m.set_drum_override(0, Some(-0.0)),
            _ => {}
        }
        print!("channel {step}:");
        say_channel(&m, 0);
        heard(&mut m, 31, 31, false);
        say::end();
    }
}

// ---- drums

/// Whole numbers and parts; zeros and subnormals; ends of the range and not numbers; the first sample that gives
/// 1, 2, 3, 1000, 2730, 2731, 5461, 8191, 8192, 10921 or 10922, and the one before it; samples that scale to
/// about a half more than a whole number; negative and large ones.
#[rustfmt::skip]
const SAMPLES: [u32; 64] = [
    0x3f80_0000, 0x4100_0000, 0x4080_0000, 0x3f00_0000, 0x3e80_0000, 0x4000_0000, 0x4040_0000, 0x3eaa_aaab,
    0x0000_0000, 0x8000_0000, 0x0000_0001, 0x8000_0001, 0x007f_ffff, 0x807f_ffff, 0x0080_0000, 0x8080_0000,
    0x7f80_0000, 0xff80_0000, 0x7f7f_ffff, 0xff7f_ffff, 0x7fc0_0000, 0xffc0_0000, 0x7f80_0001, 0xffff_ffff,
    0x39c0_02ff, 0x39c0_0300, 0x3a40_02ff, 0x3a40_0300, 0x3a90_023f, 0x3a90_0240, 0x3ebb_82ed, 0x3ebb_82ee,
    0x3f7f_f3ff, 0x3f7f_f400, 0x3f80_05ff, 0x3f80_0600, 0x3fff_ffff, 0x4000_0001, 0x403f_fcff, 0x403f_fd00,
    0x4040_02ff, 0x4040_0300, 0x407f_f9ff, 0x407f_fa00, 0x407f_ffff, 0x4080_0001, 0x407f_fffe, 0x3f7f_ffff,
    0x3940_0300, 0x3940_02ff, 0x3940_0301, 0x3a10_0240, 0x3a10_023f, 0x3fff_fa00, 0x407f_fd00, 0x403f_ffff,
    0xbf80_0000, 0xc080_0000, 0xb9c0_0300, 0x4b00_0000, 0x4f80_0000, 0x5f00_0000, 0x7e80_0000, 0x3727_c5ac,
];

fn drum(bits: u32) {
    print!("drum {bits:08x}");
    let mut m = Mixer::new();
    m.set_drum_override(0, Some(f32::from_bits(bits)));
    heard(&mut m, 0, 31, true);
    say::end();
}

pub fn drums() {
    for bits in SAMPLES {
        drum(bits);
    }
}

// ---- three channels and their word

// chip.rs, 470..483
fn word(
    m: &mut Mixer,
    volume_regs: [u8; 3],
    halves: [bool; 3],
    envelope_level: u32,
    accumulated_mask: u32,
) {
    let (gated_levels, ungated_levels) =
        m.compute_levels(volume_regs, envelope_level, accumulated_mask);

    // Compute individual channel outputs
    let mut total_output = 0u32;
    for channel in 0..NUM_CHANNELS {
        let level_index = (gated_levels >> (channel * 5)) & 0x1F;
        let ungated_level_index = (ungated_levels >> (channel * 5)) & 0x1F;
        let half_amplitude = halves[channel];
        total_output +=
            m.compute_channel_output(channel, level_index, ungated_level_index, half_amplitude);
    }
    say::number(total_output as u64);
    for channel in 0..NUM_CHANNELS {
        say_channel(m, channel);
    }
    say::text(" muted:");
    for channel in 0..4 {
        say::flag(m.is_muted(channel));
    }
    say::end();
}

fn change(m: &mut Mixer, step: u8) {
    match step {
        4 => m.set_mute(1, true),
        5 => m.set_mute(3, true),
        6 => m.set_mute(2, true),
        7 => m.set_mute(1, false),
        8 => m.set_drum_override(0, Some(2.5)),
        9 => m.set_drum_override(1, Some(-1.0)),
        10 => m.set_drum_override(3, Some(4.0)),
        11 => m.set_drum_override(1, None),
        12 => m.set_mute(2, false),
        13 => m.set_mute(0, true),
        14 => m.reset(),
        _ => {}
    }
}

pub fn words() {
    let mut m = Mixer::new();
    for step in 0..16 {
        change(&mut m, step);
        print!("word {step}:");
        match step {
            0 => word(&mut m, [0, 0, 0], [true, true, true], 0, 0x7fff),
            1 => word(&mut m, [16, 16, 16], [false, false, false], 31, 0x7fff),
            2 => word(&mut m, [15, 14, 31], [false, false, false], 22, 0x3e0),
            3 => word(&mut m, [31, 1, 8], [false, true, true], 5, 0),
            _ => word(&mut m, [15, 15, 15], [false, true, false], 0, 0x7fff),
        }
    }
}
