//! 01, "What changes shape": when a record is in range. Each line of the test stands under 01's words for it, the variant's under 02's.

use crate::chip::Ym2149;
use crate::refusal::{self, ACCEPTED, VARIANT_MAX};
use crate::ring::Ring;
use crate::tables::REG_MASK;

pub fn in_range(chip: &Ym2149, master: u32, ring: &Ring) -> bool {
    let voice = stored(chip) && generators(chip) && gates(chip);
    clocks(chip, master) && variant(chip) && voice && selections(chip, ring)
}

/// "accepted clocks and their quotients, accumulator below the rate"
fn clocks(chip: &Ym2149, master: u32) -> bool {
    let (internal, rate, cycles) = chip.clocks();
    refusal::of_clocks(master, rate) == ACCEPTED
        && internal == master / 8
        && cycles == 4 * master as u64 / rate as u64
        && chip.accumulator() < rate
}

/// 02, request 05: "a record with a variant above 2 gives 22"
fn variant(chip: &Ym2149) -> bool {
    chip.mixer().variant() <= VARIANT_MAX
}

/// "stored bytes within masks"
fn stored(chip: &Ym2149) -> bool {
    chip.dump_registers().iter().zip(REG_MASK).all(|(byte, mask)| byte & mask == *byte)
}

/// "tone periods to 4,095, noise period to 31, envelope period and all counters to 65,535, position -64..63, a real shape
/// offset, noise register 1..131,071, output all or none, each channel's edges within its five bits"
fn generators(chip: &Ym2149) -> bool {
    let tones = chip.tones().iter().enumerate().all(|(channel, tone)| {
        let (counter, period, edges, _) = tone.view();
        counter <= 65_535 && period <= 4_095 && edges & !(0x1f << (5 * channel)) == 0
    });
    let (counter, period, register, output, _) = chip.noise().view();
    let noise =
        counter <= 65_535 && period <= 31 && (1..=131_071).contains(&register) && (output == 0 || output == u32::MAX);
    let (counter, period, position, offset) = chip.envelope().view();
    let envelope = counter <= 65_535
        && period <= 65_535
        && (-64..=63).contains(&position)
        && (0..10).any(|row| offset == 128 * row);
    tones && noise && envelope
}

/// "gate masks to 0x7fff"
fn gates(chip: &Ym2149) -> bool {
    let (tone, noise) = chip.mixer().config.view();
    tone <= 0x7fff && noise <= 0x7fff
}

/// "the selection and each waiting write's register to 15, at most 256 waiting, the ring's place below 256"
fn selections(chip: &Ym2149, ring: &Ring) -> bool {
    chip.selection() <= 15 && ring.fits() && ring.all().iter().all(|(_, register, _)| *register <= 15)
}
