//! How far the crate's noise runs until it is where it began. 02, request 11.

use crate::generators::NoiseGenerator;
use crate::script::Bench;
use crate::set::Field::{self, *};

/// 02: "131,071 noise steps return to it". There are as many registers of 17 bits that are not 0.
pub const LOOP_STEPS: u32 = 131_071;

/// 02: "131,071 × 2 × p ticks". The crate runs period 0 as 1.
pub fn loop_ticks(period: u32) -> u32 {
    LOOP_STEPS * 2 * period.max(1)
}

/// The noise of a chip just reset, with these fields set.
pub fn reset_with(fields: &[(Field, u32)]) -> NoiseGenerator {
    let mut bench = Bench::default();
    bench.chip.reset();
    for &(field, value) in fields {
        bench.set(field, value as i128);
    }
    bench.chip.noise().clone()
}

/// Register 1 with an output of all ones. No call leads there: a reset and the step from register 2 give register 1, and both clear it.
pub fn out_of_reach() -> NoiseGenerator {
    reset_with(&[(NoisePeriod, 1), (NoiseRegister, 1), (NoiseOutput, u32::MAX)])
}

/// The first tick after which the whole state is that of the start; none where there is none in the ticks that 02 says.
pub fn ticks_back(noise: &mut NoiseGenerator) -> Option<u32> {
    let start = noise.view();
    (1..=loop_ticks(start.1)).find(|_| {
        noise.tick();
        noise.view() == start
    })
}

/// The first step after which the register is this one again; none where there is none in the steps that 02 says.
pub fn steps_back(register: u32) -> Option<u32> {
    let mut noise = reset_with(&[(NoisePeriod, 1), (NoiseRegister, register)]);
    (1..=LOOP_STEPS).find(|_| {
        // At period 1 every second tick is a step.
        noise.tick();
        noise.tick();
        noise.view().2 == register
    })
}
