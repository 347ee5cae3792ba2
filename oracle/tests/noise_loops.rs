//! 02, request 11, on the crate's noise, as far as it is quick: `oracle/noise_loops` runs every period and drawn registers.

use oracle::noise_loops::{out_of_reach, reset_with, steps_back, ticks_back};
use oracle::set::Field::{NoisePeriod, NoiseRegister};

/// 131,071 × 2 × p; the crate runs 0 as 1.
#[test]
fn whole_state_from_reset() {
    for (period, ticks) in [(0, 262_142), (1, 262_142), (31, 8_126_402)] {
        assert_eq!(ticks_back(&mut reset_with(&[(NoisePeriod, period)])), Some(ticks), "period {period}");
    }
}

#[test]
fn register_by_steps() {
    assert_eq!(steps_back(65_536), Some(131_071));
}

/// A register of 0 stays 0. So a short loop is seen where there is one.
#[test]
fn register_0_loops_at_once() {
    assert_eq!(steps_back(0), Some(1));
    assert_eq!(ticks_back(&mut reset_with(&[(NoisePeriod, 3), (NoiseRegister, 0)])), Some(6));
}

/// The register is back after as many ticks, and the output is that of a reset.
#[test]
fn output_out_of_reach_does_not_return() {
    let mut noise = out_of_reach();
    assert_eq!(noise.view(), (0, 1, 1, u32::MAX, false));
    assert_eq!(ticks_back(&mut noise), None);
    assert_eq!(noise.view(), (0, 1, 1, 0, false));
}
