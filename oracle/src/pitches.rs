//! Nearest periods, 02's request 12. The crate has no such call: this is a second reading of the request, not the crate.
//! Every period is tried, and fractions are compared crosswise: no division finds the answer.

use crate::refusal::*;
use crate::text::{Lines, Refused};

/// 02: "the period from 2 to 4,095".
pub const PERIOD_MIN: u16 = 2;
pub const PERIOD_MAX: u16 = 4_095;

/// A numerator, and a denominator above 0.
type Fraction = (u128, u128);

/// How far the period's tone is from the pitch, in millihertz. The tone is 1,000 × master / (16 × period).
fn distance(master: u32, pitch: u32, period: u16) -> Fraction {
    let sixteenfold = 16 * period as u128;
    ((1_000 * master as u128).abs_diff(pitch as u128 * sixteenfold), sixteenfold)
}

fn less(one: Fraction, other: Fraction) -> bool {
    one.0 * other.1 < other.0 * one.1
}

/// 02: "on a tie the smaller period", so a higher one must be nearer.
pub fn nearest(master: u32, pitch: u32) -> u16 {
    let mut found = PERIOD_MIN;
    for period in PERIOD_MIN..=PERIOD_MAX {
        if less(distance(master, pitch, period), distance(master, pitch, found)) {
            found = period;
        }
    }
    found
}

/// Whether a higher period is just as near.
pub fn tied(master: u32, pitch: u32) -> bool {
    let found = nearest(master, pitch);
    let least = distance(master, pitch, found);
    (found + 1..=PERIOD_MAX).any(|period| !less(least, distance(master, pitch, period)))
}

pub fn nearest_period(master: u32, pitch: u32) -> (u8, u16) {
    match of_pitches(master, &[pitch], 1) {
        ACCEPTED => (ACCEPTED, nearest(master, pitch)),
        number => (number, 0),
    }
}

pub fn are_nearest(master: u32, pitches: &[u32], periods: &[u16]) -> (u8, bool) {
    let number = of_pitches(master, pitches, periods.len());
    let right = |(&pitch, &period): (&u32, &u16)| nearest(master, pitch) == period;
    (number, number == ACCEPTED && pitches.iter().zip(periods).all(right))
}

/// The output of a list of pitches as text.
pub fn printed(text: &[u8]) -> Vec<u8> {
    let output = match periods(text) {
        Ok(periods) => periods.iter().map(|period| format!("period={period}\n")).collect(),
        Err(Refused(number, line)) => format!("refused={number} line={line}\n"),
    };
    output.into_bytes()
}

fn periods(text: &[u8]) -> Result<Vec<u16>, Refused> {
    let mut lines = Lines::of(text)?;
    let master = lines.short_number(MASTER_TOO_HIGH, "master=", MASTER_MIN..=MASTER_MAX)?;
    let mut periods = Vec::new();
    while lines.has_more() {
        let pitch = lines.short_number(PITCH_OUT_OF_RANGE, "pitch=", 1..=PITCH_MAX)?;
        periods.push(nearest(master, pitch));
    }
    Ok(periods)
}
