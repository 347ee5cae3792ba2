//! Runs the crate's own noise until it is where it began, and prints how far that was. 02, request 11.
//! Status 0: all is as the request says; 1: something is not; 2: bad arguments.

use oracle::noise_loops::{LOOP_STEPS, loop_ticks, out_of_reach, reset_with, steps_back, ticks_back};
use oracle::random::Random;
use oracle::set::Field::NoisePeriod;
use std::ops::RangeInclusive;
use std::process::exit;

const DEFAULT_SEED: u64 = 1;
/// 02: "a noise period p from 1 to 31".
const PERIODS: RangeInclusive<u32> = 1..=31;
/// Registers that are run whatever the seed: the lowest bit alone, the highest alone, all 17.
const ALWAYS: [u32; 3] = [1, 65_536, 131_071];
const DRAWN: usize = 100;

fn main() {
    let Some(seed) = seed() else {
        eprintln!("usage: noise_loops [SEED]");
        exit(2);
    };
    let right = [every_period(), period_0(), registers(seed), output()];
    exit(right.contains(&false) as i32);
}

fn seed() -> Option<u64> {
    let words: Vec<String> = std::env::args().skip(1).collect();
    match words.as_slice() {
        [] => Some(DEFAULT_SEED),
        [seed] => seed.parse().ok(),
        _ => None,
    }
}

fn every_period() -> bool {
    let found: Vec<Option<u32>> = PERIODS.map(ticks_at).collect();
    let ticks: u32 = found.iter().flatten().sum();
    println!("periods={} ticks={ticks}", found.len());
    PERIODS.zip(found).all(|(period, found)| found == Some(loop_ticks(period)))
}

fn period_0() -> bool {
    ticks_at(0) == Some(loop_ticks(0))
}

/// From reset, a line to a period.
fn ticks_at(period: u32) -> Option<u32> {
    let found = ticks_back(&mut reset_with(&[(NoisePeriod, period)]));
    println!("period={period} ticks={}", said(found, loop_ticks(period)));
    found
}

fn registers(seed: u64) -> bool {
    let mut random = Random(seed);
    let drawn = (0..DRAWN).map(|_| random.within(1, LOOP_STEPS as u64) as u32);
    let found: Vec<(u32, Option<u32>)> =
        ALWAYS.into_iter().chain(drawn).map(|start| (start, steps_back(start))).collect();
    let wrong: Vec<_> = found.iter().filter(|(_, steps)| *steps != Some(LOOP_STEPS)).collect();
    for (register, steps) in &wrong {
        println!("register={register} steps={}", said(*steps, LOOP_STEPS));
    }
    if wrong.is_empty() {
        println!("registers={} steps={LOOP_STEPS}", found.len());
    }
    wrong.is_empty()
}

/// Why 02 speaks of chips that calls can reach: the register comes back, and the output is another.
fn output() -> bool {
    let mut noise = out_of_reach();
    let (_, period, register, output, _) = noise.view();
    let found = ticks_back(&mut noise);
    let ticks = found.unwrap_or(loop_ticks(period));
    let (_, _, register_then, output_then, _) = noise.view();
    println!("register={register} output={output} ticks={ticks}: register={register_then} output={output_then}");
    found.is_none() && (register_then, output_then) == (register, 0)
}

fn said(found: Option<u32>, expected: u32) -> String {
    match found {
        Some(found) if found == expected => found.to_string(),
        Some(found) => format!("{found}, not {expected}"),
        None => format!("none in {expected}"),
    }
}
