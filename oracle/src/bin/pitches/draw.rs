//! Draws masters, pitches and proposed lists.

use oracle::pitch_cases::{least_tie, ties_of};
use oracle::pitch_items::{Item, Lists, pitches_text};
use oracle::pitches::{PERIOD_MAX, PERIOD_MIN, nearest};
use oracle::random::Random;
use oracle::refusal::{MASTER_MAX, MASTER_MIN, PITCH_MAX};

const COMMON: [u64; 4] = [1_000_000, 1_789_772, 2_000_000, 4_000_000];
/// Pairs of a list, at most.
const PAIRS: u64 = 30;
/// The first number of 33 bits, and the highest decimal of 10 digits.
const WIDE: u64 = 1 << 32;
const DECIMAL_MAX: u64 = 9_999_999_999;

/// Numbers of a text: these may be refused, and be wider than 32 bits.
pub struct Case {
    pub master: u64,
    pub pitch: u64,
}

impl Case {
    pub fn item(&self) -> Item {
        Item::Text(pitches_text(self.master, &[self.pitch]))
    }
}

/// Every fourth is a tie.
pub fn cases(random: &mut Random, count: u64) -> Vec<Case> {
    (0..count).map(|place| if place % 4 == 0 { tie(random) } else { case(random) }).collect()
}

fn tie(random: &mut Random) -> Case {
    let period = random.spread(PERIOD_MAX as u64 - 1).max(PERIOD_MIN as u64);
    let (master, pitch) = least_tie(period);
    let times = random.within(1, ties_of(period));
    Case { master: times * master, pitch: times * pitch }
}

fn case(random: &mut Random) -> Case {
    let master = master(random);
    if random.one_in(8) {
        return refused(random, master);
    }
    Case { master, pitch: pitch(random, master) }
}

fn master(random: &mut Random) -> u64 {
    if random.one_in(4) { random.pick(&COMMON) } else { random.spread(MASTER_MAX as u64).max(MASTER_MIN as u64) }
}

/// Over the whole range, next to a tone, or between two: the first is mostly far from all tones.
fn pitch(random: &mut Random, master: u64) -> u64 {
    let period = random.within(lowest_in_range(master), PERIOD_MAX as u64);
    let tone = 1_000 * master / (16 * period);
    let drawn = match random.below(3) {
        0 => random.spread(PITCH_MAX as u64),
        1 => random.within(tone.max(2) - 1, tone + 2),
        _ => random.within(1_000 * master / (16 * (period + 1)), tone),
    };
    drawn.clamp(1, PITCH_MAX as u64)
}

/// The lowest period whose tone is no higher than the highest pitch.
fn lowest_in_range(master: u64) -> u64 {
    (1_000 * master).div_ceil(16 * PITCH_MAX as u64).max(PERIOD_MIN as u64)
}

/// The master refused, or the pitch, or both.
fn refused(random: &mut Random, master: u64) -> Case {
    let pitch = pitch(random, master);
    match random.below(3) {
        0 => Case { master: refused_master(random), pitch },
        1 => Case { master, pitch: refused_pitch(random) },
        _ => Case { master: refused_master(random), pitch: refused_pitch(random) },
    }
}

fn refused_master(random: &mut Random) -> u64 {
    match random.below(3) {
        0 => random.below(MASTER_MIN as u64),
        1 => random.within(MASTER_MAX as u64 + 1, WIDE - 1),
        _ => random.within(WIDE, DECIMAL_MAX),
    }
}

fn refused_pitch(random: &mut Random) -> u64 {
    match random.below(3) {
        0 => 0,
        1 => PITCH_MAX as u64 + random.spread(WIDE - 1 - PITCH_MAX as u64),
        _ => random.within(WIDE, DECIMAL_MAX),
    }
}

pub fn lists(random: &mut Random, count: u64) -> Vec<Lists> {
    (0..count).map(|_| list(random)).collect()
}

/// Half of them right; else one period wrong, or refused.
fn list(random: &mut Random) -> Lists {
    let mut list = right_list(random);
    match random.below(12) {
        0..=5 => {}
        6..=8 => make_wrong(random, &mut list),
        9 => make_unequal(random, &mut list),
        10 => refuse_behind_wrong(random, &mut list),
        _ => list.master = refused_master(random).min(u32::MAX as u64) as u32,
    }
    list
}

fn right_list(random: &mut Random) -> Lists {
    let master = master(random);
    let pitches: Vec<u32> = (0..random.within(0, PAIRS)).map(|_| pitch(random, master) as u32).collect();
    let master = master as u32;
    let periods = pitches.iter().map(|&pitch| nearest(master, pitch)).collect();
    Lists { master, pitches, periods }
}

/// An empty list stays as it is.
fn make_wrong(random: &mut Random, list: &mut Lists) {
    if list.periods.is_empty() {
        return;
    }
    let place = random.below(list.periods.len() as u64) as usize;
    let right = list.periods[place];
    list.periods[place] = random.pick(&[right - 1, right + 1, 0, 1, 4_096, 65_535]);
}

/// Sometimes with a refused pitch: 20 comes first.
fn make_unequal(random: &mut Random, list: &mut Lists) {
    if random.one_in(2) || list.periods.is_empty() {
        list.periods.push(PERIOD_MIN);
    } else {
        list.periods.pop();
    }
    if random.one_in(2) {
        list.pitches.iter_mut().for_each(|pitch| *pitch = 0);
    }
}

/// The wrong period comes first, and the list is refused all the same.
fn refuse_behind_wrong(random: &mut Random, list: &mut Lists) {
    make_wrong(random, list);
    list.pitches.push(refused_pitch(random).min(u32::MAX as u64) as u32);
    list.periods.push(PERIOD_MIN);
}
