//! 02, request 02: R13 of ff is no write. The player beside plain register writes, and beside figures worked out by hand.

use oracle::chip::Ym2149;
use oracle::dump::play;
use oracle::shape_cases::{Case, MASTER, RATE, WORDS, all};

fn words(dump: &str) -> Vec<u32> {
    let mut out = Vec::new();
    play(dump.as_bytes(), &mut out).unwrap();
    let out = String::from_utf8(out).unwrap();
    let (first, rest) = out.split_once('\n').unwrap();
    let words: Vec<u32> = rest.lines().map(|word| word.parse().unwrap()).collect();
    assert_eq!(first, format!("words={}", words.len()));
    words
}

/// R0 to R12 of each frame, and to R13 what the case says.
fn written(case: &Case) -> Vec<u32> {
    let mut chip = Ym2149::with_clocks(MASTER, RATE);
    let mut words = Vec::new();
    for (registers, shape) in &case.frames {
        for register in 0..=12 {
            chip.write_register(register, registers[register as usize]);
        }
        if let Some(shape) = shape {
            chip.write_register(13, *shape);
        }
        words.extend((0..WORDS).map(|_| chip.compute_next_sample() as u32));
    }
    words
}

#[test]
fn as_written() {
    for case in all() {
        assert_eq!(words(&case.text()), written(&case), "{}", case.name);
    }
}

#[rustfmt::skip]
const LEVELS: [u32; 32] = [
    50, 60, 71, 85, 101, 120, 143, 170, 202, 241, 287, 341, 405, 482, 574, 682, 811, 965, 1148, 1365, 1623, 1930, 2296,
    2730, 3247, 3861, 4592, 5461, 6494, 7723, 9184, 10922,
];

fn named(name: &str) -> Vec<u32> {
    words(&all().iter().find(|case| case.name == name).expect(name).text())
}

/// The words of a chip whose A has these levels: B and C are of period 0 and give 25 each.
fn of_levels(levels: impl Iterator<Item = usize>) -> Vec<u32> {
    levels.map(|level| LEVELS[level] + 50).collect()
}

/// The level of shapes 00, 0f and 0e so many steps after their start.
fn fall(steps: usize) -> usize {
    31_usize.saturating_sub(steps)
}

fn rise(steps: usize) -> usize {
    if steps < 32 { steps } else { 0 }
}

fn up_and_down(steps: usize) -> usize {
    let place = steps % 64;
    if place < 32 { place } else { 63 - place }
}

/// Power-on puts the envelope at position 0 of shape 0, where it is 0 for good.
#[test]
fn new_chip() {
    assert_eq!(named("ff in the only frame"), [100; 50]);
    assert_eq!(named("ff in every frame"), [100; 450]);
}

/// A step falls on every third word. Frames of 50 words do not hold it up.
#[test]
fn goes_on() {
    assert_eq!(named("ff after 00"), of_levels((1..=150).map(|word| fall(word / 3))));
    assert_eq!(named("ff after 0f"), of_levels((1..=150).map(|word| rise(word / 3))));
    assert_eq!(named("ff after 0f, twice"), of_levels((1..=100).chain(1..=100).map(|word| rise(word / 3))));
    assert_eq!(named("ff after 0e"), of_levels((1..=500).map(|word| up_and_down(word / 3))));
}

/// Masked to 4 bits, each starts anew in frames 2 and 3; ff in frame 4 goes on.
#[test]
fn restarts() {
    let shapes: [(&str, fn(usize) -> usize); 5] =
        [("fe", up_and_down), ("ef", rise), ("0f", rise), ("1f", rise), ("f0", fall)];
    for (shape, level) in shapes {
        let from_frame_2 = of_levels((1..=50).chain(1..=100).map(|word| level(word / 3)));
        assert_eq!(named(&format!("{shape} after 0a, and again"))[50..], from_frame_2, "{shape}");
    }
}

/// 50 words of period 3 are 16 steps and a count of 2; then 50 steps of 1; then 7 steps of 7 and a count of 1; then 3 again.
#[test]
fn new_period() {
    let steps = (1..=50).map(|word| word / 3);
    let steps = steps.chain((1..=50).map(|word| 16 + word)).chain((1..=50).map(|word| 66 + word / 7));
    let steps = steps.chain((1..=50).map(|word| 73 + (word + 1) / 3));
    assert_eq!(named("R11 changed in a frame of ff"), of_levels(steps.map(up_and_down)));
}

/// The rule looks at R13's byte alone: with ff in all others and 00 there the shape falls from the top on all channels.
#[test]
fn ff_elsewhere() {
    assert_eq!(named("ff in R0 to R12, and 00 in R13"), [3 * 10922; 50]);
}

/// The example that swells and its like: first words of frames, counted from 0.
#[test]
fn swells() {
    let swell = words(include_str!("../../examples/swell.dump"));
    assert_eq!([1, 10, 20].map(|frame| swell[882 * frame]), [110, 861, 10972]);
    let restarted = words(include_str!("../../examples/swell_restarted.dump"));
    assert_eq!((restarted.len(), restarted.iter().max()), (21 * 882, Some(&110)));
}
