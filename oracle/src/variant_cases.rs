//! Scripts about the variant that a chip is of (02, request 05): `variant.script`, which has them by hand, and those that are too long for
//! that. `tests/variant.rs`, `tests/wave.rs` and `tests/due.rs` hold the oracle to the request on them; `compare` runs them on ours.

use crate::refusal::VARIANT_MAX;
use crate::script_cases::{Case, case};
use crate::{due_cases, wave_cases};
use std::fmt::Write;

const OTHER_THAN_THE_CRATES: [u8; 2] = [1, 2];

pub fn all() -> Vec<Case> {
    [by_hand(), volumes(), shapes(), due_writes()].into_iter().flatten().collect()
}

/// Those that say under their lines what 02 gives.
pub fn by_hand() -> Vec<Case> {
    let by_hand = include_str!("../variant.script");
    vec![
        case("variant.script, by value", format!("lent 0\n{by_hand}")),
        case("variant.script, lent", format!("lent 1\n{by_hand}")),
        case("makings of every variant", every_making()),
        case("records of every variant, by value", every_call(0)),
        case("records of every variant, lent", every_call(1)),
    ]
}

/// Every volume of each channel, a tick to a word.
pub fn volumes() -> Vec<Case> {
    (0..=VARIANT_MAX).map(|variant| case(format!("every volume, variant {variant}"), every_volume(variant))).collect()
}

/// Shapes of which A alone is heard.
pub fn shapes() -> Vec<Case> {
    OTHER_THAN_THE_CRATES.iter().flat_map(|variant| of_variant(*variant, wave_cases::for_a_variant())).collect()
}

/// Volumes and shapes that change within a block.
pub fn due_writes() -> Vec<Case> {
    OTHER_THAN_THE_CRATES.iter().flat_map(|variant| of_variant(*variant, due_cases::for_a_variant())).collect()
}

/// The same, on chips of this variant.
fn of_variant(variant: u8, cases: Vec<Case>) -> Vec<Case> {
    let line = |line: &str| match line.strip_prefix("new ") {
        Some(clocks) => format!("make {clocks} {variant}\n"),
        None => format!("{line}\n"),
    };
    let script = |script: &str| script.lines().map(line).collect();
    cases.iter().map(|Case { name, script: all }| case(format!("{name}, variant {variant}"), script(all))).collect()
}

/// Clocks and what they are refused by.
const CLOCKS: [(u32, u32, u8); 5] =
    [(2_000_000, 44_100, 0), (1_073_741_824, 0, 1), (1_073_741_824, 1, 1), (2_000_000, 0, 2), (2_000_000, 250_001, 3)];

fn every_making() -> String {
    let mut script = String::new();
    for variant in 0..=255 {
        for (master, rate, refused) in CLOCKS {
            let number = if refused == 0 && variant > VARIANT_MAX { 13 } else { refused };
            let (clocks, left) = if number == 0 { ("250000,44100,181", variant) } else { ("250000,250000,32", 0) };
            write!(script, "make 2000000 250000 {}\nwrite 8 15\n", variant % 3).unwrap();
            write!(script, "make {master} {rate} {variant}\n# answer: {number}\n").unwrap();
            writeln!(script, "# state: regs=000000000000003f000000000000 clocks={clocks} variant={left}").unwrap();
        }
    }
    script
}

/// Each call, and what else it answers where it is refused.
#[rustfmt::skip]
const CALLS: [(&str, &str); 27] = [
    ("write 8 15", " 0 0"), ("read 8", " 0"), ("load 00112233445566778899aabbccddeeff", " 0 0"), ("port 0 3", ""), ("port 2 9", ""),
    ("port_now 0 8", " 0 0"), ("port_now 2 9", " 0 0"), ("read_port 0", " 0"), ("cycle 70", ""), ("get_cycle", " 0"), ("sync 5", ""),
    ("pending", " 0"), ("flush", " 0 0"), ("irq 1", ""), ("inside_irq 0", ""), ("trigger", ""), ("mute 1 1", ""), ("muted 1", " 0"),
    ("mute 3 0", ""), ("drum 2 40000000", ""), ("drum 1 off", ""), ("outputs", " 00000000 00000000 00000000"), ("word", " 0 0 0 0"),
    ("block 5", " 0 0 0 0"), ("block 65537", " 0 0 0 0"), ("dump", " 00000000000000000000000000000000"), ("reset", ""),
];

/// Every call but the makings, on records of variants in range and beyond.
fn every_call(lent: u8) -> String {
    let mut script = format!("lent {lent}\n");
    for variant in [0, 1, 2, 3, 4, 128, 255] {
        script += "new 2000000 44100\nload 21032204230505381f1e1d01020a0000\nport 2 1\nirq 1\nblock 3\n";
        writeln!(script, "set variant {variant}").unwrap();
        for (call, others) in CALLS {
            writeln!(script, "{call}").unwrap();
            if variant > VARIANT_MAX {
                writeln!(script, "# answer: 22{others}").unwrap();
            }
            writeln!(script, "# state: variant={variant}").unwrap();
        }
    }
    script
}

/// Not halved, and both that are.
const PERIODS: [u16; 3] = [4_095, 1, 0];
/// The gates open, and by the noise alone, which is then off.
const GATES: [u8; 2] = [0x3f, 0x07];

/// B's volume and C's are 11 and 22 above A's. The envelope stays where it is set, at two levels for each volume: all 32 in the end.
fn every_volume(variant: u8) -> String {
    let mut script = format!("make 2000000 250000 {variant}\n");
    for lent in [0, 1] {
        writeln!(script, "lent {lent}").unwrap();
        for volume in 0..32 {
            for (channel, period) in PERIODS.iter().enumerate() {
                GATES.iter().for_each(|gate| script += &loaded(volume, *period, *gate));
                script += &muted_and_drummed(channel, (channel + 1) % 3);
            }
        }
        script += "reset\n";
    }
    script
}

fn loaded(volume: u8, period: u16, gate: u8) -> String {
    let [high, low] = period.to_be_bytes();
    let tone = format!("{low:02x}{high:02x}");
    let [b, c] = [11, 22].map(|above| (volume + above) % 32);
    let volumes = format!("{volume:02x}{b:02x}{c:02x}");
    let mut script = format!("load {tone}{tone}{tone}1f{gate:02x}{volumes}ffff0d0000\nset noise_output 0\n");
    for level in [0, 1].map(|odd| 2 * (volume as i8 % 16) + odd) {
        write!(script, "set envelope_position {}\nword\n", level - 64).unwrap();
    }
    script
}

fn muted_and_drummed(muted: usize, drummed: usize) -> String {
    format!("mute {muted} 1\ndrum {drummed} 3f800000\nword\nmute {muted} 0\ndrum {drummed} off\n")
}
