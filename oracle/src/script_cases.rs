//! Scripts by hand: what they are made of, and all of them. `compare` runs them on ours.

use crate::{due_cases, effect_cases, variant_cases, wave_cases};

pub struct Case {
    pub name: String,
    pub script: String,
}

pub fn all() -> Vec<Case> {
    [wave_cases::all(), due_cases::all(), variant_cases::all(), effect_cases::all()].into_iter().flatten().collect()
}

pub fn case(name: impl Into<String>, script: String) -> Case {
    Case { name: name.into(), script }
}

/// A write stamped at the end of a word of so many cycles, the first from cycle 0 on being word 0.
pub fn due(cycles: u64, word: u64, register: u8, value: u8) -> String {
    format!("cycle {}\nport 0 {register}\nport 2 {value}\n", (word + 1) * cycles)
}
