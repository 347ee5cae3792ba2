//! The oracle: crate ym2149 0.9.1 with its filter taken out, driven call by call. README.md says how.

// At the root, so that the crate's own `use crate::` lines stay as they are.
// `last_select_cycle` is written and never read, in the crate too.
#[allow(dead_code)]
#[path = "ym2149/chip.rs"]
pub mod chip;
#[path = "ym2149/generators.rs"]
pub mod generators;
#[path = "ym2149/mixer.rs"]
pub mod mixer;
#[path = "ym2149/tables.rs"]
pub mod tables;

pub mod call;
pub mod capture;
pub mod capture_cases;
pub mod due_cases;
pub mod dump;
pub mod effect_cases;
pub mod lines;
pub mod noise_loops;
pub mod pitch_cases;
pub mod pitch_items;
pub mod pitches;
pub mod random;
pub mod range;
pub mod refusal;
pub mod ring;
pub mod script;
pub mod script_cases;
pub mod set;
pub mod shape_cases;
pub mod text;
pub mod variant_cases;
pub mod wave_cases;
