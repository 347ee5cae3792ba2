//! What the crate's own tables.rs, generators.rs and mixer.rs give, line by line as `crates/test_leaves` prints it.
//!
//! The three files are ym2149 0.9.1's, their private fields made `pub`. What the crate keeps in chip.rs is
//! copied here with the lines that it stands on there: `random_seed`, the edges of a reset, the pending mark,
//! one tick of all generators, and one word's channels.

#![allow(dead_code)]

#[rustfmt::skip]
mod generators;
#[rustfmt::skip]
mod mixer;
mod of_generators;
mod of_mixer;
mod of_tables;
mod say;
#[rustfmt::skip]
#[path = "../../originals/tables.rs"]
mod tables;

fn main() {
    of_tables::all();
    of_generators::tones();
    of_generators::noises();
    of_generators::envelopes();
    of_generators::together();
    of_mixer::gates();
    of_mixer::levels();
    of_mixer::channels();
    of_mixer::drums();
    of_mixer::words();
}
