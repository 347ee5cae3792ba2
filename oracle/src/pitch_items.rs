//! What `crates/test_pitches` reads, item after item, and what it is to print of each. 02, request 12.

use crate::pitches::{are_nearest, printed};
use std::fmt::Display;

pub enum Item {
    /// A list of pitches as text.
    Text(Vec<u8>),
    /// Proposed pairs; the program takes 64 at most.
    Lists(Lists),
}

pub struct Lists {
    pub master: u32,
    pub pitches: Vec<u32>,
    pub periods: Vec<u16>,
}

impl Item {
    /// A line with the number of bytes, then the bytes.
    pub fn input(&self) -> Vec<u8> {
        let (key, bytes) = match self {
            Item::Text(text) => ("text", text.clone()),
            Item::Lists(lists) => ("lists", lists.text()),
        };
        [format!("{key}={}\n", bytes.len()).into_bytes(), bytes].concat()
    }

    pub fn output(&self) -> Vec<u8> {
        match self {
            Item::Text(text) => [b"text\n".to_vec(), printed(text)].concat(),
            Item::Lists(lists) => lists.said().into_bytes(),
        }
    }
}

impl Lists {
    fn text(&self) -> Vec<u8> {
        [pitches_text(self.master, &self.pitches), lines("period", &self.periods).into_bytes()].concat()
    }

    fn said(&self) -> String {
        let (number, yes) = are_nearest(self.master, &self.pitches, &self.periods);
        format!("lists={number} {}\n", if yes { "yes" } else { "no" })
    }
}

pub fn pitches_text<Number: Display>(master: Number, pitches: &[Number]) -> Vec<u8> {
    format!("master={master}\n{}", lines("pitch", pitches)).into_bytes()
}

fn lines<Number: Display>(key: &str, numbers: &[Number]) -> String {
    numbers.iter().map(|number| format!("{key}={number}\n")).collect()
}

/// All that is read of these.
pub fn input(items: &[Item]) -> Vec<u8> {
    items.iter().flat_map(Item::input).collect()
}

/// All that is to be printed of these.
pub fn output(items: &[Item]) -> Vec<u8> {
    items.iter().flat_map(Item::output).collect()
}
