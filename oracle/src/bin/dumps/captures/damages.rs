//! Damages drawn at random: a byte replaced, left out or put in, a line left out, doubled or moved.

use super::good::plain;
use crate::{Text, text};
use oracle::random::Random;

const SEED: u64 = 1;
const COUNT: usize = 60;

pub fn texts() -> Vec<Text> {
    let mut random = Random(SEED);
    (1..=COUNT).map(|number| text(format!("drawn damage {number}"), damaged(&mut random))).collect()
}

fn damaged(random: &mut Random) -> Vec<u8> {
    let mut lines = plain(random.within(1, 4) as usize);
    // Lines after the header, where a capture is unlike a dump.
    let (from, to) =
        (random.within(2, lines.len() as u64 - 1) as usize, random.within(2, lines.len() as u64 - 1) as usize);
    match random.below(6) {
        0 => drop(lines.remove(from)),
        1 => lines.insert(to, lines[from].clone()),
        2 => lines.swap(from, to),
        _ => {}
    }
    let start = lines[..2].concat().len() as u64;
    let mut bytes = lines.concat().into_bytes();
    for _ in 0..random.within(1, 2) {
        let place = random.within(start, bytes.len() as u64 - 1) as usize;
        let byte = random.byte();
        let byte = random.pick(&[byte, b'\n', b'0', b'3', b'4', b'9', b'f', b'=']);
        match random.below(4) {
            0 => drop(bytes.remove(place)),
            1 => bytes.insert(place, byte),
            _ => bytes[place] = byte,
        }
    }
    bytes
}
