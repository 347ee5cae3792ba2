//! tables.rs

use crate::say;
use crate::tables::{ENV_DATA, MASKS, REG_MASK, SHAPE_TO_ENV, YM2149_LOG_LEVELS};

pub fn all() {
    say::text("register masks:");
    for register in 0..14 {
        say::hex(REG_MASK[register] as u32);
    }
    say::end();

    say::text("gate masks of 0 to 15:");
    for bits in 0..16 {
        say::hex(MASKS[(bits & 0x07) as usize]);
    }
    say::end();

    say::text("offsets of shapes 0 to 31:");
    for shape in 0..32 {
        say::number(SHAPE_TO_ENV[(shape & 0x0f) as usize] as u64 * 32 * 4);
    }
    say::end();

    say::text("levels:");
    for index in 0..32 {
        say::number(YM2149_LOG_LEVELS[index] as u64);
    }
    say::end();

    for row in 0..10 {
        print!("row {row}:");
        for place in 0..128 {
            say::number(ENV_DATA[row * 128 + place] as u64);
        }
        say::end();
    }
}
