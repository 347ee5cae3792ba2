//! 01, "Numbers a call can answer", with 02's later numbers. `range.rs` has the test of 22.

pub const ACCEPTED: u8 = 0;
pub const MASTER_TOO_HIGH: u8 = 1;
pub const RATE_ZERO: u8 = 2;
pub const RATE_TOO_HIGH: u8 = 3;
pub const QUEUE_FULL: u8 = 4;
pub const BLOCK_TOO_LONG: u8 = 5;
pub const PAST_LAST_CYCLE: u8 = 6;
pub const NO_SUCH_CHANNEL: u8 = 7;
pub const BAD_FORM: u8 = 8;
pub const OUT_OF_RANGE: u8 = 9;
pub const BYTES_LEFT: u8 = 10;
pub const DUMP_TOO_LONG: u8 = 11;
pub const STAMP_LOWER: u8 = 12;
pub const NO_SUCH_VARIANT: u8 = 13;
pub const PITCH_OUT_OF_RANGE: u8 = 19;
pub const LISTS_DIFFER: u8 = 20;
pub const BAD_RECORD: u8 = 22;

pub const MASTER_MAX: u32 = 1_073_741_823;
pub const QUEUE_MAX: usize = 256;
pub const BLOCK_MAX: usize = 65_536;
pub const CHANNELS: u64 = 3;
pub const WORDS_MAX: u64 = 4_096;
pub const FRAMES_MAX: u64 = 1_900;
pub const TEXT_MAX: usize = 65_536;
pub const WRITES_MAX: u64 = 1_500;
pub const CAPTURE_WORDS_MAX: u64 = 65_536;
pub const PORT_MAX: u64 = 3;
pub const VARIANT_MAX: u8 = 2;
/// Of the nearest period alone; a chip takes a lower one.
pub const MASTER_MIN: u32 = 8;
/// Millihertz.
pub const PITCH_MAX: u32 = 20_000_000;

/// What making a chip with these clocks answers. The order is 1, 2, 3.
pub fn of_clocks(master: u32, rate: u32) -> u8 {
    if master > MASTER_MAX {
        MASTER_TOO_HIGH
    } else if rate == 0 {
        RATE_ZERO
    } else if rate > master / 8 {
        RATE_TOO_HIGH
    } else {
        ACCEPTED
    }
}

/// What making a chip of this variant answers. 02, request 05: 13 is "checked after 1, 2 and 3".
pub fn of_making(master: u32, rate: u32, variant: u8) -> u8 {
    match of_clocks(master, rate) {
        ACCEPTED if variant > VARIANT_MAX => NO_SUCH_VARIANT,
        number => number,
    }
}

/// What a block answers, given the next word's start and the cycles to a word. The order is 5, 6.
pub fn of_block(length: usize, start: u64, cycles: u64) -> u8 {
    let end = start as u128 + length as u128 * cycles as u128;
    if length > BLOCK_MAX {
        BLOCK_TOO_LONG
    } else if end > u64::MAX as u128 {
        PAST_LAST_CYCLE
    } else {
        ACCEPTED
    }
}

/// What a write to a port answers while this many writes wait.
pub fn of_port(port: u8, waiting: usize) -> u8 {
    if port & 2 != 0 && waiting == QUEUE_MAX { QUEUE_FULL } else { ACCEPTED }
}

/// What a mute or drum call answers.
pub fn of_channel(channel: u64) -> u8 {
    if channel >= CHANNELS { NO_SUCH_CHANNEL } else { ACCEPTED }
}

/// What the nearest periods answer, given the pitches and how many periods are proposed. 02, request 12: the order is 1, 20, 19, and
/// 1 is "here also for a master below 8".
pub fn of_pitches(master: u32, pitches: &[u32], periods: usize) -> u8 {
    if !(MASTER_MIN..=MASTER_MAX).contains(&master) {
        MASTER_TOO_HIGH
    } else if pitches.len() != periods {
        LISTS_DIFFER
    } else if !pitches.iter().all(|pitch| (1..=PITCH_MAX).contains(pitch)) {
        PITCH_OUT_OF_RANGE
    } else {
        ACCEPTED
    }
}
