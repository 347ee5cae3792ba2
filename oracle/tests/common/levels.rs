//! Which level a channel uses, in 01's words and in those of 02's request 05. Nothing of the crate's.

/// 01: "Levels 0..31"
#[rustfmt::skip]
pub const LEVELS: [u16; 32] = [
    50, 60, 71, 85, 101, 120, 143, 170, 202, 241, 287, 341, 405, 482, 574, 682, 811, 965, 1148, 1365, 1623, 1930, 2296,
    2730, 3247, 3861, 4592, 5461, 6494, 7723, 9184, 10922,
];

/// The lowest shape of each row of the table.
pub const ROWS: [u8; 10] = [0, 4, 8, 9, 10, 11, 12, 13, 14, 15];

/// 01: "Envelope entry for shape bits C A L H (bit 3 down to bit 0), segment k of 4, step j of 32"
pub fn entry(shape: u8, place: u64) -> u64 {
    let [c, a, l, h] = [3, 2, 1, 0].map(|bit| shape >> bit & 1 == 1);
    let (k, j) = (place / 32, place % 32);
    let ramp = |rises| if rises { j } else { 31 - j };
    match (c, h, k) {
        (false, _, 0) | (true, true, 0) => ramp(a),
        (false, _, _) => 0,
        (true, false, _) => ramp(a != (l && k % 2 == 1)),
        (true, true, _) => 31 * (a != l) as u64,
    }
}

/// 0, as in 01: "A channel's level is the envelope's if bit 4 of its volume is set, else twice the volume". 1: "volume v uses level 2v + 1
/// for v from 1 to 15 and 0 for 0". 2: "an envelope level is used with its lowest bit cleared and fixed levels stay 2v".
pub fn used(variant: u8, volume: u8, envelope: u64) -> u64 {
    const LIFTED: [u64; 16] = [0, 3, 5, 7, 9, 11, 13, 15, 17, 19, 21, 23, 25, 27, 29, 31];
    let by_envelope = volume >= 16;
    match variant {
        1 if !by_envelope => LIFTED[volume as usize],
        2 if by_envelope => envelope / 2 * 2,
        _ if by_envelope => envelope,
        _ => 2 * volume as u64,
    }
}
