//! Numbers on both sides of each limit, and bytes that are no digits.

use crate::good::{dump, frame, head};
use crate::{Text, text};

/// Numbers about 2^16, 2^32, 2^64 and about the longest decimal: cut to fewer bits some would pass.
#[rustfmt::skip]
pub const WIDE: [&str; 15] = [
    "65535", "65536", "65537", "2147483648", "4294967295", "4294967296", "4294967297", "4294967304", "9999999999",
    "10000000000", "10000000001", "18446744073709551616", "18446744073709551617", "0000000001", "00000000001",
];

pub fn texts() -> Vec<Text> {
    let mut all = Vec::new();
    for master in ["0", "1", "7", "8", "9", "1073741822", "1073741823", "1073741824", "1073741825"].iter().chain(&WIDE)
    {
        all.push(text(format!("master {master}"), head(master, "1", "1", "0").concat()));
    }
    for master in [0, 7, 8, 15, 16, 2_000_000, 1_073_741_823] {
        all.extend(rates(master));
    }
    for words in ["0", "1", "2", "4095", "4096", "4097", "4098"].iter().chain(&WIDE) {
        all.push(text(format!("words {words}"), head("8", "1", words, "0").concat()));
    }
    for frames in ["0", "1", "2", "1899", "1900", "1901", "1902"].iter().chain(&WIDE) {
        let lines = head("8", "1", "1", frames).concat();
        all.push(text(format!("frames {frames}, one there"), lines.clone() + &frame(0)));
        all.push(text(format!("frames {frames}, none there"), lines));
    }
    all
}

/// Rates at 0, at master / 8 and beyond.
fn rates(master: u64) -> Vec<Text> {
    let most = master / 8;
    let near: Vec<String> = [0, 1, most.max(1) - 1, most, most + 1].iter().map(u64::to_string).collect();
    let wide = WIDE.iter().map(|rate| rate.to_string());
    let named = |rate: String| {
        text(format!("master {master}, rate {rate}"), head(&master.to_string(), &rate, "1", "0").concat())
    };
    near.into_iter().chain(wide).map(named).collect()
}

/// The bytes just outside the digits, at each place of each value.
pub fn not_digits() -> Vec<Text> {
    let numbers = dump(2_000_000, 250_000, 4_096, 0).concat();
    let mut all = replaced("", &numbers, &[0x00, 0x2f, 0x3a, 0x60, 0x61, 0xff]);
    let before = head("8", "1", "1", "1").concat();
    let hex = "regs=00112233445566778899aabbccdd\n";
    all.extend(replaced(&before, hex, &[0x00, 0x2f, 0x3a, 0x41, 0x46, 0x60, 0x67, 0xff]));
    all
}

/// `before`, and the lines after it with one byte of a value replaced: each byte of each value.
pub fn replaced(before: &str, lines: &str, bytes: &[u8]) -> Vec<Text> {
    let mut all = Vec::new();
    let whole = [before, lines].concat().into_bytes();
    let mut in_value = false;
    for place in before.len()..whole.len() {
        let old = whole[place];
        for &byte in bytes.iter().filter(|_| in_value && old != b'\n') {
            let mut changed = whole.clone();
            changed[place] = byte;
            all.push(text(format!("{byte:02x} at byte {place} of {}", before.len() + lines.len()), changed));
        }
        in_value = old == b'=' || in_value && old != b'\n';
    }
    all
}
