//! Numbers on both sides of each limit but the stamps', and bytes that are no digits.

use super::good::{head, plain, write};
use crate::limits::{WIDE, replaced};
use crate::{Text, text};

/// Cut to 2, 8, 16 or 32 bits, or read past the tenth digit, some would pass.
#[rustfmt::skip]
const PORTS: [&str; 31] = [
    "0", "1", "2", "3", "4", "5", "6", "7", "8", "9", "10", "00", "01", "03", "04", "", "x", "a", "-1", "+1", " 1", "255",
    "256", "258", "65536", "65538", "4294967296", "4294967298", "9999999999", "10000000000", "00000000002",
];

#[rustfmt::skip]
const VALUES: [&str; 26] = [
    "", "0", "f", "00", "0f", "f0", "ff", "9a", "a9", "0F", "F0", "FF", "0g", "g0", "0x", "x0", " 0", "0 ", "-1", "000",
    "0ff", "00f", "100", "0f0f", "15", "0\r",
];

pub fn texts() -> Vec<Text> {
    let mut all = Vec::new();
    for (master, rate) in [
        ("8", "1"),
        ("7", "1"),
        ("0", "0"),
        ("1073741823", "134217727"),
        ("1073741823", "134217728"),
        ("1073741824", "1"),
        ("4294967304", "1"),
        ("9999999999", "1"),
        ("10000000000", "1"),
        ("2000000", "0"),
        ("2000000", "250001"),
        ("2000000", "4294967297"),
        ("2000000", "10000000000"),
    ] {
        all.push(text(format!("master {master}, rate {rate}"), head(master, rate, "0", "1").concat()));
    }
    for writes in ["0", "1", "2", "1499", "1500", "1501", "1502"].iter().chain(&WIDE) {
        let lines = head("8", "1", writes, "1").concat();
        all.push(text(format!("writes {writes}, one there"), lines.clone() + &write("0", "0", "00").concat()));
        all.push(text(format!("writes {writes}, none there"), lines));
    }
    for words in ["0", "1", "2", "4096", "4097", "65534", "65538"].iter().chain(&WIDE) {
        all.push(text(format!("words {words}"), head("8", "1", "0", words).concat()));
    }
    for port in PORTS {
        all.push(text(format!("port {port:?}"), with_write(&write("0", port, "0f"))));
    }
    for value in VALUES {
        all.push(text(format!("value {value:?}"), with_write(&write("0", "2", value))));
    }
    all
}

/// A second write after 02's first.
fn with_write(lines: &[String; 3]) -> String {
    plain(1).concat().replace("writes=1", "writes=2") + &lines.concat()
}

/// The bytes just outside the digits, at each place of each value of a write. The text ends with the line: a reader that takes the byte
/// misses the next line, or takes the text.
pub fn not_digits() -> Vec<Text> {
    let before = head("8", "1", "1", "1").concat();
    let [at, port, value] = write("12345678901", "1", "2c");
    let mut all = replaced(&before, &at, &[0x00, 0x2f, 0x3a, 0xff]);
    all.extend(replaced(&(before.clone() + &at), &port, &[0x00, 0x2f, 0x3a, 0x61, 0xff]));
    let to_value = before + &at + &port;
    all.extend(replaced(&to_value, &value, &[0x00, 0x2f, 0x3a, 0x41, 0x46, 0x60, 0x67, 0xff]));
    all
}
