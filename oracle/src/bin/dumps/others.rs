//! What is no dump at all, and the longest texts.

use crate::good::{frame, largest, plain};
use crate::{Text, text};
use oracle::random::Random;

pub fn texts() -> Vec<Text> {
    let good = plain(1).concat();
    vec![
        text("empty", ""),
        text("an LF", "\n"),
        text("a CR LF", "\r\n"),
        text("a NUL", "\0"),
        text("a space", " "),
        text("1,000 LFs", vec![b'\n'; 1_000]),
        text("1,000 zeros", vec![0; 1_000]),
        text("1,000 bytes ff", vec![0xff; 1_000]),
        text("1,000 digits", vec![b'9'; 1_000]),
        text("1,000 digits of a master", format!("master={}\n", "9".repeat(1_000))),
        text("every byte", (0..=255).collect::<Vec<u8>>()),
        text("noise", noise(1, 1_000)),
        text(
            "noise after the header",
            [plain(0).concat().replace("frames=0", "frames=1").into_bytes(), noise(2, 200)].concat(),
        ),
        text("a byte order mark before", format!("\u{feff}{good}")),
        text("in UTF-16", good.bytes().flat_map(|byte| [byte, 0]).collect::<Vec<u8>>()),
        text("full-width digits", good.replacen("2000000", "２０００", 1)),
        text("lines reversed", plain(1).into_iter().rev().collect::<String>()),
        text("frames first", [frame(0), plain(0).concat()].concat()),
        text("upper-case", good.to_uppercase()),
        text("a backslash and n for the LF", good.replace('\n', "\\n")),
        text("CR LF throughout", good.replace('\n', "\r\n")),
        text("a comment line first", format!("# a dump\n{good}")),
    ]
}

/// 1,900 frames, 65,536 bytes and 65,537.
pub fn longest() -> Vec<Text> {
    let full = largest(1_900).concat();
    let mut last_damaged = full.clone().into_bytes();
    let last = last_damaged.len() - 2;
    last_damaged[last] = b'G';
    let padded = |length: usize| full.clone() + &"\n".repeat(length - full.len());
    vec![
        text("1,900 frames", full.clone()),
        text("1,900 frames, the last digit damaged", last_damaged),
        text("1,900 frames, LFs up to 65,536 bytes", padded(65_536)),
        text("1,900 frames, LFs up to 65,537 bytes", padded(65_537)),
        text("65,536 zeros", vec![0; 65_536]),
        text("65,537 zeros", vec![0; 65_537]),
    ]
}

pub fn noise(seed: u64, length: usize) -> Vec<u8> {
    let mut random = Random(seed);
    (0..length).map(|_| random.byte()).collect()
}
