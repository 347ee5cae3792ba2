//! What is no capture at all, and the longest texts.

use super::good::{head, largest, plain, smallest, write};
use crate::others::noise;
use crate::{Text, good, text};

pub fn texts() -> Vec<Text> {
    let capture = plain(2).concat();
    let mut all = vec![
        text("empty", ""),
        text("an LF", "\n"),
        text("a CR LF", "\r\n"),
        text("a NUL", "\0"),
        text("1,000 LFs", vec![b'\n'; 1_000]),
        text("1,000 zeros", vec![0; 1_000]),
        text("1,000 bytes ff", vec![0xff; 1_000]),
        text("every byte", (0..=255).collect::<Vec<u8>>()),
        text("noise", noise(3, 1_000)),
        text("noise after the header", [head("8", "1", "1", "1").concat().into_bytes(), noise(4, 200)].concat()),
        text("noise after a stamp", [plain(1)[..5].concat().into_bytes(), noise(5, 200)].concat()),
        text(
            "1,000 digits of a stamp",
            head("8", "1", "1", "1").concat() + &write(&"9".repeat(1_000), "0", "00").concat(),
        ),
        text(
            "1,000 zeros of a stamp",
            head("8", "1", "1", "1").concat() + &write(&"0".repeat(1_000), "0", "00").concat(),
        ),
        text("a byte order mark before", format!("\u{feff}{capture}")),
        text("in UTF-16", capture.bytes().flat_map(|byte| [byte, 0]).collect::<Vec<u8>>()),
        text("full-width digits", capture.replacen("at=33", "at=３３", 1)),
        text("lines reversed", plain(2).into_iter().rev().collect::<String>()),
        text("writes first", [plain(2)[4..].concat(), plain(2)[..4].concat()].concat()),
        text("upper-case", capture.to_uppercase()),
        text("CR LF throughout", capture.replace('\n', "\r\n")),
        text("a backslash and n for the LF", capture.replace('\n', "\\n")),
        text("a comment line first", format!("# a capture\n{capture}")),
        text("a dump's header, then writes", good::plain(0).concat() + &plain(2)[4..].concat()),
        text("a header, then frames", plain(2)[..4].concat() + &good::frame(0).repeat(6)),
    ];
    for frames in 0..=3 {
        all.push(text(format!("a dump of {frames} frames"), good::plain(frames).concat()));
    }
    all
}

/// 1,500 writes, one fewer and one more, 65,536 bytes and 65,537.
pub fn longest() -> Vec<Text> {
    let full = largest(1_500).concat();
    let padded = |length: usize| full.clone() + &"\n".repeat(length - full.len());
    let small = smallest(1_500);
    let said = |count: &str, lines: &[String]| [&head("8", "1", count, "1")[..], lines].concat().concat();
    let ended = |last: [String; 3]| [&small[..4 + 3 * 1_499], &last].concat().concat();
    vec![
        text("1,500 writes", full.clone()),
        text("1,500 writes, LFs up to 65,536 bytes", padded(65_536)),
        text("1,500 writes, LFs up to 65,537 bytes", padded(65_537)),
        text("1,500 writes, small", small.concat()),
        text("1,500 writes, small, the last digit damaged", ended(write("0", "3", "fG"))),
        text("1,500 writes, small, the last port 4", ended(write("0", "4", "ff"))),
        text("1,500 writes said, 1,499 there", said("1500", &small[7..])),
        text("1,499 writes said, 1,500 there", said("1499", &small[4..])),
        text("1,501 writes, small", smallest(1_501).concat()),
        text("65,537 zeros", vec![0; 65_537]),
    ]
}
