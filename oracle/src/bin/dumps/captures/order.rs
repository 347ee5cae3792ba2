//! 12: stamps lower than the one before, and what stands beside them.

use super::good::{head, plain, smallest, stamped, write};
use crate::{Text, text};

pub fn texts() -> Vec<Text> {
    let mut all = runs();
    let (first, low) = (write("40", "0", "08"), write("39", "2", "0f"));
    let lines = |due: &str, parts: &[&str]| head("2000000", "250000", due, "4").concat() + &parts.concat();
    let (good, lower, lower_at) = (first.concat(), low.concat(), low[0].as_str());
    let with_second = |second: [String; 3]| lines("2", &[&good, &second.concat()]);
    all.extend([
        text("lower, and port=4", with_second(write("39", "4", "0f"))),
        text("lower, and port=x", with_second(write("39", "x", "0f"))),
        text("lower, and value=0F", with_second(write("39", "2", "0F"))),
        text("equal, and port=4", with_second(write("40", "4", "0f"))),
        text("lower, and no port", lines("2", &[&good, lower_at, &low[2]])),
        text("lower, and no value", lines("2", &[&good, lower_at, &low[1]])),
        text("lower, and nothing after its line", lines("2", &[&good, lower_at])),
        text("lower, and its LF missing", lines("2", &[&good, "at=39"])),
        text("lower, and a CR", with_second(write("39\r", "2", "0f"))),
        text("lower, and a zero in front", with_second(write("039", "2", "0f"))),
        text("lower, and a space in front", with_second(write(" 39", "2", "0f"))),
        text("lower, and a digit shorter", with_second(write("3", "2", "0f"))),
        text("lower, and a bad write after it", lines("3", &[&good, &lower, &write("x", "x", "x").concat()])),
        text("lower, and a write too few", lines("3", &[&good, &lower])),
        text("lower, and a write too many", lines("2", &[&good, &lower, &lower])),
        text("lower, in the write too many", lines("1", &[&good, &lower])),
        text("port=4 in the write before", lines("2", &[&write("40", "4", "08").concat(), &lower])),
        text("value=8 in the write before", lines("2", &[&write("40", "0", "8").concat(), &lower])),
        text("words=0, and lower", lines("2", &[&good, &lower]).replace("words=4", "words=0")),
        text("writes=1501, and lower", lines("1501", &[&good, &lower])),
        text("rate=0, and lower", lines("2", &[&good, &lower]).replace("rate=250000", "rate=0")),
        text(
            "the writes of 02 in the other order",
            [&plain(2)[..4], &plain(2)[7..], &plain(2)[4..7]].concat().concat(),
        ),
    ]);
    all.extend(in_the_last_of_many());
    all
}

/// Stamps one after the other, where nothing else is wrong. A word is 32 cycles.
fn runs() -> Vec<Text> {
    let runs: [&[&str]; 26] = [
        &["1", "0"],
        &["0", "0"],
        &["40", "40"],
        &["40", "39"],
        &["40", "0"],
        &["40", "41"],
        &["9", "10"],
        &["10", "9"],
        &["99", "100"],
        &["100", "99"],
        &["40", "40", "40"],
        &["40", "40", "39"],
        &["40", "39", "41"],
        &["40", "50", "45"],
        &["40", "50", "40"],
        &["128", "129", "128"],
        // never reached: four words end at 128
        &["129", "128"],
        &["5000", "4999"],
        &["5000", "5000"],
        &["4294967295", "4294967296"],
        &["4294967296", "4294967295"],
        &["4294967297", "5"],
        &["9223372036854775807", "9223372036854775808"],
        &["9223372036854775808", "9223372036854775807"],
        &["18446744073709551615", "18446744073709551615"],
        &["18446744073709551615", "18446744073709551614"],
    ];
    runs.iter().map(|stamps| text(format!("at {}", stamps.join(", ")), stamped("4", stamps).concat())).collect()
}

/// The 300th write, and the 300th of a capture that refuses the 257th as it is played.
fn in_the_last_of_many() -> Vec<Text> {
    let many = |port: &str| {
        let last = write("0", port, "00").concat();
        [smallest(300)[..4].concat(), write("1", port, "00").concat().repeat(299), last].concat()
    };
    vec![text("lower, in the 300th write", many("0")), text("lower, in the 300th data write", many("2"))]
}
