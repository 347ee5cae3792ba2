//! More or fewer lines than are due, bytes after the end, cuts, and bytes left out.

use super::good::{head, plain, smallest};
use crate::ends::{each_byte, with_tails};
use crate::{Text, text};

pub fn texts() -> Vec<Text> {
    let mut all = Vec::new();
    let lines = &plain(4)[4..];
    for due in 0..=3 {
        for there in 0..=10 {
            let head = head("2000000", "250000", &due.to_string(), "4").concat();
            all.push(text(format!("{due} writes due, {there} lines there"), head + &lines[..there].concat()));
        }
    }
    for writes in [0, 1, 2] {
        let good = plain(writes).concat();
        all.extend(with_tails(
            &format!("{writes} writes"),
            &good,
            &[b"left=0\n", b"words=4\n", b"at=64", b"value=0f\n"],
        ));
        all.push(text(format!("{writes} writes, then the capture again"), good.repeat(2)));
    }
    // A dump's header is cut so too.
    all.extend(each_byte(&smallest(1).concat(), smallest(1)[..4].concat().len()));
    all
}
