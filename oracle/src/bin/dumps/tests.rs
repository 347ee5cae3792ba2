//! Answers worked out by hand from 01, and for captures from 02's request 01, held beside the oracle's.
//!
//! Where 01 leaves it open: a decimal of up to 10 digits has good form, however large. A line due that is missing, or has
//! no LF, gives 8 at its own line. 10 stands at line 5 + frames, for one byte too.
//!
//! Where request 01 leaves it open: a stamp of up to 20 digits has good form, however large. 12 is the third test of its own
//! line, before the line below it is looked at. 10 stands at line 5 + 3 * writes.

use crate::Kind::{self, Capture, Dump};
use crate::{answer, drawn, texts};

const BY_HAND: [(&str, &str); 60] = [
    ("plain, 0 frames", "0 0 2000000 250000 4 0"),
    ("smallest, 1 frames", "0 0 8 1 1 1"),
    ("largest, 3 frames", "0 0 1073741823 134217727 4096 3"),
    ("empty", "8 1"),
    ("an LF", "8 1"),
    ("a byte order mark before", "8 1"),
    ("CR LF throughout", "8 1"),
    ("2 frames, line 1: missing", "8 1"),
    ("2 frames, line 3: doubled", "8 4"),
    ("2 frames, line 2: swapped with the next", "8 2"),
    ("2 frames, line 5: missing", "8 6"),
    ("2 frames, line 5: doubled", "10 7"),
    ("2 frames, line 5: swapped with the next", "0 0 2000000 250000 4 2"),
    ("2 frames, line 6: LF missing", "8 6"),
    ("0 frames, line 4: LF missing", "8 4"),
    ("0 frames, line 4: LF doubled", "10 5"),
    ("0 frames, line 4: CR LF", "8 4"),
    ("2 frames, line 4: LF missing", "8 4"),
    ("2 frames, line 1: last digit missing", "3 2"),
    ("2 frames, line 4: last digit missing", "8 4"),
    ("2 frames, line 4: one digit more", "8 7"),
    ("0 frames, line 2: first digit missing", "0 0 2000000 50000 4 0"),
    ("2 frames, line 3: a zero in front", "8 3"),
    ("2 frames, line 5: upper-case value", "8 5"),
    ("2 frames, line 6: the text ends after it", "0 0 2000000 250000 4 2"),
    ("master 7", "3 2"),
    ("master 1073741823", "0 0 1073741823 1 1 0"),
    ("master 1073741824", "1 1"),
    ("master 4294967304", "1 1"),
    ("master 9999999999", "1 1"),
    ("master 10000000000", "8 1"),
    ("master 0, rate 0", "2 2"),
    ("master 2000000, rate 250001", "3 2"),
    ("master 2000000, rate 4294967297", "3 2"),
    ("master 2000000, rate 10000000000", "8 2"),
    ("words 0", "9 3"),
    ("words 4096", "0 0 8 1 4096 0"),
    ("words 4097", "9 3"),
    ("words 65537", "9 3"),
    ("words 4294967297", "9 3"),
    ("frames 0, one there", "10 5"),
    ("frames 1, none there", "8 5"),
    ("frames 1900, one there", "8 6"),
    ("frames 1901, one there", "9 4"),
    ("frames 65536, none there", "9 4"),
    ("master=1073741824 and rate=x", "1 1"),
    ("rate=250001 and words=04", "3 2"),
    ("words=0 and frames=1 ", "9 3"),
    ("frames=1901 and regs=0", "9 4"),
    ("regs=0, and a frame too many", "8 5"),
    ("rate=00", "8 2"),
    ("words=04097", "8 3"),
    ("1 frames, then \"\\n\"", "10 6"),
    ("3 frames, then \"x\"", "10 8"),
    ("1,900 frames", "0 0 1073741823 134217727 4096 1900"),
    ("1,900 frames, the last digit damaged", "8 1904"),
    ("1,900 frames, LFs up to 65,536 bytes", "10 1905"),
    ("1,900 frames, LFs up to 65,537 bytes", "11 0"),
    ("65,536 zeros", "8 1"),
    ("65,537 zeros", "11 0"),
];

const CAPTURES_BY_HAND: [(&str, &str); 72] = [
    ("plain, 0 writes", "0 0 2000000 250000 0 4"),
    ("plain, 2 writes", "0 0 2000000 250000 2 4"),
    ("plain, 4 writes", "0 0 2000000 250000 4 4"),
    ("smallest, 1 writes", "0 0 8 1 1 1"),
    ("largest, 3 writes", "0 0 1073741823 134217727 3 65536"),
    ("empty", "8 1"),
    ("CR LF throughout", "8 1"),
    ("a dump of 0 frames", "8 3"),
    ("a dump of 3 frames", "8 3"),
    ("a header, then frames", "8 5"),
    ("1,000 digits of a stamp", "8 5"),
    ("0 writes, line 4: doubled", "10 5"),
    ("0 writes, line 4: LF missing", "8 4"),
    ("2 writes, line 3: missing", "8 3"),
    ("2 writes, line 4: CR LF", "8 4"),
    ("2 writes, line 5: missing", "8 5"),
    ("2 writes, line 6: doubled", "8 7"),
    ("2 writes, line 7: upper-case value", "0 0 2000000 250000 2 4"),
    ("2 writes, line 10: CR LF", "8 10"),
    ("2 writes, line 10: LF missing", "8 10"),
    ("2 writes, line 10: doubled", "10 11"),
    ("2 writes, line 3: last digit missing", "8 3"),
    ("2 writes, line 3: one digit more", "8 11"),
    ("2 writes, line 5: one digit more", "8 5"),
    ("10 lines, 3 and 4 swapped", "8 3"),
    ("10 lines, 5 and 8 swapped", "12 8"),
    ("10 lines, 6 and 9 swapped", "0 0 2000000 250000 2 4"),
    ("10 lines, 7 and 10 swapped", "0 0 2000000 250000 2 4"),
    ("master 1073741824, rate 1", "1 1"),
    ("master 0, rate 0", "2 2"),
    ("master 2000000, rate 250001", "3 2"),
    ("writes 0, none there", "0 0 8 1 0 1"),
    ("writes 0, one there", "10 5"),
    ("writes 1, one there", "0 0 8 1 1 1"),
    ("writes 1500, one there", "8 8"),
    ("writes 1501, one there", "9 3"),
    ("words 0", "9 4"),
    ("words 1", "0 0 8 1 0 1"),
    ("words 65536", "0 0 8 1 0 65536"),
    ("words 65537", "9 4"),
    ("port \"3\"", "0 0 2000000 250000 2 4"),
    ("port \"4\"", "9 9"),
    ("port \"00\"", "8 9"),
    ("port \"x\"", "8 9"),
    ("port \"9999999999\"", "9 9"),
    ("port \"10000000000\"", "8 9"),
    ("value \"0\"", "8 10"),
    ("value \"0F\"", "8 10"),
    ("value \"000\"", "8 10"),
    ("at \"00\"", "8 5"),
    ("at \"18446744073709551615\"", "0 0 2000000 250000 1 4"),
    ("at \"18446744073709551616\"", "9 5"),
    ("at \"99999999999999999999\"", "9 5"),
    ("at \"100000000000000000000\"", "8 5"),
    ("at \"18446744073709551621\" after 100", "9 8"),
    ("at \"18446744073709551614\" after 2^64 - 1", "12 8"),
    ("at 40, 40, 40", "0 0 2000000 250000 3 4"),
    ("at 40, 39", "12 8"),
    ("at 40, 50, 45", "12 11"),
    ("at 5000, 4999", "12 8"),
    ("lower, and port=4", "12 8"),
    ("lower, and its LF missing", "8 8"),
    ("lower, and a zero in front", "8 8"),
    ("lower, and a write too many", "12 8"),
    ("port=4 in the write before", "9 6"),
    ("lower, in the 300th data write", "12 902"),
    ("1 writes due, 4 lines there", "10 8"),
    ("1,500 writes", "0 0 1073741823 134217727 1500 65536"),
    ("1,500 writes, LFs up to 65,536 bytes", "10 4505"),
    ("1,500 writes, LFs up to 65,537 bytes", "11 0"),
    ("1,500 writes said, 1,499 there", "8 4502"),
    ("1,501 writes, small", "9 3"),
];

const CAPTURES_AS_DUMPS: [(&str, &str); 2] =
    [("a capture: plain, 0 writes", "8 3"), ("a capture: plain, 2 writes", "8 3")];

fn held(kind: Kind, by_hand: &[(&str, &str)]) {
    let texts = drawn();
    for (name, answered) in by_hand {
        let text = texts.iter().find(|text| text.kind == kind && text.name == *name).expect(name);
        assert_eq!(answer(text), *answered, "{name}");
    }
}

#[test]
fn by_hand() {
    held(Dump, &BY_HAND);
}

#[test]
fn captures_by_hand() {
    held(Capture, &CAPTURES_BY_HAND);
    held(Dump, &CAPTURES_AS_DUMPS);
}

/// `crates/test_dumps` holds the dumps of 01 ahead of the captures, as they were before there were any.
#[test]
fn dumps_come_first() {
    let texts = texts();
    let dumps = texts.iter().take_while(|text| text.kind == Dump).count();
    assert_eq!(dumps, 1_199);
    assert!(texts[dumps..].iter().all(|text| text.kind == Capture || text.name.starts_with("a capture: ")));
}
