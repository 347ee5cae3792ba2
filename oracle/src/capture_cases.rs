//! Captures about the ends of words and about the queue (02, request 01). Each write says beside it before which word it is passed, by
//! hand and not by the player. `tests/capture.rs` holds the player to it; `compare` plays the same captures on ours.

use std::fmt::Write;

/// A stamp, a port, a value, and the word before which the write is passed, the first being 0; none where it never is.
pub type Stamped = (u64, u8, u8, Option<usize>);

pub struct Case {
    pub name: String,
    pub clocks: (u32, u32),
    pub words: usize,
    pub writes: Vec<Stamped>,
    /// The write that finds 256 waiting, the first being 0. Those after it are not passed.
    pub refused: Option<usize>,
}

/// One tick to a word, and 32 cycles: word k ends at 32 * (k + 1).
pub const PLAIN: (u32, u32) = (2_000_000, 250_000);
/// 181.4 cycles to a word, of which 181 count, and 5 or 6 ticks.
pub const USUAL: (u32, u32) = (2_000_000, 44_100);

impl Case {
    pub fn text(&self) -> String {
        let Case { clocks: (master, rate), words, writes, .. } = self;
        let mut text = format!("master={master}\nrate={rate}\nwrites={}\nwords={words}\n", writes.len());
        for (at, port, value, _) in writes {
            write!(text, "at={at}\nport={port}\nvalue={value:02x}\n").unwrap();
        }
        text
    }
}

fn case(name: impl Into<String>, words: usize, writes: impl Into<Vec<Stamped>>) -> Case {
    Case { name: name.into(), clocks: PLAIN, words, writes: writes.into(), refused: None }
}

fn refused(case: Case, write: usize) -> Case {
    Case { refused: Some(write), ..case }
}

fn usual(case: Case) -> Case {
    Case { clocks: USUAL, ..case }
}

/// A select of R8 ahead of all.
const SELECT_8: Stamped = (0, 0, 8, Some(0));

/// So many bytes to one port, at one stamp: 1 to 15 over and over.
fn volumes(count: usize, at: u64, port: u8, word: usize) -> Vec<Stamped> {
    (0..count).map(|place| (at, port, (place % 15) as u8 + 1, Some(word))).collect()
}

pub fn all() -> Vec<Case> {
    let mut all = vec![
        case("02's own", 4, [SELECT_8, (33, 2, 0x0f, Some(1))]),
        case("no writes", 4, Vec::new()),
        case("no writes, one word", 1, Vec::new()),
        case("no writes, 65,536 words", 65_536, Vec::new()),
        case("all late", 4, [(129, 0, 8, None), (129, 2, 15, None), (500, 2, 3, None)]),
        case("all late but a select", 4, [SELECT_8, (129, 2, 15, None), (u64::MAX, 3, 3, None)]),
        case("at 0", 2, [SELECT_8, (0, 2, 15, Some(0))]),
        case("at the last cycle", 2, [SELECT_8, (u64::MAX, 2, 15, None)]),
        case("at 2^32 + 1 and 2^63", 2, [SELECT_8, (4_294_967_297, 2, 15, None), (1 << 63, 2, 15, None)]),
        case(
            "equal stamps, in the file's order",
            3,
            [SELECT_8, (40, 2, 15, Some(1)), (40, 2, 3, Some(1)), (40, 2, 9, Some(1))],
        ),
        case(
            "ports 1 and 3",
            4,
            [(0, 1, 8, Some(0)), (33, 3, 15, Some(1)), (65, 1, 0xf9, Some(2)), (97, 3, 7, Some(3))],
        ),
        case(
            "a select late, data of its word before it",
            3,
            [SELECT_8, (64, 2, 15, Some(1)), (64, 0, 9, Some(1)), (65, 2, 12, Some(2))],
        ),
        case(
            "a select goes with its data, not by the word",
            2,
            [SELECT_8, (10, 2, 5, Some(0)), (20, 0, 9, Some(0)), (20, 2, 10, Some(0)), (32, 0, 8, Some(0))],
        ),
        case("a select stays for words to come", 5, [(3, 0, 8, Some(0)), (130, 2, 15, Some(4))]),
        case(
            "data with no select goes to R0",
            8,
            [(0, 2, 2, Some(0)), (0, 0, 7, Some(0)), (0, 2, 0x3e, Some(0)), (0, 0, 8, Some(0)), (0, 2, 15, Some(0))],
        ),
        case(
            "registers 14 and 15",
            3,
            [
                (0, 0, 14, Some(0)),
                (0, 2, 15, Some(0)),
                (33, 0, 0xff, Some(1)),
                (33, 3, 15, Some(1)),
                (65, 0, 8, Some(2)),
                (65, 2, 15, Some(2)),
            ],
        ),
        case("the high bits of a select", 2, [(0, 0, 0xf8, Some(0)), (0, 2, 15, Some(0))]),
        // It is written here, though a dump's frame of ff writes no R13: shape 15 restarts.
        case("ff in R13 is written", 80, ff_in_r13()),
        case(
            "words of a capture that ends before its writes",
            1,
            [SELECT_8, (32, 2, 15, Some(0)), (33, 2, 3, None), (64, 2, 1, None)],
        ),
    ];
    all.extend(about_ends());
    all.extend(about_the_queue());
    all.extend(other_clocks());
    all
}

/// Envelope on A, period 1, shape 10 and then ff.
fn ff_in_r13() -> Vec<Stamped> {
    let at = |cycle: u64, word, register, value| [(cycle, 0, register, Some(word)), (cycle, 2, value, Some(word))];
    [at(0, 0, 8, 0x10), at(0, 0, 11, 1), at(0, 0, 13, 10), at(650, 20, 13, 0xff)].concat()
}

/// A stamp one before, at and one after each of the first ends and the last.
fn about_ends() -> Vec<Case> {
    let mut all = Vec::new();
    for (end, at_it, after) in [(32, 0, Some(1)), (64, 1, Some(2)), (128, 3, Some(4)), (160, 4, None)] {
        for (name, at, word) in
            [("one before", end - 1, Some(at_it)), ("at", end, Some(at_it)), ("one after", end + 1, after)]
        {
            all.push(case(format!("{name} the end at {end}, of 5 words"), 5, [SELECT_8, (at, 2, 15, word)]));
        }
    }
    // 10 words of 181 cycles, though 10 / 44,100 of a second are 1,814.
    for (at, word) in [
        (181, Some(0)),
        (182, Some(1)),
        (1_810, Some(9)),
        (1_811, Some(10)),
        (1_814, Some(10)),
        (1_991, Some(10)),
        (1_992, None),
    ] {
        all.push(usual(case(format!("at {at}, words of 181 cycles"), 11, [SELECT_8, (at, 3, 15, word)])));
    }
    all
}

fn about_the_queue() -> Vec<Case> {
    let with = |parts: &[Vec<Stamped>]| [vec![SELECT_8], parts.concat()].concat();
    let mut all = Vec::new();
    for port in [2, 3] {
        all.push(case(format!("255 by port {port}"), 4, with(&[volumes(255, 40, port, 1)])));
        all.push(case(format!("256 by port {port}"), 4, with(&[volumes(256, 64, port, 1)])));
        all.push(refused(case(format!("257 by port {port}"), 4, with(&[volumes(257, 64, port, 1)])), 257));
        all.push(refused(case(format!("1,500 by port {port}"), 4, volumes(1_500, 40, port, 1)), 256));
    }
    all.extend([
        refused(case("257 in the first word", 4, volumes(257, 0, 2, 0)), 256),
        refused(case("257 in the last word", 4, with(&[volumes(257, 128, 2, 3)])), 257),
        case("257 after the last word", 4, with(&[vec![(129, 2, 15, None); 257]])),
        case("256, and one at the next word's first cycle", 4, with(&[volumes(256, 64, 2, 1), volumes(1, 65, 2, 2)])),
        case("256 in each of two words running", 4, with(&[volumes(256, 64, 2, 1), volumes(256, 65, 3, 2)])),
        case("256 in each of five words running", 5, five_full_words()),
        refused(
            case("256 in a word, 257 in the next", 4, with(&[volumes(256, 64, 2, 1), volumes(257, 96, 2, 2)])),
            513,
        ),
        case("256, then a select", 4, with(&[volumes(256, 40, 2, 1), vec![(41, 0, 9, Some(1))]])),
        refused(
            case(
                "256, then a select, then data",
                4,
                with(&[volumes(256, 40, 2, 1), vec![(41, 1, 9, Some(1)), (42, 2, 15, Some(1))]]),
            ),
            258,
        ),
        case(
            "256, then a select, then data in the next word",
            4,
            with(&[volumes(256, 40, 2, 1), vec![(41, 0, 9, Some(1)), (65, 2, 15, Some(2))]]),
        ),
        case(
            "1,500 selects in a word",
            2,
            (0..1_500).map(|place| (40, (place % 2) as u8, place as u8, Some(1))).collect::<Vec<_>>(),
        ),
        refused(case("257 to R14", 4, [vec![(0, 0, 14, Some(0))], volumes(257, 40, 2, 1)].concat()), 257),
        case(
            "256 by both ports, a select after each",
            3,
            (0..512)
                .map(|place: u16| match place % 4 {
                    0 => (40, 2, place as u8 & 15, Some(1)),
                    2 => (40, 3, place as u8 & 15, Some(1)),
                    _ => (40, 0, 8 + (place / 4 % 3) as u8, Some(1)),
                })
                .collect::<Vec<_>>(),
        ),
        refused(
            case(
                "a select refused nowhere, the data after it is",
                4,
                [vec![SELECT_8], volumes(256, 33, 2, 1), vec![(33, 0, 8, Some(1)); 3], volumes(1, 33, 3, 1)].concat(),
            ),
            260,
        ),
    ]);
    all
}

/// 1,280 data writes, 256 to each end.
fn five_full_words() -> Vec<Stamped> {
    (0..5).flat_map(|word| volumes(256, 32 * (word + 1), 2, word as usize)).collect()
}

fn other_clocks() -> Vec<Case> {
    let sets: [(&str, (u32, u32), u64); 5] = [
        ("the lowest clocks", (8, 1), 32),
        ("the highest clocks", (1_073_741_823, 134_217_727), 32),
        ("67.8 cycles to a word", (1_000_000, 59_000), 67),
        ("4,294 ticks to a word", (1_073_741_823, 31_256), 137_412),
        ("8,000,000 cycles to a word", (2_000_000, 1), 8_000_000),
    ];
    let mut all = Vec::new();
    for (name, clocks, cycles) in sets {
        let writes = vec![
            (0, 0, 8, Some(0)),
            (cycles, 2, 15, Some(0)),
            (cycles + 1, 2, 7, Some(1)),
            (2 * cycles, 3, 9, Some(1)),
            (2 * cycles + 1, 3, 3, Some(2)),
            (3 * cycles, 2, 12, Some(2)),
            (3 * cycles + 1, 2, 1, None),
        ];
        all.push(Case { clocks, ..case(name, 3, writes) });
    }
    all
}
