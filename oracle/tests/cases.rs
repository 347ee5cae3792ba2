//! The oracle beside 01: what `cases.script` and `range.script` expect of their calls, and the dumps that 01 and its open points name.

mod common;

use common::check;
use oracle::dump::play;
use oracle::script::Bench;
use oracle::tables::{ENV_DATA, MASKS, REG_MASK, SHAPE_TO_ENV, YM2149_LOG_LEVELS};

#[test]
fn cases_of_01() {
    let checked = check(include_str!("../cases.script"), |_, _, _| ());
    assert!(checked > 150, "{checked}");
}

/// Drawn scripts with nothing said under them: what is checked is that the ring follows the crate's queue.
#[test]
fn ring_of_the_kept_sample() {
    assert_eq!(check(include_str!("../sample-2000-1.script"), |_, _, _| ()), 0);
}

#[test]
fn forms_of_make() {
    for (line, good) in [
        ("make 2000000 250000 0", true),
        ("make 4294967295 4294967295 255", true),
        ("make 2000000 250000 256", false),
        ("make 2000000 250000 -1", false),
        ("make 2000000 250000 02", false),
        ("make 2000000 250000 ", false),
        ("make 2000000 250000", false),
        ("make 2000000 250000 2 0", false),
        ("make 4294967296 250000 2", false),
        ("make 2000000 4294967296 2", false),
        ("new 2000000 250000 0", false),
    ] {
        assert_eq!(Bench::default().line(line, &mut String::new()), good, "{line}");
    }
}

#[test]
fn forms_of_set() {
    for (line, good) in [
        ("set variant 255", true),
        ("set variant 256", false),
        ("set select 255", true),
        ("set select 256", false),
        ("set select 01", false),
        ("set select -1", false),
        ("set select", false),
        ("set select 1 ", false),
        ("set R13 255", true),
        ("set R14 0", false),
        ("set R01 0", false),
        ("set a_period 0", false),
        ("set C_period 65535", true),
        ("set C_period 65536", false),
        ("set noise_period 256", false),
        ("set noise_output 4294967295", true),
        ("set noise_output 4294967296", false),
        ("set envelope_position -2147483648", true),
        ("set envelope_position -2147483649", false),
        ("set envelope_position 2147483647", true),
        ("set envelope_position 2147483648", false),
        ("set envelope_position -0", false),
        ("set envelope_position -01", false),
        ("set envelope_position --1", false),
        ("set envelope_position -", false),
        ("set head 18446744073709551615", true),
        ("set head 18446744073709551616", false),
        ("set irq 1", false),
    ] {
        assert_eq!(Bench::default().line(line, &mut String::new()), good, "{line}");
    }
}

/// What `range.script` says of itself: a call with no answer under it answers 22 and leaves the state.
#[test]
fn range_of_01() {
    let mut refused = Vec::new();
    let mut lent = false;
    let checked = check(include_str!("../range.script"), |line, before, printed| {
        let name = line.split(' ').next().unwrap();
        let (answer, state) = printed.split_once('\n').unwrap();
        match name {
            "set" => assert_eq!(answer, "0", "{line}"),
            "lent" => lent = line == "lent 1",
            _ => {
                let others = match name {
                    "read" | "read_port" | "get_cycle" | "pending" | "muted" => "0",
                    "dump" => "00000000000000000000000000000000",
                    "outputs" => "00000000 00000000 00000000",
                    "write" | "port_now" | "load" | "flush" => "0 0",
                    "word" | "block" => "0 0 0 0",
                    _ => "",
                };
                assert_eq!(answer, format!("22 {others}").trim_end(), "{line}");
                assert_eq!(state, before, "{line}");
                refused.push((name.to_string(), lent));
            }
        }
    });
    assert!(checked > 50, "{checked}");
    // every call but the makings, by value and lent
    let calls = "reset write read load dump port port_now read_port cycle get_cycle sync flush pending irq inside_irq trigger mute \
        muted drum outputs word block";
    for call in calls.split_whitespace() {
        assert!(refused.contains(&(call.to_string(), false)) && refused.contains(&(call.to_string(), true)), "{call}");
    }
}

/// 01, "Envelope entry for shape bits C A L H".
fn entry(shape: usize, place: usize) -> usize {
    let bit = |number: usize| shape >> number & 1 == 1;
    let (c, a, l, h) = (bit(3), bit(2), bit(1), bit(0));
    let (segment, step) = (place / 32, place % 32);
    let sloped = |rises: bool| if rises { step } else { 31 - step };
    match (c, h) {
        (false, _) if segment == 0 => sloped(a),
        (false, _) => 0,
        (true, false) => sloped(a != (l && segment % 2 == 1)),
        (true, true) if segment == 0 => sloped(a),
        (true, true) => {
            if a != l {
                31
            } else {
                0
            }
        }
    }
}

#[test]
fn tables_of_01() {
    for shape in 0..16 {
        for place in 0..128 {
            let ours = ENV_DATA[SHAPE_TO_ENV[shape] as usize * 128 + place];
            assert_eq!(ours as usize, entry(shape, place), "shape {shape}, place {place}");
        }
    }
    let levels = "50 60 71 85 101 120 143 170 202 241 287 341 405 482 574 682 811 965 1148 1365 1623 1930 2296 2730 \
        3247 3861 4592 5461 6494 7723 9184 10922";
    assert_eq!(YM2149_LOG_LEVELS.map(|level| level.to_string()).join(" "), levels);
    let masks = "ff 0f ff 0f ff 0f 1f 3f 1f 1f 1f ff ff 0f";
    assert_eq!(REG_MASK.map(|mask| format!("{mask:02x}")).join(" "), masks);
    for (set, mask) in MASKS.iter().enumerate() {
        let fill = |channel: usize| ((set >> channel & 1) as u32 * 0x1f) << (5 * channel);
        assert_eq!(*mask, fill(0) | fill(1) | fill(2));
    }
}

fn played(dump: &[u8]) -> String {
    let mut out = Vec::new();
    play(dump, &mut out).unwrap();
    String::from_utf8(out).unwrap()
}

const FRAME: &str = "regs=020000000000003e0f0000000000\n";

fn dump(head: &str, frames: &str) -> Vec<u8> {
    format!("{}\n{frames}", head.replace(' ', "\n")).into_bytes()
}

#[test]
fn worked_dump_of_01() {
    let dump = dump("master=2000000 rate=250000 words=4 frames=1", FRAME);
    assert_eq!(played(&dump), "words=4\n9234\n100\n100\n9234\n");
}

#[test]
fn refused_heads() {
    for (head, refused) in [
        ("master=1073741824 rate=1 words=1 frames=0", "1 line=1"),
        ("master=9999999999 rate=1 words=1 frames=0", "1 line=1"),
        ("master=10000000000 rate=1 words=1 frames=0", "8 line=1"),
        ("master=02000000 rate=1 words=1 frames=0", "8 line=1"),
        ("master= rate=1 words=1 frames=0", "8 line=1"),
        ("Master=8 rate=1 words=1 frames=0", "8 line=1"),
        ("master=7 rate=0 words=1 frames=0", "2 line=2"),
        ("master=7 rate=1 words=1 frames=0", "3 line=2"),
        ("master=0 rate=4294967296 words=1 frames=0", "3 line=2"),
        ("master=8 rate=00 words=1 frames=0", "8 line=2"),
        ("master=2000000 rate=250001 words=1 frames=0", "3 line=2"),
        ("master=8 rate=1 words=0 frames=0", "9 line=3"),
        ("master=8 rate=1 words=4097 frames=0", "9 line=3"),
        ("master=8 rate=1 words=4294967297 frames=0", "9 line=3"),
        ("master=8 rate=1 words=01 frames=0", "8 line=3"),
        ("master=8 rate=1 words=1 frames=1901", "9 line=4"),
        ("master=8 rate=1 words=1 frames=9999999999", "9 line=4"),
        ("master=8 rate=1 words=1 frames=", "8 line=4"),
        ("master=8 rate=1 words=1", "8 line=4"),
        ("master=8 rate=1 words=1 frames=1", "8 line=5"),
    ] {
        assert_eq!(played(&dump(head, "")), format!("refused={refused}\n"), "{head}");
    }
}

#[test]
fn refused_frames_and_ends() {
    let two = "master=2000000 rate=250000 words=1 frames=2";
    for (frames, refused) in [
        (FRAME.to_string(), "8 line=6"),
        (FRAME.repeat(3), "10 line=7"),
        (FRAME.repeat(2) + "\n", "10 line=7"),
        (FRAME.repeat(2) + "\0", "10 line=7"),
        ((FRAME.repeat(2)).trim_end().to_string(), "8 line=6"),
        (FRAME.repeat(2).replacen("3e0f", "3E0f", 1), "8 line=5"),
        (FRAME.repeat(2).replacen('\n', "\r\n", 1), "8 line=5"),
        (FRAME.repeat(2).replacen("0000\n", "000\n", 1), "8 line=5"),
        (FRAME.repeat(2).replacen("0000\n", "00000\n", 1), "8 line=5"),
    ] {
        assert_eq!(played(&dump(two, &frames)), format!("refused={refused}\n"), "{frames}");
    }
    let none = dump("master=8 rate=1 words=4096 frames=0", "");
    assert_eq!(played(&none), "words=0\n");
    assert_eq!(played(&none[..none.len() - 1]), "refused=8 line=4\n");
    assert_eq!(played(b""), "refused=8 line=1\n");
}

#[test]
fn longest_dumps() {
    let head = dump("master=8 rate=1 words=1 frames=1900", &FRAME.repeat(1_900));
    assert_eq!(played(&head).lines().count(), 1_901);
    for (length, refused) in [(65_536, "10 line=1905"), (65_537, "11 line=0")] {
        let mut longer = head.clone();
        longer.resize(length, b'\n');
        assert_eq!(played(&longer), format!("refused={refused}\n"));
    }
    assert_eq!(played(&vec![0; 65_537]), "refused=11 line=0\n");
    assert_eq!(played(&vec![0; 65_536]), "refused=8 line=1\n");
}
