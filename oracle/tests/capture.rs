//! 02, request 01: raw bus captures. The player beside plain register writes, and beside figures worked out by hand.

use oracle::capture::play;
use oracle::capture_cases::{Case, all};
use oracle::chip::Ym2149;

fn printed(capture: &str) -> Vec<String> {
    let mut out = Vec::new();
    play(capture.as_bytes(), &mut out).unwrap();
    let out = String::from_utf8(out).unwrap();
    assert!(out.ends_with('\n'));
    out.lines().map(String::from).collect()
}

/// What is passed before a word, by the case's own word for it, goes to the registers ahead of the word: no stamp and no queue.
fn written(case: &Case) -> Vec<String> {
    let mut chip = Ym2149::with_clocks(case.clocks.0, case.clocks.1);
    let mut selected = 0;
    let mut lines = vec![format!("words={}", case.words)];
    for word in 0..case.words {
        for (place, (_, port, value, passed)) in case.writes.iter().enumerate() {
            if *passed != Some(word) {
                continue;
            }
            if case.refused == Some(place) {
                lines.push(format!("refused=4 line={}", 5 + 3 * place));
                return lines;
            }
            match port {
                0 | 1 => selected = value % 16,
                _ => chip.write_register(selected, *value),
            }
        }
        lines.push(chip.compute_next_sample().to_string());
    }
    let left = case.writes.iter().filter(|(_, _, _, passed)| passed.is_none()).count();
    lines.push(format!("left={left}"));
    lines
}

#[test]
fn as_written() {
    for case in all() {
        assert_eq!(printed(&case.text()), written(&case), "{}", case.name);
    }
}

fn named(name: &str) -> String {
    printed(&all().iter().find(|case| case.name == name).expect(name).text()).join(" ")
}

/// A new chip's word is 75, as each channel has period 0 and gives half of 50. With R8 at 15, 9, 3 and 1 channel A gives half of 9184,
/// 1148, 143 and 71, cut toward zero: 4642, 624, 121 and 85 with the other two.
#[test]
fn by_hand() {
    for (name, by_hand) in [
        ("02's own", "words=4 75 4642 4642 4642 left=0"),
        ("no writes", "words=4 75 75 75 75 left=0"),
        ("all late", "words=4 75 75 75 75 left=3"),
        ("all late but a select", "words=4 75 75 75 75 left=2"),
        ("at 0", "words=2 4642 4642 left=0"),
        ("at the last cycle", "words=2 75 75 left=1"),
        ("equal stamps, in the file's order", "words=3 75 624 624 left=0"),
        ("registers 14 and 15", "words=3 75 75 4642 left=0"),
        ("words of a capture that ends before its writes", "words=1 4642 left=2"),
        ("one before the end at 64, of 5 words", "words=5 75 4642 4642 4642 4642 left=0"),
        ("at the end at 64, of 5 words", "words=5 75 4642 4642 4642 4642 left=0"),
        ("one after the end at 64, of 5 words", "words=5 75 75 4642 4642 4642 left=0"),
        ("one before the end at 160, of 5 words", "words=5 75 75 75 75 4642 left=0"),
        ("at the end at 160, of 5 words", "words=5 75 75 75 75 4642 left=0"),
        ("one after the end at 160, of 5 words", "words=5 75 75 75 75 75 left=1"),
        ("at 1810, words of 181 cycles", "words=11 75 75 75 75 75 75 75 75 75 4642 4642 left=0"),
        ("at 1811, words of 181 cycles", "words=11 75 75 75 75 75 75 75 75 75 75 4642 left=0"),
        ("at 1992, words of 181 cycles", "words=11 75 75 75 75 75 75 75 75 75 75 75 left=1"),
        ("255 by port 2", "words=4 75 4642 4642 4642 left=0"),
        ("256 by port 3", "words=4 75 85 85 85 left=0"),
        ("257 by port 2", "words=4 75 refused=4 line=776"),
        ("1,500 by port 3", "words=4 75 refused=4 line=773"),
        ("257 in the first word", "words=4 refused=4 line=773"),
        ("257 in the last word", "words=4 75 75 75 refused=4 line=776"),
        ("257 after the last word", "words=4 75 75 75 75 left=257"),
        ("256, and one at the next word's first cycle", "words=4 75 85 85 85 left=0"),
        ("256 in each of two words running", "words=4 75 85 85 85 left=0"),
        ("256 in a word, 257 in the next", "words=4 75 85 refused=4 line=1544"),
        ("256, then a select", "words=4 75 85 85 85 left=0"),
        ("256, then a select, then data", "words=4 75 refused=4 line=779"),
        ("1,500 selects in a word", "words=2 75 75 left=0"),
        ("257 to R14", "words=4 75 refused=4 line=776"),
    ] {
        assert_eq!(named(name), by_hand, "{name}");
    }
}

/// The examples. In the tune a note has nine interrupts, 7,955.8 words: it swells to its top in the last third.
#[test]
fn examples() {
    let text = |name: &str| std::fs::read_to_string(format!("../examples/{name}.capture")).unwrap();
    for (name, by_hand) in [
        ("worked", "words=4 75 4642 4642 4642 left=0"),
        ("limit_queue", "words=4 75 4642 4642 4642 left=0"),
        ("refused_4", "words=4 75 refused=4 line=776"),
        ("refused_12", "refused=12 line=8"),
    ] {
        assert_eq!(printed(&text(name)).join(" "), by_hand, "{name}");
    }
    let largest = printed(&text("limit_largest"));
    assert_eq!(
        (largest[0].as_str(), largest.len(), largest.last().unwrap().as_str()),
        ("words=65536", 65_538, "left=0")
    );
    let tune = printed(&text("tune"));
    assert_eq!((tune[0].as_str(), tune.len(), tune.last().unwrap().as_str()), ("words=64000", 64_002, "left=0"));
    let words: Vec<u32> = tune[1..=64_000].iter().map(|word| word.parse().unwrap()).collect();
    for note in 0..8 {
        // The interrupt is some cycles late, and R13 is not the first that it writes.
        let note = &words[note * 63_646 / 8 + 8..(note + 1) * 63_646 / 8];
        let third = |place: usize| *note.chunks(note.len() / 3).nth(place).unwrap().iter().max().unwrap();
        assert!(third(0) < 7_000 && third(2) > 11_000, "{} {}", third(0), third(2));
    }
    assert!(words[63_647..].iter().all(|word| *word <= 150));
}

/// Refused by the check, a capture prints one line and no word, though 4 or many words would have come before it.
#[test]
fn one_line() {
    let full = all().into_iter().find(|case| case.name == "257 by port 2").unwrap();
    let text = full.text();
    for (damaged, by_hand) in [
        (text.replace("writes=258", "writes=259") + "at=63\nport=2\nvalue=00\n", "refused=12 line=779"),
        (text.replace("writes=258", "writes=259") + "at=64\nport=4\nvalue=00\n", "refused=9 line=780"),
        (text.replace("writes=258", "writes=259") + "at=64\nport=3\nvalue=0\n", "refused=8 line=781"),
        (text.clone() + "\n", "refused=10 line=779"),
        (text.replace("words=4", "words=65537"), "refused=9 line=4"),
        ("\0".repeat(10_000_000), "refused=11 line=0"),
    ] {
        assert_eq!(printed(&damaged), [by_hand]);
    }
}
