//! Draws captures, good and damaged.

use crate::damage;
use crate::dumps::clocks;
use crate::players::{Fails, Kind, lines_of};
use crate::shrink::shortest;
use crate::stamped::Stamped;
use oracle::capture::{Capture, play, read};
use oracle::capture_cases;
use oracle::random::Random;
use oracle::refusal::{CAPTURE_WORDS_MAX, WRITES_MAX};

pub const CAPTURES: Kind = Kind { name: "capture", draw: capture, play: played, fewer: fewer_writes, cases };

/// Words that most captures may ask for, and ticks that all may.
const MOST_WORDS: u64 = 20_000;
const MOST_TICKS: u64 = 1_000_000;

pub fn played(text: &[u8]) -> Vec<u8> {
    let mut out = Vec::new();
    play(text, &mut out).unwrap();
    out
}

fn cases() -> Vec<(String, Vec<u8>)> {
    capture_cases::all().into_iter().map(|case| (case.name.clone(), case.text().into_bytes())).collect()
}

/// Without the writes that are not needed, and with as few words as do. `writes=` says fewer by as many as are gone, where it can.
fn fewer_writes(capture: &[u8], fails: Fails) -> Vec<u8> {
    let mut head = lines_of(capture);
    if head.len() < 4 {
        return capture.to_vec();
    }
    let writes: Vec<Vec<u8>> = head.split_off(4).chunks(3).map(<[_]>::concat).collect();
    let (there, said) = (writes.len(), number(&head[2], "writes="));
    let of = |head: &[Vec<u8>], writes: &[Vec<u8>]| {
        let count = said.and_then(|said| said.checked_sub((there - writes.len()) as u64));
        let count = count.map_or(head[2].clone(), |count| format!("writes={count}\n").into_bytes());
        [head[..2].concat(), count, head[3].clone(), writes.concat()].concat()
    };
    let writes = shortest(&writes, &mut |writes| fails(&of(&head, writes)));
    while let Some(fewer) = fewer_words(&head, &|head| fails(&of(head, &writes))) {
        head = fewer;
    }
    of(&head, &writes)
}

fn number(line: &[u8], key: &str) -> Option<u64> {
    std::str::from_utf8(line).ok()?.trim_end().strip_prefix(key)?.parse().ok()
}

fn fewer_words(head: &[Vec<u8>], fails: &dyn Fn(&[Vec<u8>]) -> bool) -> Option<Vec<Vec<u8>>> {
    let words = number(&head[3], "words=")?;
    let tries = [1, words / 2, words.saturating_sub(1)].into_iter().filter(|fewer| (1..words).contains(fewer));
    let with = |fewer: u64| [&head[..3], &[format!("words={fewer}\n").into_bytes()]].concat();
    tries.map(with).find(|head| fails(head))
}

pub fn capture(random: &mut Random) -> Vec<u8> {
    loop {
        let text = drawn(random);
        // A damaged rate may make a good capture that takes hours.
        if read(&text).is_ok_and(|capture| ticks(&capture) > 2 * MOST_TICKS) {
            continue;
        }
        return text;
    }
}

/// A write too many.
const MORE: &[u8] = b"at=18446744073709551615\nport=0\nvalue=00\n";

fn ticks(capture: &Capture) -> u64 {
    let a_word = (capture.master / 8 / capture.rate) as u64 + 1;
    a_word * capture.words as u64
}

fn drawn(random: &mut Random) -> Vec<u8> {
    let mut lines = good(random);
    let damages = random.pick(&[0, 0, 0, 0, 1, 1, 2]);
    for _ in 0..damages {
        if !random.one_in(4) {
            damage_line(random, &mut lines);
        }
    }
    let mut text = lines.concat().into_bytes();
    for _ in 0..damages {
        match random.below(12) {
            0 => text.extend_from_slice(random.pick(&[MORE, b"\n", b"left=0\n", b"\0"])),
            1 | 2 => damage::text(random, &mut text, MORE),
            _ => {}
        }
    }
    text
}

/// Lines with their LF, of a capture that passes the check; some are refused by 4 as they are played.
fn good(random: &mut Random) -> Vec<String> {
    let (master, rate) = match random.below(3) {
        // Any ratio of up to some hundred ticks: the rest of the cycles to a word is dropped.
        0 => {
            let master = random.spread(1_073_741_823).max(8);
            let most = master / 8;
            (master, random.within((most / 300).max(1), most))
        }
        _ => clocks(random),
    };
    let cycles = 4 * master / rate;
    let mut stamped = Stamped::new(random, cycles);
    match stamped.random.below(24) {
        0 => {}
        1 => stamped.fill(WRITES_MAX as usize),
        _ => stamped.some(),
    }
    let Stamped { mut writes, .. } = stamped;
    writes.truncate(WRITES_MAX as usize);

    let most = (MOST_TICKS / (master / 8 / rate + 1)).clamp(1, MOST_WORDS);
    let reach = writes.last().map_or(1, |write| write.at.div_ceil(cycles)).clamp(1, most);
    let words = match random.below(24) {
        0 => random.spread(most),
        1 => 1,
        2..=5 => random.within(1, reach),
        6..=8 => reach.max(2) - 1,
        9 if master / rate / 8 <= 15 => CAPTURE_WORDS_MAX - random.below(2),
        _ => reach + random.below(4),
    };
    let mut lines = vec![
        format!("master={master}\n"),
        format!("rate={rate}\n"),
        format!("writes={}\n", writes.len()),
        format!("words={words}\n"),
    ];
    for write in writes {
        lines.push(format!("at={}\n", write.at));
        lines.push(format!("port={}\n", write.port));
        lines.push(format!("value={:02x}\n", write.value));
    }
    lines
}

fn damage_line(random: &mut Random, lines: &mut Vec<String>) {
    let head = random.below(lines.len().min(4) as u64) as usize;
    let any = random.below(lines.len() as u64) as usize;
    let place = if random.one_in(2) { head } else { any };
    match random.below(32) {
        way @ 0..=7 => damage::line(way, lines, place, any),
        // 12, and 9 or 8 in the line below it
        8..=10 if lines.len() > 9 => {
            let write = random.below((lines.len() as u64 - 4) / 3 - 1) as usize + 1;
            let at = (4 + 3 * write).min(lines.len() - 2);
            lines[at] = stamp_line(stamp_before(lines, at).saturating_sub(1));
            lines[at + 1] = random.pick(&["port=4\n", "port=x\n", "port=0\n"]).into();
        }
        _ => {
            let key = damage::key(&lines[place]).to_string();
            lines[place] = format!("{key}={}\n", limit(random, lines, place));
        }
    }
}

fn stamp_line(stamp: u64) -> String {
    format!("at={stamp}\n")
}

/// The stamp of the last write above a line, or 0.
fn stamp_before(lines: &[String], line: usize) -> u64 {
    let stamps = lines[..line].iter().rev().filter_map(|line| line.trim_end().strip_prefix("at="));
    stamps.filter_map(|stamp| stamp.parse().ok()).next().unwrap_or(0)
}

/// A value on one side or the other of a limit, in good form or in bad.
fn limit(random: &mut Random, lines: &[String], place: usize) -> String {
    let its_own: &[&str] = match damage::key(&lines[place]) {
        "master" => &["7", "8", "1073741823", "1073741824", "02000000", "2000000 "],
        "rate" => &["0", "250000", "250001", "134217727", "134217728", "044100"],
        "writes" if random.one_in(2) => {
            let there = lines.len() as u64 / 3 - 1;
            return random.pick(&[there + 1, there.max(1) - 1]).to_string();
        }
        "writes" => &["1500", "1501", "1499", "1502", "02"],
        "words" => &["0", "65537", "65538", "65535", "04"],
        "at" if random.one_in(2) => return beside(random, stamp_before(lines, place)),
        "at" => &[
            "18446744073709551615",
            "18446744073709551616",
            "99999999999999999999",
            "100000000000000000000",
            "184467440737095516160",
            "36893488147419103232",
        ],
        "port" => &["0", "3", "4", "5", "03", "4294967298", "256", "258", "x"],
        _ => &["0", "000", "0F", "0g", "g0", "ff", "00", " 0", "0 ", "0x"],
    };
    let value = if random.one_in(4) { damage::number(random, its_own) } else { random.pick(its_own) };
    value.to_string()
}

/// A stamp lower than the one before, equal to it, or one that would be about it if it were cut to 64 bits.
fn beside(random: &mut Random, before: u64) -> String {
    let wrapped = (1 << 64) + before as u128;
    match random.below(8) {
        0 | 1 => before.saturating_sub(1).to_string(),
        2 => random.below(before.max(1)).to_string(),
        3 => before.to_string(),
        4 => before.saturating_add(1).to_string(),
        5 => format!("0{before}"),
        6 => format!("{before:021}"),
        _ => (wrapped + random.below(2) as u128).to_string(),
    }
}
