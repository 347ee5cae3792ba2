//! What goes wrong in a text's lines and bytes, be it a dump or a capture.

use oracle::random::Random;
use oracle::refusal::TEXT_MAX;

/// Numbers in good form and in bad, about 0 and 1, 2^32, 10 digits and 2^64.
#[rustfmt::skip]
const NUMBERS: [&str; 17] = [
    "0", "1", "00", "01", "-1", "+1", " 1", "1 ", "0x1", "1e1", "4294967295", "4294967296", "4294967297",
    "9999999999", "10000000000", "00000000001", "18446744073709551617",
];

/// One of these, or one of the line's own.
pub fn number<'a>(random: &mut Random, its_own: &[&'a str]) -> &'a str {
    if random.one_in(2) { random.pick(&NUMBERS) } else { random.pick(its_own) }
}

/// In one of eight ways: the line at a place left out, doubled, swapped with another, or itself damaged.
pub fn line(way: u64, lines: &mut Vec<String>, place: usize, other: usize) {
    match way {
        0 => drop(lines.remove(place)),
        1 => lines.insert(place, lines[place].clone()),
        2 => lines.swap(place, other),
        3 => lines[place] = lines[place].replace('\n', "\r\n"),
        4 => lines[place] = lines[place].to_uppercase(),
        5 => lines[place] = lines[place].replacen('=', "", 1),
        6 => lines[place] = lines[place].replacen('=', "=0", 1),
        _ => lines[place] = format!("{}=\n", key(&lines[place])),
    }
}

pub fn key(line: &str) -> &str {
    line.split('=').next().unwrap()
}

/// The text cut, or with bytes more, fewer or others. `more` are lines that one might take for more of the text.
pub fn text(random: &mut Random, text: &mut Vec<u8>, more: &[u8]) {
    let place = random.within(0, text.len() as u64) as usize;
    let byte = random.byte();
    let byte = random.pick(&[byte, b'\n', b'\r', 0, b'0', b'a', b'A', b'=', b' ', b'g', b'/', b':', b'`']);
    match random.below(10) {
        0 => text.truncate(place),
        1 => drop(text.pop()),
        2 => text.push(byte),
        3 => text.extend_from_slice(more),
        4 => text.insert(place, byte),
        5 | 6 if place < text.len() => text[place] = byte,
        7 if place < text.len() => drop(text.remove(place)),
        8 => text.resize(TEXT_MAX + random.below(2) as usize, byte),
        9 => text.clear(),
        _ => text.push(b'\n'),
    }
}
