//! Each line of a dump, damaged in every way.

use crate::good::plain;
use crate::{Text, text};

pub fn texts() -> Vec<Text> {
    let mut all = Vec::new();
    for frames in [0, 2] {
        let lines = plain(frames);
        for at in 0..lines.len() {
            let name = |what: &str| format!("{frames} frames, line {}: {what}", at + 1);
            let (before, after) = (lines[..at].concat(), lines[at + 1..].concat());
            for (what, line) in damaged(&lines[at]) {
                all.push(text(name(what), format!("{before}{line}{after}")));
            }
            for (what, line) in cut(&lines[at]) {
                all.push(text(name(what), format!("{before}{line}")));
            }
            if at + 1 < lines.len() {
                let mut swapped = lines.clone();
                swapped.swap(at, at + 1);
                all.push(text(name("swapped with the next"), swapped.concat()));
            }
        }
    }
    all
}

/// What stands in the line's place.
pub fn damaged(line: &str) -> Vec<(&'static str, String)> {
    let line = line.trim_end();
    let (key, value) = line.split_once('=').unwrap();
    let (upper, short) = (key.to_uppercase(), &key[..key.len() - 1]);
    let (first, last) = (&key[1..], value.len() - 1);
    let capital = &upper[..1];
    vec![
        ("missing", String::new()),
        ("doubled", format!("{line}\n{line}\n")),
        ("an empty line before it", format!("\n{line}\n")),
        ("LF missing", line.to_string()),
        ("LF doubled", format!("{line}\n\n")),
        ("CR LF", format!("{line}\r\n")),
        ("CR for LF", format!("{line}\r")),
        ("LF CR", format!("{line}\n\r")),
        ("NUL before the LF", format!("{line}\0\n")),
        ("a space before it", format!(" {line}\n")),
        ("a space before =", format!("{key} ={value}\n")),
        ("a space after =", format!("{key}= {value}\n")),
        ("a space at the end", format!("{line} \n")),
        ("a tab at the end", format!("{line}\t\n")),
        ("upper-case key", format!("{upper}={value}\n")),
        ("capital key", format!("{capital}{first}={value}\n")),
        ("upper-case value", format!("{key}={}\n", value.to_uppercase())),
        ("another key", format!("clock={value}\n")),
        ("key one letter short", format!("{short}={value}\n")),
        ("key without its first letter", format!("{first}={value}\n")),
        ("key one letter long", format!("{key}s={value}\n")),
        ("no key", format!("={value}\n")),
        ("no =", format!("{key}{value}\n")),
        ("two =", format!("{key}=={value}\n")),
        ("a colon for =", format!("{key}:{value}\n")),
        ("no value", format!("{key}=\n")),
        ("a space for the value", format!("{key}= \n")),
        ("LF after =", format!("{key}=\n{value}\n")),
        ("first digit missing", format!("{key}={}\n", &value[1..])),
        ("last digit missing", format!("{key}={}\n", &value[..last])),
        ("one digit more", format!("{key}={value}0\n")),
        ("a zero in front", format!("{key}=0{value}\n")),
        ("plus", format!("{key}=+{value}\n")),
        ("minus", format!("{key}=-{value}\n")),
        ("0x", format!("{key}=0x{value}\n")),
        ("a point", format!("{key}={value}.0\n")),
        ("a comment", format!("{line} # 1\n")),
    ]
}

/// What the text ends with, where it ends at the line.
pub fn cut(line: &str) -> Vec<(&'static str, &str)> {
    let equals = line.find('=').unwrap();
    vec![
        ("the text ends before it", ""),
        ("the text ends before =", &line[..equals]),
        ("the text ends after =", &line[..=equals]),
        ("the text ends before its last digit", &line[..line.len() - 2]),
        ("the text ends before its LF", &line[..line.len() - 1]),
        ("the text ends after it", line),
    ]
}
