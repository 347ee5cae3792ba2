//! Nearest periods, 02's request 12. `pitches notes` prints what `crates/notes` is run on and `pitches periods` what it is to print;
//! `pitches items` and `pitches answers` do the same for `crates/test_pitches`. `pitches COUNT SEED PROGRAM` draws COUNT cases and a list
//! for each four of them, hands them to the program, which reads items, and compares every line.
//! Status 0: no difference; 1: some; 2: bad arguments.

mod draw;
#[path = "../compare/other.rs"]
mod other;
mod tally;

use oracle::pitch_cases::{items, notes};
use oracle::pitch_items::{Item, input, output};
use oracle::pitches::printed;
use oracle::random::Random;
use std::io::{Write, stdout};
use std::process::exit;

/// Differences that are shown.
const SHOWN: usize = 5;

fn main() {
    let words: Vec<String> = std::env::args().skip(1).collect();
    let words: Vec<&str> = words.iter().map(String::as_str).collect();
    match words.as_slice() {
        ["notes"] => print(&notes()),
        ["periods"] => print(&printed(&notes())),
        ["items"] => print(&input(&items())),
        ["answers"] => print(&output(&items())),
        [count, seed, program] => match (count.parse(), seed.parse()) {
            (Ok(count), Ok(seed)) => compare(count, seed, program),
            _ => usage(),
        },
        _ => usage(),
    }
}

fn usage() {
    eprintln!("usage: pitches notes | periods | items | answers | COUNT SEED PROGRAM");
    exit(2);
}

fn print(bytes: &[u8]) {
    stdout().lock().write_all(bytes).expect("standard output");
}

fn compare(count: u64, seed: u64, program: &str) {
    let mut random = Random(seed);
    let cases = draw::cases(&mut random, count);
    let lists = draw::lists(&mut random, count / 4);
    let items: Vec<Item> = cases.iter().map(|case| case.item()).chain(lists.into_iter().map(Item::Lists)).collect();
    let outputs: Vec<Vec<u8>> = items.iter().map(Item::output).collect();
    let differences = differences(&items, &outputs, &other::run(program, input(&items)));
    println!("pitches: {} differences={differences}", tally::counted(&cases, &outputs));
    exit((differences > 0) as i32);
}

/// How many items are answered otherwise, each by as many lines as the oracle has for it. Lines left over count as one more.
fn differences(items: &[Item], outputs: &[Vec<u8>], found: &[u8]) -> usize {
    let mut lines = found.split_inclusive(|&byte| byte == b'\n');
    let mut differences = 0;
    for (item, expected) in items.iter().zip(outputs) {
        let count = expected.split_inclusive(|&byte| byte == b'\n').count();
        let found = lines.by_ref().take(count).collect::<Vec<_>>().concat();
        if found != *expected {
            differences += 1;
            if differences <= SHOWN {
                show(&item.input(), expected, &found);
            }
        }
    }
    differences + lines.next().is_some() as usize
}

fn show(input: &[u8], expected: &[u8], found: &[u8]) {
    let text = String::from_utf8_lossy;
    println!("{}expected:\n{}found:\n{}", text(input), text(expected), text(found));
}
