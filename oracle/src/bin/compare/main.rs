//! Draws scripts, dumps and captures, runs the oracle on them here and other programs beside it, and compares every line.

mod acts;
mod busy;
mod captures;
mod damage;
mod draw;
mod due;
mod dumps;
mod fields;
mod moods;
mod other;
mod parting;
mod players;
mod scripts;
mod shrink;
mod stamped;
mod tally;

use captures::CAPTURES;
use dumps::DUMPS;
use oracle::random::Random;
use players::Players;
use scripts::{Batches, Scripts};
use std::time::Duration;

/// Calls handed to one process of the other side, at least.
const BATCH: u64 = 2_000;
/// One dump and one capture are drawn for so many calls.
const CALLS_A_TEXT: u64 = 100;
/// How long a shrinking may take.
const SHRINKING: Duration = Duration::from_secs(10);

const USAGE: &str =
    "usage: compare COUNT SEED [--replay PATH] [--player PATH] [--capture-player PATH] [--first] [--script] [--count]

Draws scripts of COUNT calls in all, and a dump and a capture for each 100 calls, and compares the oracle on these
and, last, on the cases of 02's requests with
--replay PATH           a program that reads a script,
--player PATH           a program that reads a dump, and
--capture-player PATH   a program that reads a capture.
With none, the oracle's own programs stand in, which tests only the comparing.
--first         end at the first difference
--script        print the scripts that would be run, and run nothing
--count         print what would be drawn, counted, and run the oracle alone";

#[derive(Default)]
struct Options {
    count: u64,
    seed: u64,
    replay: Option<String>,
    player: Option<String>,
    capture_player: Option<String>,
    first: bool,
    script: bool,
    counting: bool,
}

impl Options {
    // Apart, so that the same scripts are drawn whether dumps and captures are or not.
    fn for_dumps(&self) -> Random {
        Random(!self.seed)
    }

    fn for_captures(&self) -> Random {
        Random(!self.seed.rotate_left(32))
    }
}

fn main() {
    let Some(options) = options() else {
        eprintln!("{USAGE}");
        std::process::exit(2);
    };
    match &options {
        Options { script: true, .. } => print_scripts(&options),
        Options { counting: true, .. } => print_counts(&options),
        _ => compare(&options),
    }
}

fn options() -> Option<Options> {
    let mut words = std::env::args().skip(1);
    let mut options =
        Options { count: words.next()?.parse().ok()?, seed: words.next()?.parse().ok()?, ..Options::default() };
    while let Some(word) = words.next() {
        match word.as_str() {
            "--replay" => options.replay = Some(words.next()?),
            "--player" => options.player = Some(words.next()?),
            "--capture-player" => options.capture_player = Some(words.next()?),
            "--first" => options.first = true,
            "--script" => options.script = true,
            "--count" => options.counting = true,
            _ => return None,
        }
    }
    if options.replay.is_none() && options.player.is_none() && options.capture_player.is_none() {
        options.replay = Some(beside("oracle"));
        options.player = Some(beside("player"));
        options.capture_player = Some(beside("capture_player"));
    }
    Some(options)
}

/// A program of the oracle's own, from the directory of this one.
fn beside(name: &str) -> String {
    let here = std::env::current_exe().unwrap();
    here.with_file_name(name).to_str().unwrap().to_string()
}

fn print_scripts(options: &Options) {
    let mut batches = Batches::new(options);
    while let Some(batch) = batches.next() {
        println!("default");
        batch.iter().for_each(|drawn| print!("{}", drawn.script));
    }
}

fn print_counts(options: &Options) {
    let mut batches = Batches::new(options);
    while batches.next().is_some() {}
    let (mut for_dumps, mut for_captures) = (options.for_dumps(), options.for_captures());
    for _ in 0..options.count.div_ceil(CALLS_A_TEXT) {
        batches.tally.dump(&dumps::dump(&mut for_dumps));
        batches.tally.capture(&captures::capture(&mut for_captures));
    }
    batches.tally.print();
}

fn compare(options: &Options) {
    let mut batches = Batches::new(options);
    let mut scripts = Scripts::default();
    let mut players = Vec::new();
    players.extend(options.player.as_ref().map(|path| Players::new(DUMPS, path, options.for_dumps())));
    players.extend(options.capture_player.as_ref().map(|path| Players::new(CAPTURES, path, options.for_captures())));
    let differ = |scripts: &Scripts, players: &[Players]| {
        scripts.differences > 0 || players.iter().any(|players| players.differences > 0)
    };
    let mut asked = 0;
    while asked < options.count && !(options.first && differ(&scripts, &players)) {
        let share = BATCH.min(options.count - asked);
        asked += share;
        if let Some(path) = &options.replay {
            if let Some(batch) = batches.next() {
                scripts.compare(path, &batch, options.first);
            }
        }
        for place in 0..players.len() {
            for _ in 0..share.div_ceil(CALLS_A_TEXT) {
                if !(options.first && differ(&scripts, &players)) {
                    players[place].compare();
                }
            }
        }
    }
    // Last, so that it is seen whether drawn texts show a fault.
    if let Some(path) = &options.replay {
        if !(options.first && differ(&scripts, &players)) {
            scripts.compare_cases(path, options.first);
        }
    }
    for place in 0..players.len() {
        if !(options.first && differ(&scripts, &players)) {
            players[place].compare_cases(options.first);
        }
    }
    if let Some(path) = &options.replay {
        scripts.report(path);
    }
    players.iter().for_each(Players::report);
    std::process::exit(differ(&scripts, &players) as i32);
}
