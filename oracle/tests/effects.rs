//! 02, request 03: what a call's writes changed. The oracle beside what the scripts say of the request, beside counts over the writes that
//! each call applies (`common/effects.rs`), and beside cases by hand.

mod common;
#[path = "common/effects.rs"]
mod effects;

use common::check;
use effects::Stored;
use oracle::call::{Call, read};
use oracle::chip::Effects;
use oracle::effect_cases::all;
use oracle::script::Bench;
use oracle::script_cases::{self, Case, case};

#[test]
fn as_02_says() {
    let named = all().into_iter().inspect(|case| println!("{}", case.name));
    let checked: usize = named.map(|case| check(&case.script, |_, _, _| ())).sum();
    assert!(checked > 10_000, "{checked}");
}

/// Register and value of each write that an accepted call applies, in order; none where it is no call that reports.
fn applied(bench: &Bench, call: Call) -> Option<Vec<(u8, u8)>> {
    let chip = &bench.chip;
    let (_, _, cycles) = chip.clocks();
    let due = |end: u128| {
        let waiting = (0..).map_while(|place| chip.waiting(place));
        let due = waiting.take_while(|(stamp, _, _)| *stamp as u128 <= end);
        due.map(|(_, register, value)| (register, value)).collect()
    };
    let end = |words: usize| chip.start() as u128 + words as u128 * cycles as u128;
    Some(match call {
        Call::Write(register, value) => vec![(register, value)],
        Call::PortNow(port, value) if port & 2 != 0 => vec![(chip.selection() as u8, value)],
        Call::PortNow(..) | Call::Block(0) => Vec::new(),
        Call::Load(bytes) => (0..14).zip(bytes).collect(),
        Call::Flush => due(u128::MAX),
        Call::Word => due(end(1)),
        Call::Block(length) => due(end(length)),
        _ => return None,
    })
}

/// The number that a call answered, and what it reported.
fn reported(call: Call, answer: &str) -> (u8, Effects) {
    let numbers: Vec<u32> = answer.split(' ').map_while(|number| number.parse().ok()).collect();
    let place = if matches!(call, Call::Word | Call::Block(_)) { 3 } else { 1 };
    (numbers[0] as u8, Effects { changed: numbers[place], restarted: numbers[place + 1] })
}

/// Every call of every script: "equal to counts over the definition's list of applied writes"; "A refused call reports 0 and 0."
#[test]
fn as_counted() {
    let kept = [
        case("cases.script", include_str!("../cases.script").to_string()),
        case("the kept sample", include_str!("../sample-2000-1.script").to_string()),
        case("range.script", include_str!("../range.script").to_string()),
    ];
    let (mut accepted, mut refused, mut some) = (0, 0, 0);
    for Case { name, script } in script_cases::all().into_iter().chain(kept) {
        let mut bench = Bench::default();
        for (place, line) in script.lines().enumerate().filter(|(_, line)| !line.starts_with('#')) {
            let call = read(line).unwrap();
            let (bytes, writes) = (bench.chip.dump_registers(), applied(&bench, call));
            let mut printed = String::new();
            assert!(bench.line(line, &mut printed), "{line}");
            let Some(writes) = writes else { continue };
            let (number, effects) = reported(call, printed.lines().next().unwrap());
            let counted = if number == 0 { Stored::counted(bytes, writes) } else { Effects::default() };
            assert_eq!(effects, counted, "{name}, line {}: {line}", place + 1);
            match number {
                0 => accepted += 1,
                _ => refused += 1,
            }
            some += (effects != Effects::default()) as u64;
        }
    }
    assert!(accepted > 40_000 && refused > 1_000 && some > 20_000, "{accepted} {refused} {some}");
}

/// The last line's answer, of a default chip.
fn answer(script: &str) -> String {
    let (mut bench, mut printed) = (Bench::default(), String::new());
    for line in script.lines() {
        printed.clear();
        assert!(bench.line(line, &mut printed), "{line}");
    }
    printed.lines().next().unwrap().to_string()
}

#[test]
fn by_hand() {
    let five_six_five = "write 8 5\nport 0 8\nport 2 5\nport 2 6\nport 2 5\n";
    let in_three_words = "write 8 5\nport 0 8\ncycle 32\nport 2 5\ncycle 64\nport 2 6\ncycle 96\nport 2 5\n";
    for (script, says) in [
        // R8 is 5, and 5, 6, 5 are applied
        (format!("{five_six_five}flush"), "0 2 0"),
        (format!("{five_six_five}word"), "0 1 1 2 0 193"),
        (format!("{in_three_words}block 3"), "0 3 3 2 0 193 252 193"),
        (format!("{in_three_words}word\nword"), "0 1 1 1 0 252"),
        // R1 at 0f, written ff
        ("write 1 15\nwrite 1 255".to_string(), "0 0 0"),
        ("write 1 31".to_string(), "0 1 0"),
        // R13: the same byte restarts too
        ("write 13 0".to_string(), "0 0 1"),
        ("write 13 9".to_string(), "0 1 1"),
        ("port 0 13\nport 2 0\nport 2 16\nflush".to_string(), "0 0 2"),
        // 14 and up
        ("write 14 1".to_string(), "0 0 0"),
        ("write 255 1".to_string(), "0 0 0"),
        ("port 0 14\nport 2 1\nport 0 15\nport 2 1\nflush".to_string(), "0 0 0"),
        ("port_now 0 14\nport_now 2 1".to_string(), "0 0 0"),
        // a select, and a write by the port
        ("port_now 0 13".to_string(), "0 0 0"),
        ("port_now 0 13\nport_now 2 1".to_string(), "0 1 1"),
        // what is loaded, and all else
        ("load 000000000000003f0000000000000000".to_string(), "0 0 1"),
        ("load 01010101010101010101010101010000".to_string(), "0 14 1"),
        // nothing to apply
        ("flush".to_string(), "0 0 0"),
        ("block 0".to_string(), "0 0 0 0 0"),
        ("port 2 1\nreset\nflush".to_string(), "0 0 0"),
        ("cycle 33\nport 2 1\nword".to_string(), "0 1 1 0 0 75"),
        // refused by 5, 6 and 22, with a write that is due
        ("port 2 1\nblock 65537".to_string(), "5 0 0 0 0"),
        ("port 2 1\nset start 18446744073709551615\nword".to_string(), "6 0 0 0 0"),
        ("port 2 1\nset select 16\nflush".to_string(), "22 0 0"),
        ("set select 16\nwrite 13 1".to_string(), "22 0 0"),
        // these answer as they did
        ("port 2 1".to_string(), "0"),
        ("trigger".to_string(), "0"),
        ("reset".to_string(), "0"),
    ] {
        assert_eq!(answer(&script), says, "{script}");
    }
}
