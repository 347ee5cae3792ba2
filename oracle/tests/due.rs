//! Writes that fall due together, and what a block leaves. The oracle beside what the scripts say of 01, and beside plain register writes.

mod common;
#[path = "common/effects.rs"]
mod effects;

use common::check;
use effects::Stored;
use oracle::call::{Call, read};
use oracle::chip::Effects;
use oracle::due_cases::{all, by_calls};
use oracle::script::{Bench, rendered};
use oracle::variant_cases::due_writes;
use std::collections::VecDeque;

#[test]
fn as_01_says() {
    let named = all().into_iter().inspect(|case| println!("{}", case.name));
    let checked: usize = named.map(|case| check(&case.script, |_, _, _| ())).sum();
    assert!(checked > 2_500, "{checked}");
}

/// A chip whose queue stays empty: what is due is written to the registers ahead of its word, and a block is one word after another. What it
/// reports of these writes is counted over them.
#[derive(Default)]
struct Plain {
    bench: Bench,
    waiting: VecDeque<(u64, u8, u8)>,
}

fn printed(bench: &mut Bench, line: &str) -> String {
    let mut printed = String::new();
    assert!(bench.line(line, &mut printed), "{line}");
    printed
}

impl Plain {
    fn answer(&mut self, line: &str) -> String {
        printed(&mut self.bench, line).lines().next().unwrap().to_string()
    }

    fn queue(&mut self, value: u8) -> String {
        if self.waiting.len() == 256 {
            return "4".to_string();
        }
        let chip = &self.bench.chip;
        self.waiting.push_back((chip.cpu_cycle(), chip.selection() as u8, value));
        "0".to_string()
    }

    fn write_up_to(&mut self, end: u64) -> Vec<(u8, u8)> {
        let mut written = Vec::new();
        while let Some((_, register, value)) = self.waiting.pop_front_if(|(stamp, _, _)| *stamp <= end) {
            self.bench.chip.write_register(register, value);
            written.push((register, value));
        }
        written
    }

    fn flush(&mut self) -> String {
        let bytes = self.bench.chip.dump_registers();
        let Effects { changed, restarted } = Stored::counted(bytes, self.write_up_to(u64::MAX));
        format!("0 {changed} {restarted}")
    }

    fn block(&mut self, length: usize) -> String {
        let (_, _, cycles) = self.bench.chip.clocks();
        let (before, bytes) = (self.bench.chip.ticks(), self.bench.chip.dump_registers());
        let (mut words, mut written) = (Vec::new(), Vec::new());
        for _ in 0..length {
            written.extend(self.write_up_to(self.bench.chip.start() + cycles));
            words.push(self.bench.chip.compute_next_sample());
        }
        rendered(0, self.bench.chip.ticks() - before, Stored::counted(bytes, written), &words)
    }

    /// Answer and state, as the oracle prints them of a chip with a queue.
    fn printed(&mut self, line: &str) -> String {
        let answer = match read(line).unwrap() {
            Call::Port(port, value) if port & 2 != 0 => self.queue(value),
            Call::Flush => self.flush(),
            Call::Word => self.block(1),
            Call::Block(length) => self.block(length),
            Call::Pending => format!("0 {}", self.waiting.len()),
            Call::Waiting(place) => {
                let (stamp, register, value) = self.waiting[place as usize];
                format!("0 {stamp} {register} {value}")
            }
            Call::New(..) | Call::Make(..) | Call::Reset => {
                self.waiting.clear();
                self.answer(line)
            }
            _ => self.answer(line),
        };
        let waiting = format!("waiting={}", self.waiting.len());
        let looked = printed(&mut self.bench, "pending").replace("waiting=0", &waiting);
        let (_, state) = looked.split_once('\n').unwrap();
        format!("{answer}\n{state}")
    }
}

#[test]
fn as_plain_writes() {
    for case in by_calls().into_iter().chain(due_writes()) {
        let (mut bench, mut plain) = (Bench::default(), Plain::default());
        let calls = case.script.lines().enumerate().filter(|(_, line)| !line.starts_with('#'));
        for (place, line) in calls {
            assert_eq!(printed(&mut bench, line), plain.printed(line), "{}, line {}", case.name, place + 1);
        }
    }
}
