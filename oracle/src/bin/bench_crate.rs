//! Times the crate's own code: nanoseconds to a word, the best of several runs. README.md says what is run.

use oracle::chip::Ym2149;
use std::hint::black_box;
use std::time::Instant;

const MASTER: u32 = 2_000_000;
/// Samples per second, and words rendered in one run.
const RATES: [(u32, usize); 4] = [(44_100, 4_096), (250_000, 4_096), (1_000, 4_096), (10, 64)];
const RUNS: u32 = 40;

/// Three tones, noise on A, a fixed volume on A, the envelope on B, a masked volume on C.
const BUSY: [u8; 14] = [0x1c, 0x01, 0x7b, 0x00, 0x05, 0x00, 0x07, 0x00, 0x0f, 0x10, 0x1c, 0x30, 0x00, 0x0e];

fn silent(rate: u32) -> Ym2149 {
    Ym2149::with_clocks(MASTER, rate)
}

fn busy(rate: u32) -> Ym2149 {
    let mut chip = silent(rate);
    for (register, &value) in BUSY.iter().enumerate() {
        chip.write_register(register as u8, value);
    }
    chip
}

fn render(chip: &mut Ym2149, words: &mut [u16]) {
    for word in words {
        *word = chip.compute_next_sample();
    }
}

/// One write to a volume falls due in each word. They are queued through the ports, as many at a time as may wait.
fn render_with_writes(chip: &mut Ym2149, words: &mut [u16]) {
    let (_, _, cycles) = chip.clocks();
    for part in words.chunks_mut(256) {
        for place in 0..part.len() as u64 {
            chip.set_cpu_cycle(chip.start() + (place + 1) * cycles);
            chip.write_port(0, 8 + (place % 3) as u8);
            chip.write_port(2, place as u8);
        }
        render(chip, part);
    }
}

fn best(chip: &Ym2149, words: usize, run: fn(&mut Ym2149, &mut [u16])) -> f64 {
    let mut buffer = vec![0; words];
    let mut best = f64::MAX;
    for _ in 0..RUNS {
        let mut chip = black_box(chip.clone());
        let begun = Instant::now();
        run(&mut chip, &mut buffer);
        let spent = begun.elapsed().as_nanos() as f64;
        black_box((&chip, &buffer));
        best = best.min(spent / words as f64);
    }
    best
}

fn checks_on() -> bool {
    std::panic::set_hook(Box::new(|_| {}));
    let checked = std::panic::catch_unwind(|| black_box(255u8) + black_box(1)).is_err();
    drop(std::panic::take_hook());
    checked
}

fn main() {
    let checks = if checks_on() { "on" } else { "off" };
    let ticks = if cfg!(feature = "plain") { "not counted" } else { "counted" };
    println!("ym2149 0.9.1 without its filter, master {MASTER}, overflow checks {checks}, ticks {ticks}");
    println!("nanoseconds to a word, best of {RUNS} runs");
    println!("{:>8} {:>6} {:>10} {:>10} {:>10}", "rate", "words", "busy", "silent", "writes");
    for (rate, words) in RATES {
        println!(
            "{rate:>8} {words:>6} {:>10.1} {:>10.1} {:>10.1}",
            best(&busy(rate), words, render),
            best(&silent(rate), words, render),
            best(&busy(rate), words, render_with_writes),
        );
    }
}
