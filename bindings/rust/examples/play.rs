//! Plays 01's dump, four words of a tone on A; then tries calls that must be refused.
//!   play [MASTER RATE]
//! Prints `words=4` and a word to a line, as ./playdump does for examples/worked.dump. Status 0; 1 where a call was refused, which is
//! printed as `refused=` and its number; 2 where the arguments are no clocks; 101 where a refused call changed something.

use std::process::ExitCode;
use ym2149_proved::{Chip, Refusal};

const DUMP: [u8; 16] = [0x02, 0, 0, 0, 0, 0, 0, 0x3e, 0x0f, 0, 0, 0, 0, 0, 0, 0];

fn play(master: u32, rate: u32) -> Result<Chip, Refusal> {
    let mut chip = Chip::with_clocks(master, rate)?;
    chip.load_registers(DUMP)?;
    let mut out = [0; 4];
    chip.block(&mut out)?;
    println!("words={}", out.len());
    for word in out {
        println!("{word}");
    }
    Ok(chip)
}

/// A block of `words` must be refused with `refusal`, and leave the chip and the buffer as they were.
fn block_refused(chip: &mut Chip, words: usize, refusal: Refusal) {
    let (before, mut out) = (chip.clone(), vec![0x5a5a; words]);
    assert_eq!(chip.block(&mut out), Err(refusal));
    assert!(*chip == before && out.iter().all(|&word| word == 0x5a5a));
}

/// A mute of channel 3, a block that is too long, and calls on a record that the host has put out of range.
fn refusals_change_nothing(mut chip: Chip) {
    let before = chip.clone();
    assert_eq!(chip.set_channel_mute(3, true), Err(Refusal::NO_SUCH_CHANNEL));
    assert!(chip == before);
    block_refused(&mut chip, 65_537, Refusal::BLOCK_TOO_LONG);

    let mut record = *chip.record();
    record.core.selected = 16;
    let mut chip = Chip::from_record(record);
    assert_eq!(chip.write_register(8, 15), Err(Refusal::OUT_OF_RANGE));
    assert!(*chip.record() == record);
    block_refused(&mut chip, 4, Refusal::OUT_OF_RANGE);
}

fn clocks(words: &[String]) -> Option<(u32, u32)> {
    match words {
        [] => Some((2_000_000, 250_000)),
        [master, rate] => Some((master.parse().ok()?, rate.parse().ok()?)),
        _ => None,
    }
}

fn main() -> ExitCode {
    let words: Vec<String> = std::env::args().skip(1).collect();
    let Some((master, rate)) = clocks(&words) else {
        eprintln!("usage: play [MASTER RATE]");
        return ExitCode::from(2);
    };
    match play(master, rate) {
        Ok(chip) => {
            refusals_change_nothing(chip);
            ExitCode::SUCCESS
        }
        Err(refusal) => {
            println!("refused={}", refusal.number());
            eprintln!("play: {refusal}");
            ExitCode::from(1)
        }
    }
}
