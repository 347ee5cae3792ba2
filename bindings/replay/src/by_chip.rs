//! The calls by `Chip`, on a chip that is handed the record and hands it back.

use oracle::call::Call;
use oracle::chip::Effects;
use oracle::script::{bits, hex, rendered};
use ym2149_proved::{Block, Chip, Effect, Record, Refusal, Word};

pub fn answer(record: &mut Record, call: Call) -> String {
    let mut chip = Chip::from_record(*record);
    let said = asked(&mut chip, call);
    *record = *chip.record();
    said
}

fn asked(chip: &mut Chip, call: Call) -> String {
    match call {
        Call::New(master, rate) => made(chip, Chip::with_clocks(master, rate)),
        Call::Make(master, rate, variant) => made(chip, Chip::with_variant(master, rate, variant)),
        Call::Default => {
            *chip = Chip::new();
            "0".into()
        }
        Call::Reset => number(chip.reset()),
        Call::Write(register, value) => one(chip.write_register(register, value)),
        Call::Load(bytes) => all(chip.load_registers(bytes)),
        Call::Port(port, value) => number(chip.write_port(port, value)),
        Call::PortNow(port, value) => one(chip.write_port_immediate(port, value)),
        Call::Cycle(cycle) => number(chip.set_cpu_cycle(cycle)),
        Call::Sync(cycle) => number(chip.sync_sample_cycle(cycle)),
        Call::Flush => all(chip.flush_pending_writes()),
        Call::Irq(on) => number(chip.set_timer_irq_state(on)),
        Call::InsideIrq(inside) => number(chip.inside_timer_irq(inside)),
        Call::Trigger => number(chip.trigger_envelope()),
        Call::Mute(channel, muted) => number(chip.set_channel_mute(channel as usize, muted)),
        Call::Drum(channel, sample) => number(chip.set_drum_sample_override(channel as usize, sample)),
        Call::Read(register) => {
            let (no, value) = told(chip.read_register(register));
            format!("{no} {value}")
        }
        Call::Dump => {
            let (no, bytes) = told(chip.dump_registers());
            format!("{no} {}", hex(&bytes))
        }
        Call::ReadPort(port) => {
            let (no, value) = told(chip.read_port(port));
            format!("{no} {value}")
        }
        Call::GetCycle => {
            let (no, cycle) = told(chip.cpu_cycle());
            format!("{no} {cycle}")
        }
        Call::Pending => {
            let (no, count) = told(chip.pending_write_count());
            format!("{no} {count}")
        }
        Call::Muted(channel) => {
            let (no, yes) = told(chip.is_channel_muted(channel as usize));
            format!("{no} {}", yes as u8)
        }
        Call::Outputs => {
            let (no, [a, b, c]) = told(chip.get_channel_outputs());
            format!("{no} {} {} {}", bits(a), bits(b), bits(c))
        }
        Call::Word => match chip.compute_next_sample() {
            Ok(Word { word, ticks, changed, restarted }) => rendered(0, ticks, Effects { changed, restarted }, &[word]),
            Err(refusal) => rendered(refusal.number(), 0, Effects::default(), &[]),
        },
        Call::Block(length) => {
            let mut out = vec![0; length];
            match chip.block(&mut out) {
                Ok(Block { ticks, changed, restarted }) => rendered(0, ticks, Effects { changed, restarted }, &out),
                Err(refusal) => rendered(refusal.number(), 0, Effects::default(), &[]),
            }
        }
        Call::Waiting(_) | Call::Lent(_) | Call::Set(..) => unreachable!(),
    }
}

fn made(chip: &mut Chip, answer: Result<Chip, Refusal>) -> String {
    let (no, made) = told(answer);
    *chip = made;
    no.to_string()
}

/// The number and what else was answered; 01: "other answers 0 or no", and of a refused making "a fresh default chip".
fn told<T: Default>(answer: Result<T, Refusal>) -> (u8, T) {
    match answer {
        Ok(value) => (0, value),
        Err(refusal) => (refusal.number(), T::default()),
    }
}

fn number(answer: Result<(), Refusal>) -> String {
    told(answer).0.to_string()
}

fn one(answer: Result<Effect, Refusal>) -> String {
    let (no, Effect { changed, restarted }) = told(answer);
    format!("{no} {} {}", changed as u8, restarted as u8)
}

fn all(answer: Result<ym2149_proved::Effects, Refusal>) -> String {
    let (no, counted) = told(answer);
    format!("{no} {} {}", counted.changed, counted.restarted)
}
