//! The calls as the library exports them. What is printed is all that a call answered, of a refused one too.

use oracle::call::Call;
use oracle::chip::Effects;
use oracle::script::{bits, hex, rendered};
use ym2149_proved::Record;
use ym2149_proved::calls::*;
use ym2149_proved::record::Drum;

pub fn answer(chip: &mut Record, call: Call) -> String {
    // of every call: the record is one, lent to it alone, and a block's buffer is as long as it says
    unsafe {
        match call {
            Call::New(master, rate) => ym2149_with_clocks(chip, master, rate).to_string(),
            Call::Make(master, rate, variant) => ym2149_with_variant(chip, master, rate, variant).to_string(),
            Call::Default => ym2149_new(chip).to_string(),
            Call::Reset => ym2149_reset(chip).to_string(),
            Call::Write(register, value) => one(ym2149_write_register(chip, register, value)),
            Call::Load(bytes) => all(ym2149_load_registers(chip, Registers { bytes })),
            Call::Port(port, value) => ym2149_write_port(chip, port, value).to_string(),
            Call::PortNow(port, value) => one(ym2149_write_port_immediate(chip, port, value)),
            Call::Cycle(cycle) => ym2149_set_cpu_cycle(chip, cycle).to_string(),
            Call::Sync(cycle) => ym2149_sync_sample_cycle(chip, cycle).to_string(),
            Call::Flush => all(ym2149_flush_pending_writes(chip)),
            Call::Irq(on) => ym2149_set_timer_irq_state(chip, on).to_string(),
            Call::InsideIrq(inside) => ym2149_inside_timer_irq(chip, inside).to_string(),
            Call::Trigger => ym2149_trigger_envelope(chip).to_string(),
            Call::Mute(channel, muted) => ym2149_set_channel_mute(chip, channel as usize, muted).to_string(),
            Call::Drum(channel, sample) => {
                let drum = Drum { on: sample.is_some(), sample: sample.unwrap_or(0.0) };
                ym2149_set_drum_sample_override(chip, channel as usize, drum).to_string()
            }
            Call::Read(register) => {
                let Byte { no, value } = ym2149_read_register(chip, register);
                format!("{no} {value}")
            }
            Call::Dump => {
                let Bytes { no, bytes } = ym2149_dump_registers(chip);
                format!("{no} {}", hex(&bytes))
            }
            Call::ReadPort(port) => {
                let Byte { no, value } = ym2149_read_port(chip, port);
                format!("{no} {value}")
            }
            Call::GetCycle => {
                let Cycle { no, cycle } = ym2149_cpu_cycle(chip);
                format!("{no} {cycle}")
            }
            Call::Pending => {
                let Count { no, count } = ym2149_pending_write_count(chip);
                format!("{no} {count}")
            }
            Call::Muted(channel) => {
                let Flag { no, yes } = ym2149_is_channel_muted(chip, channel as usize);
                format!("{no} {}", yes as u8)
            }
            Call::Outputs => {
                let Outputs { no, a, b, c } = ym2149_get_channel_outputs(chip);
                format!("{no} {} {} {}", bits(a), bits(b), bits(c))
            }
            Call::Word => {
                let Sample { no, word, ticks, changed, restarted } = ym2149_compute_next_sample(chip);
                // a refused word is 0: another one is shown, and so differs
                let words = if no == 0 || word != 0 { &[word][..] } else { &[] };
                rendered(no, ticks, Effects { changed, restarted }, words)
            }
            Call::Block(length) => {
                let mut out = vec![0; length];
                let Played { no, words, ticks, changed, restarted } = ym2149_block(chip, out.as_mut_ptr(), length);
                rendered(no, ticks, Effects { changed, restarted }, &out[..words])
            }
            Call::Waiting(_) | Call::Lent(_) | Call::Set(..) => unreachable!(),
        }
    }
}

fn one(Wrote { no, changed, restarted }: Wrote) -> String {
    format!("{no} {} {}", changed as u8, restarted as u8)
}

fn all(Counts { no, changed, restarted }: Counts) -> String {
    format!("{no} {changed} {restarted}")
}
