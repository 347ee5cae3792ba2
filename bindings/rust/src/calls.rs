//! The calls as the library exports them. include/ym2149.h says of each what it does, what it answers and when it refuses.
//!
//! A call is sound where `chip` is one record, made by `ym2149_new`, `ym2149_with_clocks` or `ym2149_with_variant` or all zeros, which
//! nobody else touches during the call, and `out` is `words` words that do not overlap it. A record may hold any values of its fields' types.

use crate::record::{Drum, Record, laid_out};
use core::mem::{offset_of, size_of};

#[repr(C)]
#[derive(Clone, Copy, Debug, PartialEq)]
pub struct Registers {
    pub bytes: [u8; 16],
}

#[repr(C)]
#[derive(Clone, Copy, Debug, PartialEq)]
pub struct Byte {
    pub no: u8,
    pub value: u8,
}

#[repr(C)]
#[derive(Clone, Copy, Debug, PartialEq)]
pub struct Bytes {
    pub no: u8,
    pub bytes: [u8; 16],
}

#[repr(C)]
#[derive(Clone, Copy, Debug, PartialEq)]
pub struct Cycle {
    pub no: u8,
    pub cycle: u64,
}

#[repr(C)]
#[derive(Clone, Copy, Debug, PartialEq)]
pub struct Count {
    pub no: u8,
    pub count: usize,
}

#[repr(C)]
#[derive(Clone, Copy, Debug, PartialEq)]
pub struct Flag {
    pub no: u8,
    pub yes: bool,
}

#[repr(C)]
#[derive(Clone, Copy, Debug, PartialEq)]
pub struct Outputs {
    pub no: u8,
    pub a: f32,
    pub b: f32,
    pub c: f32,
}

#[repr(C)]
#[derive(Clone, Copy, Debug, PartialEq)]
pub struct Wrote {
    pub no: u8,
    pub changed: bool,
    pub restarted: bool,
}

#[repr(C)]
#[derive(Clone, Copy, Debug, PartialEq)]
pub struct Counts {
    pub no: u8,
    pub changed: u32,
    pub restarted: u32,
}

#[repr(C)]
#[derive(Clone, Copy, Debug, PartialEq)]
pub struct Sample {
    pub no: u8,
    pub word: u16,
    pub ticks: u64,
    pub changed: u32,
    pub restarted: u32,
}

#[repr(C)]
#[derive(Clone, Copy, Debug, PartialEq)]
pub struct Played {
    pub no: u8,
    pub words: usize,
    pub ticks: u64,
    pub changed: u32,
    pub restarted: u32,
}

laid_out!(Registers, 16);
laid_out!(Byte, 2, value 1);
laid_out!(Bytes, 17, bytes 1);
laid_out!(Cycle, 16, cycle 8);
laid_out!(Count, 16, count 8);
laid_out!(Flag, 2, yes 1);
laid_out!(Outputs, 16, a 4, b 8, c 12);
laid_out!(Wrote, 3, changed 1, restarted 2);
laid_out!(Counts, 12, changed 4, restarted 8);
laid_out!(Sample, 24, word 2, ticks 8, changed 16, restarted 20);
laid_out!(Played, 32, words 8, ticks 16, changed 24, restarted 28);

unsafe extern "C" {
    pub fn ym2149_new(chip: *mut Record) -> u8;
    pub fn ym2149_with_clocks(chip: *mut Record, master: u32, rate: u32) -> u8;
    pub fn ym2149_with_variant(chip: *mut Record, master: u32, rate: u32, variant: u8) -> u8;

    pub fn ym2149_reset(chip: *mut Record) -> u8;
    pub fn ym2149_write_register(chip: *mut Record, register: u8, value: u8) -> Wrote;
    pub fn ym2149_load_registers(chip: *mut Record, registers: Registers) -> Counts;
    pub fn ym2149_write_port(chip: *mut Record, port: u8, value: u8) -> u8;
    pub fn ym2149_write_port_immediate(chip: *mut Record, port: u8, value: u8) -> Wrote;
    pub fn ym2149_set_cpu_cycle(chip: *mut Record, cycle: u64) -> u8;
    pub fn ym2149_sync_sample_cycle(chip: *mut Record, cycle: u64) -> u8;
    pub fn ym2149_flush_pending_writes(chip: *mut Record) -> Counts;
    pub fn ym2149_set_timer_irq_state(chip: *mut Record, on: bool) -> u8;
    pub fn ym2149_inside_timer_irq(chip: *mut Record, inside: bool) -> u8;
    pub fn ym2149_trigger_envelope(chip: *mut Record) -> u8;
    pub fn ym2149_set_channel_mute(chip: *mut Record, channel: usize, muted: bool) -> u8;
    pub fn ym2149_set_drum_sample_override(chip: *mut Record, channel: usize, drum: Drum) -> u8;

    pub fn ym2149_read_register(chip: *const Record, register: u8) -> Byte;
    pub fn ym2149_dump_registers(chip: *const Record) -> Bytes;
    pub fn ym2149_read_port(chip: *const Record, port: u8) -> Byte;
    pub fn ym2149_cpu_cycle(chip: *const Record) -> Cycle;
    pub fn ym2149_pending_write_count(chip: *const Record) -> Count;
    pub fn ym2149_is_channel_muted(chip: *const Record, channel: usize) -> Flag;
    pub fn ym2149_get_channel_outputs(chip: *const Record) -> Outputs;

    pub fn ym2149_compute_next_sample(chip: *mut Record) -> Sample;
    pub fn ym2149_block(chip: *mut Record, out: *mut u16, words: usize) -> Played;
}
