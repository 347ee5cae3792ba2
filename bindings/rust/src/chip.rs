//! A chip that owns its record. Each call is 01's; a refused one changes nothing.

use crate::calls::*;
use crate::record::{Drum, Record};
use crate::refusal::Refusal;
use core::mem::MaybeUninit;

#[derive(Clone, Debug, PartialEq)]
pub struct Chip {
    record: Record,
}

/// Of one register write: whether the byte as it is stored changed, and whether the envelope restarted, which R13 does by the same byte too.
#[derive(Clone, Copy, Debug, Default, PartialEq, Eq)]
pub struct Effect {
    pub changed: bool,
    pub restarted: bool,
}

/// Of the writes that a call applied: how many changed a byte, each held to the one just before it, and how many restarted the envelope.
#[derive(Clone, Copy, Debug, Default, PartialEq, Eq)]
pub struct Effects {
    pub changed: u32,
    pub restarted: u32,
}

/// A word, the ticks run for it, and how many of the writes due in it changed a byte and restarted the envelope.
#[derive(Clone, Copy, Debug, PartialEq, Eq)]
pub struct Word {
    pub word: u16,
    pub ticks: u64,
    pub changed: u32,
    pub restarted: u32,
}

/// The ticks run for a block, and how many of the writes due in its words changed a byte and restarted the envelope.
#[derive(Clone, Copy, Debug, PartialEq, Eq)]
pub struct Block {
    pub ticks: u64,
    pub changed: u32,
    pub restarted: u32,
}

// Of every call below: the record is this chip's own, lent to it alone; a Rust bool holds 0 or 1; a slice is as long as it says.

/// Making.
impl Chip {
    /// Of variant 0 at the default clocks, 2,000,000 and 250,000: one tick to a word.
    pub fn new() -> Chip {
        let mut chip = Chip::unmade();
        unsafe { ym2149_new(&mut chip.record) };
        chip
    }

    /// Of variant 0. Refused, there is no chip: the fresh default chip that the call leaves is `Chip::new()`.
    pub fn with_clocks(master: u32, rate: u32) -> Result<Chip, Refusal> {
        let mut chip = Chip::unmade();
        let no = unsafe { ym2149_with_clocks(&mut chip.record, master, rate) };
        Refusal::unless(no, chip)
    }

    /// Of variant 0, the crate's; 1, whose fixed volume v uses level 2v + 1 for v from 1 to 15 and 0 for 0; or 2, where an envelope level
    /// is used with its lowest bit cleared. No later call changes it.
    pub fn with_variant(master: u32, rate: u32, variant: u8) -> Result<Chip, Refusal> {
        let mut chip = Chip::unmade();
        let no = unsafe { ym2149_with_variant(&mut chip.record, master, rate, variant) };
        Refusal::unless(no, chip)
    }

    /// Any record: a call on one that is out of range is refused.
    pub fn from_record(record: Record) -> Chip {
        Chip { record }
    }

    pub fn record(&self) -> &Record {
        &self.record
    }

    fn unmade() -> Chip {
        // zeros are a value of every field's type
        let record = unsafe { MaybeUninit::zeroed().assume_init() };
        Chip { record }
    }
}

impl Default for Chip {
    fn default() -> Chip {
        Chip::new()
    }
}

/// Calls that change the chip.
impl Chip {
    /// Keeps noise period, envelope period, mutes and each channel's last amplitude, and the variant.
    pub fn reset(&mut self) -> Result<(), Refusal> {
        done(unsafe { ym2149_reset(&mut self.record) })
    }

    /// At once. Registers 14 and up change nothing.
    pub fn write_register(&mut self, register: u8, value: u8) -> Result<Effect, Refusal> {
        one(unsafe { ym2149_write_register(&mut self.record, register, value) })
    }

    /// Writes bytes 0 to 13 in order, an R13 of ff too: only the dump player leaves that out.
    pub fn load_registers(&mut self, bytes: [u8; 16]) -> Result<Effects, Refusal> {
        all(unsafe { ym2149_load_registers(&mut self.record, Registers { bytes }) })
    }

    /// Port bit 1 clear selects at once; set, it queues the write with the current stamp and selected number.
    pub fn write_port(&mut self, port: u8, value: u8) -> Result<(), Refusal> {
        done(unsafe { ym2149_write_port(&mut self.record, port, value) })
    }

    /// Skips the queue. Selecting changes no stored byte.
    pub fn write_port_immediate(&mut self, port: u8, value: u8) -> Result<Effect, Refusal> {
        one(unsafe { ym2149_write_port_immediate(&mut self.record, port, value) })
    }

    /// Sets the stamp of later writes.
    pub fn set_cpu_cycle(&mut self, cycle: u64) -> Result<(), Refusal> {
        done(unsafe { ym2149_set_cpu_cycle(&mut self.record, cycle) })
    }

    /// Sets the stamp and the next word's start.
    pub fn sync_sample_cycle(&mut self, cycle: u64) -> Result<(), Refusal> {
        done(unsafe { ym2149_sync_sample_cycle(&mut self.record, cycle) })
    }

    /// Applies all waiting writes in order.
    pub fn flush_pending_writes(&mut self) -> Result<Effects, Refusal> {
        all(unsafe { ym2149_flush_pending_writes(&mut self.record) })
    }

    /// Setting the IRQ flag off flips each pending channel once, clears its counter, and unmarks it.
    pub fn set_timer_irq_state(&mut self, on: bool) -> Result<(), Refusal> {
        done(unsafe { ym2149_set_timer_irq_state(&mut self.record, on) })
    }

    /// The same call by its other name.
    pub fn inside_timer_irq(&mut self, inside: bool) -> Result<(), Refusal> {
        done(unsafe { ym2149_inside_timer_irq(&mut self.record, inside) })
    }

    /// Restarts at -64, counter 0, same shape.
    pub fn trigger_envelope(&mut self) -> Result<(), Refusal> {
        done(unsafe { ym2149_trigger_envelope(&mut self.record) })
    }

    pub fn set_channel_mute(&mut self, channel: usize, muted: bool) -> Result<(), Refusal> {
        done(unsafe { ym2149_set_channel_mute(&mut self.record, channel, muted) })
    }

    /// A sample level, or none for off.
    pub fn set_drum_sample_override(&mut self, channel: usize, sample: Option<f32>) -> Result<(), Refusal> {
        let drum = Drum { on: sample.is_some(), sample: sample.unwrap_or(0.0) };
        done(unsafe { ym2149_set_drum_sample_override(&mut self.record, channel, drum) })
    }
}

/// Calls that only read.
impl Chip {
    /// The stored byte; registers 14 and up give 0. Waiting writes are not visible.
    pub fn read_register(&self, register: u8) -> Result<u8, Refusal> {
        let read = unsafe { ym2149_read_register(&self.record, register) };
        Refusal::unless(read.no, read.value)
    }

    /// R0 to R13 as stored, and two zeros.
    pub fn dump_registers(&self) -> Result<[u8; 16], Refusal> {
        let dumped = unsafe { ym2149_dump_registers(&self.record) };
        Refusal::unless(dumped.no, dumped.bytes)
    }

    /// The stored byte if bit 1 is clear and the selection is below 14, else 0xFF.
    pub fn read_port(&self, port: u8) -> Result<u8, Refusal> {
        let read = unsafe { ym2149_read_port(&self.record, port) };
        Refusal::unless(read.no, read.value)
    }

    /// The stamp of later writes.
    pub fn cpu_cycle(&self) -> Result<u64, Refusal> {
        let at = unsafe { ym2149_cpu_cycle(&self.record) };
        Refusal::unless(at.no, at.cycle)
    }

    /// How many writes wait.
    pub fn pending_write_count(&self) -> Result<usize, Refusal> {
        let waiting = unsafe { ym2149_pending_write_count(&self.record) };
        Refusal::unless(waiting.no, waiting.count)
    }

    /// Asking it of channel 3 or above gives no.
    pub fn is_channel_muted(&self, channel: usize) -> Result<bool, Refusal> {
        let muted = unsafe { ym2149_is_channel_muted(&self.record, channel) };
        Refusal::unless(muted.no, muted.yes)
    }

    /// The last outputs of A, B and C.
    pub fn get_channel_outputs(&self) -> Result<[f32; 3], Refusal> {
        let last = unsafe { ym2149_get_channel_outputs(&self.record) };
        Refusal::unless(last.no, [last.a, last.b, last.c])
    }
}

/// Words.
impl Chip {
    /// A block of one.
    pub fn compute_next_sample(&mut self) -> Result<Word, Refusal> {
        let Sample { no, word, ticks, changed, restarted } = unsafe { ym2149_compute_next_sample(&mut self.record) };
        Refusal::unless(no, Word { word, ticks, changed, restarted })
    }

    /// Fills the whole of `out`; refused, `out` is as it was. An empty block is accepted and changes nothing.
    pub fn block(&mut self, out: &mut [u16]) -> Result<Block, Refusal> {
        let played = unsafe { ym2149_block(&mut self.record, out.as_mut_ptr(), out.len()) };
        let Played { no, ticks, changed, restarted, .. } = played;
        Refusal::unless(no, Block { ticks, changed, restarted })
    }
}

fn done(no: u8) -> Result<(), Refusal> {
    Refusal::unless(no, ())
}

fn one(wrote: Wrote) -> Result<Effect, Refusal> {
    Refusal::unless(wrote.no, Effect { changed: wrote.changed, restarted: wrote.restarted })
}

fn all(counts: Counts) -> Result<Effects, Refusal> {
    Refusal::unless(counts.no, Effects { changed: counts.changed, restarted: counts.restarted })
}
