//! Every call once or more through the linked library, on 01's cases where it gives some.

use std::mem::size_of;
use ym2149_proved::calls::*;
use ym2149_proved::{Block, Chip, Effect, Effects, Record, Refusal, Word};

const BUSY: [u8; 16] = [0x1c, 0xff, 0x7b, 0, 5, 0, 0xff, 0, 0x0f, 0x10, 0xff, 0x30, 0, 0xfe, 1, 2];

/// A chip by name, so that no answer below hangs on the default clocks.
fn chip() -> Chip {
    Chip::with_clocks(2_000_000, 44_100).unwrap()
}

fn waiting_256() -> Chip {
    let mut chip = chip();
    assert!((0..256).all(|_| chip.write_port(2, 1) == Ok(())));
    chip
}

/// A write that changed its byte, and did not restart the envelope.
const CHANGED: Result<Effect, Refusal> = one(true, false);

const fn one(changed: bool, restarted: bool) -> Result<Effect, Refusal> {
    Ok(Effect { changed, restarted })
}

const fn all(changed: u32, restarted: u32) -> Result<Effects, Refusal> {
    Ok(Effects { changed, restarted })
}

/// A block of so many ticks in which nothing was due.
const fn ticks(ticks: u64) -> Result<Block, Refusal> {
    Ok(Block { ticks, changed: 0, restarted: 0 })
}

/// A record that the host has changed.
fn with(change: fn(&mut Record)) -> Chip {
    let mut record = *chip().record();
    change(&mut record);
    Chip::from_record(record)
}

#[test]
fn default_clocks_take_a_tick_to_a_word() {
    let mut chip = Chip::new();
    let clocks = chip.record().core.clocks;
    assert_eq!((clocks.master, clocks.rate, clocks.internal, clocks.cycles), (2_000_000, 250_000, 250_000, 32));
    assert_eq!(chip.compute_next_sample(), Ok(Word { word: 75, ticks: 1, changed: 0, restarted: 0 }));
    assert_eq!(chip.block(&mut [0; 4]), ticks(4));
    assert_eq!((chip.record().core.accumulator, chip.record().core.start), (0, 160));
    assert_eq!(chip.reset(), Ok(()));
    assert_eq!((chip.record().core.clocks.rate, chip.record().core.start), (250_000, 0));
}

#[test]
fn clocks_of_44100_take_6_6_6_5_ticks() {
    let mut chip = chip();
    assert_eq!(chip.compute_next_sample(), Ok(Word { word: 75, ticks: 6, changed: 0, restarted: 0 }));
    assert_eq!([0; 3].map(|_| chip.compute_next_sample().unwrap().ticks), [6, 6, 5]);
    assert_eq!(chip.record().core.accumulator, 14_300);
    assert_eq!((chip.record().core.clocks.master, chip.record().core.clocks.rate), (2_000_000, 44_100));
}

#[test]
fn refused_clocks_give_their_number() {
    assert_eq!(Chip::with_clocks(1_073_741_824, 0), Err(Refusal::MASTER_TOO_HIGH));
    assert_eq!(Chip::with_clocks(2_000_000, 0), Err(Refusal::RATE_ZERO));
    assert_eq!(Chip::with_clocks(2_000_000, 250_001), Err(Refusal::RATE_TOO_HIGH));
    assert_eq!(Chip::with_clocks(7, 1), Err(Refusal::RATE_TOO_HIGH));
    assert!(Chip::with_clocks(1_073_741_823, 134_217_727).is_ok());
}

#[test]
fn refused_clocks_leave_a_fresh_default_chip() {
    for (master, rate, no) in [(1_073_741_824, 0, 1), (2_000_000, 0, 2), (2_000_000, 250_001, 3)] {
        let mut record = *chip().record();
        assert_eq!(unsafe { ym2149_with_clocks(&mut record, master, rate) }, no);
        assert_eq!(Chip::from_record(record), Chip::new());
    }
}

/// At 250,000; the words of 01's dump, and of an envelope that rises from level 1 on.
#[test]
fn a_variant_has_its_words() {
    for (variant, four, five) in [
        (0, [9_234, 100, 100, 9_234], [110, 121, 135, 151, 170]),
        (1, [10_972, 100, 100, 10_972], [110, 121, 135, 151, 170]),
        (2, [9_234, 100, 100, 9_234], [100, 121, 121, 151, 151]),
    ] {
        let mut chip = Chip::with_variant(2_000_000, 250_000, variant).unwrap();
        assert_eq!(chip.load_registers([0x02, 0, 0, 0, 0, 0, 0, 0x3e, 0x0f, 0, 0, 0, 0, 0, 0, 0]), all(3, 1));
        let mut out = [0; 4];
        assert_eq!((chip.block(&mut out), out), (ticks(4), four));
        assert_eq!((chip.reset(), chip.record().core.variant), (Ok(()), variant));
        assert_eq!(chip.load_registers([0x02, 0, 0, 0, 0, 0, 0, 0x3f, 0x1f, 0, 0, 0, 0, 0x0d, 0, 0]), all(3, 1));
        let mut out = [0; 5];
        assert_eq!((chip.block(&mut out), out), (ticks(5), five));
        assert_eq!(chip.record().core.variant, variant);
    }
}

#[test]
fn makings_without_a_variant_are_of_variant_0() {
    assert_eq!(Chip::with_clocks(2_000_000, 44_100), Chip::with_variant(2_000_000, 44_100, 0));
    assert_eq!((Chip::new().record().core.variant, chip().record().core.variant), (0, 0));
}

#[test]
fn refused_variants_give_13_after_1_2_and_3() {
    for variant in [3, 255] {
        assert_eq!(Chip::with_variant(2_000_000, 44_100, variant), Err(Refusal::NO_SUCH_VARIANT));
        assert_eq!(Chip::with_variant(1_073_741_824, 0, variant), Err(Refusal::MASTER_TOO_HIGH));
        assert_eq!(Chip::with_variant(2_000_000, 0, variant), Err(Refusal::RATE_ZERO));
        assert_eq!(Chip::with_variant(2_000_000, 250_001, variant), Err(Refusal::RATE_TOO_HIGH));
    }
    assert_eq!((Refusal::NO_SUCH_VARIANT.number(), Refusal::NO_SUCH_VARIANT.to_string().as_str()), (13, "variant above 2"));
    let refused = [(1_073_741_824, 0, 2, 1), (2_000_000, 0, 3, 2), (2_000_000, 250_001, 1, 3), (2_000_000, 44_100, 3, 13)];
    for (master, rate, variant, no) in refused {
        let mut record = *Chip::with_variant(2_000_000, 44_100, 2).unwrap().record();
        assert_eq!(unsafe { ym2149_with_variant(&mut record, master, rate, variant) }, no);
        assert_eq!(Chip::from_record(record), Chip::new());
    }
}

#[test]
fn bytes_are_masked_and_stored() {
    let mut chip = chip();
    assert_eq!(chip.load_registers(BUSY), all(11, 1));
    assert_eq!(chip.dump_registers(), Ok([0x1c, 0x0f, 0x7b, 0, 5, 0, 0x1f, 0, 0x0f, 0x10, 0x1f, 0x30, 0, 0x0e, 0, 0]));
    assert_eq!(chip.write_register(8, 0xff), CHANGED);
    assert_eq!((chip.read_register(8), chip.read_register(14)), (Ok(0x1f), Ok(0)));
    assert_eq!(chip.write_register(14, 1), one(false, false));
}

#[test]
fn a_data_write_waits_until_the_flush() {
    let mut chip = chip();
    assert_eq!(chip.write_port(0, 14), Ok(()));
    assert_eq!(chip.read_port(0), Ok(0xff));
    assert_eq!((chip.write_port(0, 8), chip.write_port(2, 9)), (Ok(()), Ok(())));
    assert_eq!((chip.pending_write_count(), chip.read_port(0)), (Ok(1), Ok(0)));
    assert_eq!(chip.flush_pending_writes(), all(1, 0));
    assert_eq!((chip.pending_write_count(), chip.read_port(0), chip.read_port(2)), (Ok(0), Ok(9), Ok(0xff)));
    assert_eq!(chip.write_port_immediate(2, 5), CHANGED);
    assert_eq!(chip.read_register(8), Ok(5));
}

/// 02, request 03: the byte as it is stored; R13 restarts by the same byte too; 14 and a selection do neither.
#[test]
fn a_write_says_what_it_changed() {
    let mut chip = chip();
    assert_eq!((chip.write_register(1, 0x0f), chip.write_register(1, 0xff)), (one(true, false), one(false, false)));
    assert_eq!((chip.write_register(13, 0), chip.write_register(13, 9)), (one(false, true), one(true, true)));
    assert_eq!((chip.write_register(14, 1), chip.write_register(255, 1)), (one(false, false), one(false, false)));
    assert_eq!((chip.write_port_immediate(0, 13), chip.write_port_immediate(2, 9)), (one(false, false), one(false, true)));
    assert_eq!((chip.load_registers([1; 16]), chip.load_registers([1; 16])), (all(14, 1), all(0, 1)));
}

fn queue(chip: &mut Chip, stamp: u64, register: u8, values: &[u8]) {
    assert_eq!((chip.set_cpu_cycle(stamp), chip.write_port(0, register)), (Ok(()), Ok(())));
    assert!(values.iter().all(|value| chip.write_port(2, *value) == Ok(())));
}

/// R8 is 5; 5, 6, 5: by a flush, by a word, and by three words of a block, with R13 and R14 among them. A word is 181 cycles.
#[test]
fn a_call_counts_what_its_writes_changed() {
    let mut chip = chip();
    assert_eq!(chip.write_register(8, 5), CHANGED);
    queue(&mut chip, 0, 8, &[5, 6, 5]);
    assert_eq!((chip.flush_pending_writes(), chip.flush_pending_writes()), (all(2, 0), all(0, 0)));
    queue(&mut chip, 181, 8, &[5, 6, 5]);
    let word = chip.compute_next_sample().unwrap();
    assert_eq!((word.changed, word.restarted), (2, 0));
    for (stamp, register, value) in [(362, 8, 5), (363, 8, 6), (543, 13, 0), (543, 14, 9), (724, 8, 5), (724, 13, 2), (725, 13, 3)] {
        queue(&mut chip, stamp, register, &[value]);
    }
    assert_eq!(chip.block(&mut []), ticks(0));
    assert_eq!(chip.block(&mut vec![0; 65_537]), Err(Refusal::BLOCK_TOO_LONG));
    let block = chip.block(&mut [0; 3]).unwrap();
    assert_eq!((block.changed, block.restarted, chip.pending_write_count()), (3, 2, Ok(1)));
    assert_eq!((chip.reset(), chip.flush_pending_writes()), (Ok(()), all(0, 0)));
}

#[test]
fn write_257_is_refused() {
    let mut chip = waiting_256();
    assert_eq!(chip.write_port(2, 1), Err(Refusal::QUEUE_FULL));
    assert_eq!(chip.pending_write_count(), Ok(256));
}

#[test]
fn stamps_500_then_100() {
    let mut chip = chip();
    for (stamp, register) in [(500, 8), (100, 9)] {
        assert_eq!(chip.set_cpu_cycle(stamp), Ok(()));
        assert_eq!(chip.cpu_cycle(), Ok(stamp));
        assert_eq!((chip.write_port(0, register), chip.write_port(2, 7)), (Ok(()), Ok(())));
    }
    assert_eq!([0; 3].map(|_| (chip.compute_next_sample().is_ok(), chip.pending_write_count())), [(true, Ok(2)), (true, Ok(2)), (true, Ok(0))]);
    assert_eq!(chip.record().core.start, 543);
}

#[test]
fn the_irq_ends_and_a_pending_channel_flips() {
    let mut chip = chip();
    let edges = chip.record().core.voice.generators.b.edges;
    assert_eq!((chip.set_timer_irq_state(true), chip.write_register(2, 1)), (Ok(()), CHANGED));
    assert!(chip.record().core.voice.irq && chip.record().core.voice.generators.b.pending);
    assert_eq!(chip.inside_timer_irq(false), Ok(()));
    assert_eq!(chip.record().core.voice.generators.b.edges, edges ^ 0x3e0);
}

#[test]
fn the_envelope_restarts_at_minus_64() {
    let mut chip = chip();
    assert_eq!(chip.record().core.voice.generators.envelope.position, 0);
    assert_eq!(chip.trigger_envelope(), Ok(()));
    assert_eq!(chip.record().core.voice.generators.envelope.position, -64);
}

#[test]
fn drums_and_mutes() {
    let mut chip = chip();
    assert_eq!((chip.set_channel_mute(1, true), chip.set_channel_mute(2, true)), (Ok(()), Ok(())));
    assert_eq!([0, 1, 2, 3, usize::MAX].map(|channel| chip.is_channel_muted(channel)), [Ok(false), Ok(true), Ok(true), Ok(false), Ok(false)]);
    assert_eq!(chip.set_drum_sample_override(0, Some(1.0)), Ok(()));
    assert_eq!(chip.compute_next_sample().map(|word| word.word), Ok(2730));
    assert_eq!(chip.set_drum_sample_override(0, Some(8.0)), Ok(()));
    assert_eq!(chip.compute_next_sample().map(|word| word.word), Ok(10_922));
    assert_eq!(chip.get_channel_outputs(), Ok([1.0, 0.0, 0.0]));
    assert_eq!(chip.set_drum_sample_override(0, None), Ok(()));
    assert_eq!(chip.compute_next_sample().map(|word| word.word), Ok(25));
    assert_eq!(chip.set_channel_mute(3, false), Err(Refusal::NO_SUCH_CHANNEL));
    assert_eq!(chip.set_drum_sample_override(usize::MAX, None), Err(Refusal::NO_SUCH_CHANNEL));
}

#[test]
fn reset_keeps_mutes_and_the_noise_period() {
    let mut chip = chip();
    assert_eq!((chip.set_channel_mute(2, true), chip.write_register(6, 31)), (Ok(()), CHANGED));
    assert_eq!(chip.reset(), Ok(()));
    assert_eq!((chip.is_channel_muted(2), chip.read_register(6), chip.read_register(7)), (Ok(true), Ok(0), Ok(0x3f)));
    assert_eq!(chip.record().core.voice.generators.noise.period, 31);
}

#[test]
fn blocks_and_their_limits() {
    let mut chip = Chip::with_clocks(2_000_000, 250_000).unwrap();
    let before = chip.clone();
    assert_eq!(chip.block(&mut []), ticks(0));
    assert_eq!(chip, before);
    assert_eq!(chip.block(&mut vec![0; 65_536]), ticks(65_536));
    assert_eq!(chip.block(&mut vec![0; 65_537]), Err(Refusal::BLOCK_TOO_LONG));
    assert_eq!(chip.sync_sample_cycle(u64::MAX - 63), Ok(()));
    assert_eq!(chip.block(&mut [0; 2]), Err(Refusal::BLOCK_TOO_LATE));
    assert_eq!(chip.block(&mut [0; 1]), ticks(1));
    assert_eq!(chip.compute_next_sample(), Err(Refusal::BLOCK_TOO_LATE));
}

#[test]
fn a_selection_out_of_range_is_refused_by_every_call() {
    refused_by_every_call(with(|record| record.core.selected = 16));
}

#[test]
fn a_variant_above_2_is_refused_by_every_call() {
    refused_by_every_call(with(|record| record.core.variant = 3));
    refused_by_every_call(with(|record| record.core.variant = 255));
    assert_eq!(with(|record| record.core.variant = 2).reset(), Ok(()));
}

fn refused_by_every_call(mut chip: Chip) {
    let before = chip.clone();
    let bad = Refusal::OUT_OF_RANGE;
    assert_eq!((chip.reset(), chip.write_register(8, 1), chip.load_registers(BUSY)), (Err(bad), Err(bad), Err(bad)));
    assert_eq!((chip.write_port(0, 1), chip.write_port_immediate(2, 1), chip.flush_pending_writes()), (Err(bad), Err(bad), Err(bad)));
    assert_eq!((chip.set_cpu_cycle(1), chip.sync_sample_cycle(1), chip.trigger_envelope()), (Err(bad), Err(bad), Err(bad)));
    assert_eq!((chip.set_timer_irq_state(true), chip.inside_timer_irq(true)), (Err(bad), Err(bad)));
    assert_eq!((chip.set_channel_mute(3, true), chip.set_drum_sample_override(3, Some(1.0))), (Err(bad), Err(bad)));
    assert_eq!((chip.read_register(8), chip.read_port(0), chip.dump_registers()), (Err(bad), Err(bad), Err(bad)));
    assert_eq!((chip.cpu_cycle(), chip.pending_write_count(), chip.is_channel_muted(0)), (Err(bad), Err(bad), Err(bad)));
    assert_eq!((chip.get_channel_outputs(), chip.compute_next_sample(), chip.block(&mut [7; 4])), (Err(bad), Err(bad), Err(bad)));
    assert_eq!(chip, before);
}

#[test]
fn a_record_of_zeros_is_out_of_range() {
    let mut room = Room([0; ROOM]);
    assert_eq!(unsafe { ym2149_reset(room.record()) }, 22);
    assert!(room.0.iter().all(|&part| part == 0));
}

/// A record's bytes, those between the fields too.
const ROOM: usize = size_of::<Record>() / 8;

#[derive(Clone, PartialEq)]
struct Room([u64; ROOM]);

impl Room {
    fn record(&mut self) -> *mut Record {
        self.0.as_mut_ptr().cast()
    }

    /// A new chip with a mark of the host's between some fields: of the clocks, before the generators, of tone A, of channel A, behind the
    /// variant.
    fn marked() -> Room {
        let mut room = Room([0; ROOM]);
        assert_eq!(unsafe { ym2149_with_clocks(room.record(), 2_000_000, 44_100) }, 0);
        for gap in [12, 38, 49, 117, 178] {
            unsafe { *room.record().cast::<u8>().add(gap) = 0xa5 };
        }
        room
    }
}

#[test]
fn a_refused_call_changes_no_byte() {
    let mut room = Room::marked();
    let before = room.clone();
    assert_eq!(unsafe { ym2149_set_channel_mute(room.record(), 3, true) }, 7);
    assert!(room == before);
    refused_block(&mut room, 65_537, 5);
    unsafe { (*room.record()).core.selected = 16 };
    let before = room.clone();
    let nothing = Counts { no: 22, changed: 0, restarted: 0 };
    let (neither, registers) = (Wrote { no: 22, changed: false, restarted: false }, Registers { bytes: BUSY });
    assert_eq!(unsafe { ym2149_write_register(room.record(), 13, 1) }, neither);
    assert_eq!(unsafe { ym2149_write_port_immediate(room.record(), 2, 1) }, neither);
    assert_eq!(unsafe { ym2149_load_registers(room.record(), registers) }, nothing);
    assert_eq!(unsafe { ym2149_flush_pending_writes(room.record()) }, nothing);
    let silence = Sample { no: 22, word: 0, ticks: 0, changed: 0, restarted: 0 };
    assert_eq!(unsafe { ym2149_compute_next_sample(room.record()) }, silence);
    assert!(room == before);
    refused_block(&mut room, 4, 22);
}

fn refused_block(room: &mut Room, words: usize, no: u8) {
    let (before, mut out) = (room.clone(), vec![7; words]);
    let played = unsafe { ym2149_block(room.record(), out.as_mut_ptr(), words) };
    assert_eq!(played, Played { no, words: 0, ticks: 0, changed: 0, restarted: 0 });
    assert!(*room == before && out.iter().all(|&word| word == 7));
}
