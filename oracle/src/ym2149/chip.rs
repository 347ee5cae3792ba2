//! YM2149 PSG emulation
//!
//! Cycle accurate YM2149 emulation operating at the internal clock rate of
//! master_clock / 8 (250kHz at 2MHz). This matches the real hardware timing
//! where internal operations run at 1/8 of the master clock.
//!
//! # Register Write Timing
//!
//! The YM2149 runs at 2 MHz while the 68000 runs at 8 MHz. Register writes
//! are queued with CPU cycle timestamps and applied at the correct time
//! during sample generation. This ensures accurate timing for sync-buzzer
//! and other cycle-sensitive effects.

use std::collections::VecDeque;

use crate::generators::{EnvelopeGenerator, NUM_CHANNELS, NoiseGenerator, ToneGenerator};
use crate::mixer::Mixer;
use crate::tables::REG_MASK;

/// Default Atari ST master clock (2 MHz)
const DEFAULT_MASTER_CLOCK: u32 = 2_000_000;

/// Default audio sample rate (44.1 kHz)
const DEFAULT_SAMPLE_RATE: u32 = 44_100;

/// Number of YM2149 registers
const NUM_REGISTERS: usize = 14;

/// CPU cycles per YM2149 master clock cycle (8 MHz / 2 MHz = 4)
const CPU_CYCLES_PER_PSG_CYCLE: u64 = 4;

/// A pending register write with its CPU cycle timestamp
#[derive(Clone, Debug)]
struct PendingWrite {
    /// CPU cycle when the write occurred
    cpu_cycle: u64,
    /// Target register (0-13)
    register: u8,
    /// Value to write
    value: u8,
}

/// Simple PRNG for unpredictable power-on state
fn random_seed(seed: &mut u32) -> u16 {
    *seed = seed.wrapping_mul(214013).wrapping_add(2531011);
    ((*seed >> 16) & 0x7fff) as u16
}

/// YM2149 Programmable Sound Generator emulator
///
/// This emulator provides cycle-accurate reproduction of the Yamaha YM2149 PSG
/// as used in the Atari ST and other systems. It operates at the internal clock
/// rate (master_clock / 8) and averages output samples at the host sample rate.
///
/// # Features
///
/// - 3 tone channels with 12-bit period control
/// - 1 noise generator with 17-bit LFSR
/// - 1 envelope generator with 16 shapes (10 unique patterns)
/// - Configurable mixer for tone/noise routing
/// - DC offset removal filter
/// - DigiDrum sample injection support
///
/// # Example
///
/// ```
/// use ym2149::{Ym2149, Ym2149Backend};
///
/// let mut chip = Ym2149::new();
///
/// // Set up channel A: low period, max volume
/// chip.write_register(0, 0x00);  // Period low
/// chip.write_register(1, 0x01);  // Period high
/// chip.write_register(8, 0x0F);  // Volume
/// chip.write_register(7, 0x3E);  // Mixer: tone A on
///
/// // Generate audio
/// chip.clock();
/// let sample = chip.get_sample();
/// ```
#[derive(Clone)]
pub struct Ym2149 {
    // Clock and timing
    internal_clock: u32,
    sample_rate: u32,
    cycle_accumulator: u32,

    // Hardware registers
    registers: [u8; NUM_REGISTERS],
    selected_register: usize,

    // Generators
    tone_generators: [ToneGenerator; NUM_CHANNELS],
    noise_generator: NoiseGenerator,
    envelope_generator: EnvelopeGenerator,

    // Output processing
    mixer: Mixer,

    // Timer IRQ state (for sync-buzzer effects)
    in_timer_irq: bool,

    // Write queue for hardware-accurate timing
    write_queue: VecDeque<PendingWrite>,
    /// Current CPU cycle (set by emulator before each write)
    current_cpu_cycle: u64,
    /// CPU cycle when register was last selected
    last_select_cycle: u64,
    /// CPU cycles per audio sample (for queue processing)
    cpu_cycles_per_sample: u64,
    /// CPU cycle at start of current sample
    sample_start_cycle: u64,
    ticks: Ticks, // oracle
    effects: Effects, // oracle
}

impl Ym2149 {
    /// Create a new YM2149 with default Atari ST clocks
    ///
    /// Default configuration:
    /// - Master clock: 2 MHz
    /// - Sample rate: 44.1 kHz
    pub fn new() -> Self {
        Self::with_clocks(DEFAULT_MASTER_CLOCK, DEFAULT_SAMPLE_RATE)
    }

    /// Create a new YM2149 with custom clock frequencies
    ///
    /// # Arguments
    ///
    /// * `master_clock` - Master clock frequency in Hz (divided by 8 internally)
    /// * `sample_rate` - Audio output sample rate in Hz
    pub fn with_clocks(master_clock: u32, sample_rate: u32) -> Self {
        // CPU runs at 4x PSG master clock (8 MHz vs 2 MHz on Atari ST)
        let cpu_clock = master_clock * CPU_CYCLES_PER_PSG_CYCLE as u32;
        let cpu_cycles_per_sample = cpu_clock as u64 / sample_rate as u64;

        let mut chip = Self {
            internal_clock: master_clock / 8,
            sample_rate,
            cycle_accumulator: 0,
            registers: [0; NUM_REGISTERS],
            selected_register: 0,
            tone_generators: [
                ToneGenerator::new(),
                ToneGenerator::new(),
                ToneGenerator::new(),
            ],
            noise_generator: NoiseGenerator::new(),
            envelope_generator: EnvelopeGenerator::new(),
            mixer: Mixer::new(),
            in_timer_irq: false,
            write_queue: VecDeque::new(),
            current_cpu_cycle: 0,
            last_select_cycle: 0,
            cpu_cycles_per_sample,
            sample_start_cycle: 0,
            ticks: Ticks::default(), // oracle
            effects: Effects::default(), // oracle
        };
        chip.reset();
        chip
    }

    /// Reset the chip to initial state
    pub fn reset(&mut self) {
        // Randomize tone edge state (hardware behavior)
        let mut seed = 1u32;
        let random_edges = (random_seed(&mut seed) as u32 & ((1 << 10) | (1 << 5) | 1)) * 0x1f;

        for (i, tone) in self.tone_generators.iter_mut().enumerate() {
            tone.reset();
            // Set random edge bits for this channel
            tone.set_edge_bits(random_edges & (0x1f << (i * 5)));
        }

        self.noise_generator.reset();
        self.envelope_generator.reset();
        self.mixer.reset();

        // Initialize registers (R7 = 0x3F = all outputs disabled)
        self.registers = [0; NUM_REGISTERS];
        self.apply_register(7, 0x3F);

        self.selected_register = 0;
        self.cycle_accumulator = 0;
        self.in_timer_irq = false;

        // Clear write queue and timing state
        self.write_queue.clear();
        self.current_cpu_cycle = 0;
        self.last_select_cycle = 0;
        self.sample_start_cycle = 0;
    }

    /// Set the current CPU cycle for accurate write timing.
    ///
    /// Call this before each `write_port()` to enable hardware-accurate
    /// register write timing. The CPU cycle is used to queue writes and
    /// apply them at the correct time during sample generation.
    ///
    /// # Arguments
    ///
    /// * `cycle` - Current CPU cycle count (e.g., from 68000 emulator)
    ///
    /// # Example
    ///
    /// ```ignore
    /// // In your emulator's memory write handler:
    /// ym2149.set_cpu_cycle(cpu.total_cycles());
    /// ym2149.write_port(port, value);
    /// ```
    #[inline]
    pub fn set_cpu_cycle(&mut self, cycle: u64) {
        self.current_cpu_cycle = cycle;
    }

    /// Returns the current CPU cycle.
    #[inline]
    #[must_use]
    pub fn cpu_cycle(&self) -> u64 {
        self.current_cpu_cycle
    }

    /// Write to hardware port (mimics real hardware bus access)
    ///
    /// Register writes are queued with their CPU cycle timestamp and applied
    /// at the correct time during sample generation. This ensures accurate
    /// timing for sync-buzzer and other cycle-sensitive effects.
    ///
    /// # Arguments
    ///
    /// * `port` - Port number (bit 1: 0 = address, 1 = data)
    /// * `value` - Value to write
    ///
    /// # Timing
    ///
    /// - Port 0 ($FF8800): Register select - latches immediately
    /// - Port 2 ($FF8802): Data write - queued for cycle-accurate application
    ///
    /// Writes that occur too quickly after a register select (< 4 CPU cycles)
    /// are still queued but may not behave as expected on real hardware.
    pub fn write_port(&mut self, port: u8, value: u8) {
        if (port & 2) != 0 {
            // Data write - queue for later application
            self.write_queue.push_back(PendingWrite {
                cpu_cycle: self.current_cpu_cycle,
                register: self.selected_register as u8,
                value,
            });
        } else {
            // Register select - apply immediately
            self.selected_register = (value as usize) & 0x0F;
            self.last_select_cycle = self.current_cpu_cycle;
        }
    }

    /// Write to hardware port with immediate application (legacy behavior).
    ///
    /// This bypasses the write queue and applies the register immediately.
    /// Use this only when cycle-accurate timing is not required.
    pub fn write_port_immediate(&mut self, port: u8, value: u8) {
        if (port & 2) != 0 {
            self.apply_register(self.selected_register, value);
        } else {
            self.selected_register = (value as usize) & 0x0F;
        }
    }

    /// Process pending writes up to (and including) the given CPU cycle.
    ///
    /// Call this during sample generation to apply queued writes at the
    /// correct time.
    fn process_pending_writes(&mut self, up_to_cycle: u64) {
        while let Some(write) = self.write_queue.front() {
            if write.cpu_cycle <= up_to_cycle {
                let w = self.write_queue.pop_front().unwrap();
                self.apply_register(w.register as usize, w.value);
            } else {
                break;
            }
        }
    }

    /// Flush all pending writes immediately.
    ///
    /// Use this at frame boundaries or when resetting to ensure all
    /// queued writes are applied.
    pub fn flush_pending_writes(&mut self) {
        while let Some(write) = self.write_queue.pop_front() {
            self.apply_register(write.register as usize, write.value);
        }
    }

    /// Returns the number of pending writes in the queue.
    #[inline]
    #[must_use]
    pub fn pending_write_count(&self) -> usize {
        self.write_queue.len()
    }

    /// Read from hardware port
    ///
    /// # Arguments
    ///
    /// * `port` - Port number (bit 1: 0 = address, 1 = data)
    ///
    /// # Returns
    ///
    /// Register value or 0xFF for invalid reads
    #[must_use]
    pub fn read_port(&self, port: u8) -> u8 {
        if (port & 2) == 0 && self.selected_register < NUM_REGISTERS {
            self.registers[self.selected_register]
        } else {
            0xFF
        }
    }

    /// Write to a register
    ///
    /// # Arguments
    ///
    /// * `register` - Register number (0-13)
    /// * `value` - Value to write
    pub fn write_register(&mut self, register: u8, value: u8) {
        self.apply_register(register as usize, value);
    }

    /// Read from a register
    ///
    /// # Arguments
    ///
    /// * `register` - Register number (0-13)
    ///
    /// # Returns
    ///
    /// Current register value
    #[must_use]
    pub fn read_register(&self, register: u8) -> u8 {
        let reg = register as usize;
        if reg < NUM_REGISTERS {
            self.registers[reg]
        } else {
            0
        }
    }

    /// Apply a register write and update internal state
    fn apply_register(&mut self, register: usize, value: u8) {
        if register >= NUM_REGISTERS {
            return;
        }

        // Mask value to valid bits
        let value = value & REG_MASK[register];
        let before = self.registers[register]; // oracle
        self.registers[register] = value;
        self.effects.stored(before, self.registers[register]); // oracle

        match register {
            // Tone period registers (2 registers per channel)
            0..=5 => {
                let channel = register / 2;
                let period = self.read_tone_period(channel);
                self.tone_generators[channel].set_period(period);

                // Check for sync-buzzer effect
                if period <= 1 && self.in_timer_irq {
                    self.tone_generators[channel].mark_pending_reset();
                }
            }

            // Noise period
            6 => {
                self.noise_generator.set_period(value as u32);
            }

            // Mixer control
            7 => {
                self.mixer.config.set_from_register(value);
            }

            // Envelope period (R11/R12)
            11 | 12 => {
                let period = self.read_envelope_period();
                self.envelope_generator.set_period(period);
            }

            // Envelope shape (R13)
            13 => {
                self.envelope_generator.set_shape(value);
                self.effects.restart(); // oracle
            }

            _ => {}
        }
    }

    /// Read 12-bit tone period from register pair
    #[inline]
    fn read_tone_period(&self, channel: usize) -> u32 {
        let base = channel * 2;
        ((self.registers[base + 1] as u32) << 8) | (self.registers[base] as u32)
    }

    /// Read 16-bit envelope period from registers
    #[inline]
    fn read_envelope_period(&self) -> u32 {
        ((self.registers[12] as u32) << 8) | (self.registers[11] as u32)
    }

    /// Tick internal state machines at 250kHz rate
    ///
    /// Returns the combined gate mask for all channels.
    fn tick_generators(&mut self) -> u32 {
        self.ticks.count(); // oracle
        // Combine all tone edges
        let mut tone_edges = 0u32;
        for (i, tone) in self.tone_generators.iter_mut().enumerate() {
            tone_edges |= tone.tick(i as u32 * 5);
        }

        // Tick noise (runs at half rate internally)
        let noise_mask = self.noise_generator.tick();

        // Tick envelope
        self.envelope_generator.tick();

        // Compute combined gate mask
        self.mixer.config.compute_gate_mask(tone_edges, noise_mask)
    }

    /// Generate the next audio sample with cycle-accurate write processing.
    ///
    /// This method:
    /// 1. Processes any pending register writes that fall within this sample period
    /// 2. Runs the internal state machine at 250kHz
    /// 3. Averages the output to produce a sample at the host sample rate
    ///
    /// For accurate timing, call `set_cpu_cycle()` before each `write_port()` call,
    /// and ensure `sample_start_cycle` is updated between samples.
    pub fn compute_next_sample(&mut self) -> u16 {
        // Process any pending writes that should be applied before/during this sample
        let sample_end_cycle = self.sample_start_cycle + self.cpu_cycles_per_sample;
        self.process_pending_writes(sample_end_cycle);

        // Update sample start for next call
        self.sample_start_cycle = sample_end_cycle;

        // Accumulate gate mask over all internal ticks
        let mut accumulated_mask: u16 = 0;

        loop {
            accumulated_mask |= self.tick_generators() as u16;
            self.cycle_accumulator += self.sample_rate;
            if self.cycle_accumulator >= self.internal_clock {
                break;
            }
        }
        self.cycle_accumulator -= self.internal_clock;

        // Get envelope level
        let envelope_level = self.envelope_generator.level();

        // Build channel levels (gated and ungated for bipolar visualization)
        let volume_regs = [self.registers[8], self.registers[9], self.registers[10]];
        let (gated_levels, ungated_levels) =
            self.mixer
                .compute_levels(volume_regs, envelope_level, accumulated_mask as u32);

        // Compute individual channel outputs
        let mut total_output = 0u32;
        for channel in 0..NUM_CHANNELS {
            let level_index = (gated_levels >> (channel * 5)) & 0x1F;
            let ungated_level_index = (ungated_levels >> (channel * 5)) & 0x1F;
            let half_amplitude = self.tone_generators[channel].is_half_amplitude();
            total_output += self
                .mixer
                .compute_channel_output(channel, level_index, ungated_level_index, half_amplitude);
        }

        total_output as u16
    }

    /// Synchronize the sample start cycle with the CPU cycle.
    ///
    /// Call this at the start of emulation or after a reset to align
    /// the sample timing with the CPU.
    #[inline]
    pub fn sync_sample_cycle(&mut self, cpu_cycle: u64) {
        self.sample_start_cycle = cpu_cycle;
        self.current_cpu_cycle = cpu_cycle;
    }

    /// Signal entry/exit of timer IRQ handler
    ///
    /// This is used by sync-buzzer effects where the tone period is set to 0 or 1
    /// inside the IRQ to create sample-accurate waveforms. When exiting the IRQ,
    /// any pending edge resets are applied.
    pub fn set_timer_irq_state(&mut self, in_irq: bool) {
        if !in_irq {
            // Apply pending resets when exiting IRQ
            for (i, tone) in self.tone_generators.iter_mut().enumerate() {
                tone.apply_pending_reset(i as u32 * 5);
            }
        }
        self.in_timer_irq = in_irq;
    }

    /// Alias for set_timer_irq_state (legacy compatibility)
    #[inline]
    pub fn inside_timer_irq(&mut self, inside: bool) {
        self.set_timer_irq_state(inside);
    }
}

impl Default for Ym2149 {
    fn default() -> Self {
        Self::new()
    }
}

// =============================================================================
// Calls of the Ym2149Backend trait, as plain calls
// =============================================================================

impl Ym2149 {
    pub fn load_registers(&mut self, regs: &[u8; 16]) {
        for (i, &value) in regs.iter().take(NUM_REGISTERS).enumerate() {
            self.write_register(i as u8, value);
        }
    }

    pub fn dump_registers(&self) -> [u8; 16] {
        let mut out = [0u8; 16];
        out[..NUM_REGISTERS].copy_from_slice(&self.registers);
        out
    }

    pub fn get_channel_outputs(&self) -> (f32, f32, f32) {
        self.mixer.channel_outputs()
    }

    pub fn set_channel_mute(&mut self, channel: usize, mute: bool) {
        self.mixer.set_mute(channel, mute);
    }

    pub fn is_channel_muted(&self, channel: usize) -> bool {
        self.mixer.is_muted(channel)
    }

    pub fn trigger_envelope(&mut self) {
        self.envelope_generator.trigger();
    }

    pub fn set_drum_sample_override(&mut self, channel: usize, sample: Option<f32>) {
        self.mixer.set_drum_override(channel, sample);
    }
}

// =============================================================================
// Tests
// =============================================================================

// =============================================================================
// Oracle: views and setters of private fields, and the counters of ticks and of what writes did. Nothing above reads or calls them.
// =============================================================================

/// Ticks run since the chip was made. The plain build, which is timed, does not count them.
#[derive(Clone, Default)]
struct Ticks(u64);

impl Ticks {
    #[inline]
    fn count(&mut self) {
        if cfg!(not(feature = "plain")) {
            self.0 += 1;
        }
    }
}

/// What applied writes did since this was last taken (02, request 03). The plain build does not count it either.
#[derive(Clone, Copy, Debug, Default, PartialEq, Eq)]
pub struct Effects {
    /// How many changed the stored byte.
    pub changed: u32,
    /// How many restarted the envelope.
    pub restarted: u32,
}

impl Effects {
    #[inline]
    fn stored(&mut self, before: u8, after: u8) {
        if cfg!(not(feature = "plain")) {
            self.changed += (before != after) as u32;
        }
    }

    #[inline]
    fn restart(&mut self) {
        if cfg!(not(feature = "plain")) {
            self.restarted += 1;
        }
    }
}

impl Ym2149 {
    pub fn ticks(&self) -> u64 {
        self.ticks.0
    }

    /// They count from 0 again.
    pub fn take_effects(&mut self) -> Effects {
        std::mem::take(&mut self.effects)
    }

    /// Internal clock, sample rate, CPU cycles to a word.
    pub fn clocks(&self) -> (u32, u32, u64) {
        (self.internal_clock, self.sample_rate, self.cpu_cycles_per_sample)
    }

    pub fn accumulator(&self) -> u32 {
        self.cycle_accumulator
    }

    pub fn selection(&self) -> usize {
        self.selected_register
    }

    pub fn tones(&self) -> &[ToneGenerator; NUM_CHANNELS] {
        &self.tone_generators
    }

    pub fn noise(&self) -> &NoiseGenerator {
        &self.noise_generator
    }

    pub fn envelope(&self) -> &EnvelopeGenerator {
        &self.envelope_generator
    }

    pub fn mixer(&self) -> &Mixer {
        &self.mixer
    }

    pub fn irq(&self) -> bool {
        self.in_timer_irq
    }

    /// CPU cycle at which the next word starts.
    pub fn start(&self) -> u64 {
        self.sample_start_cycle
    }

    /// Stamp, register and value of a waiting write, 0 being the front.
    pub fn waiting(&self, place: usize) -> Option<(u64, u8, u8)> {
        let write = self.write_queue.get(place)?;
        Some((write.cpu_cycle, write.register, write.value))
    }

    pub fn set_clocks(&mut self, internal: u32, rate: u32, cycles: u64) {
        self.internal_clock = internal;
        self.sample_rate = rate;
        self.cpu_cycles_per_sample = cycles;
    }

    pub fn set_accumulator(&mut self, accumulator: u32) {
        self.cycle_accumulator = accumulator;
    }

    pub fn set_start(&mut self, start: u64) {
        self.sample_start_cycle = start;
    }

    pub fn set_stored(&mut self, register: usize, value: u8) {
        self.registers[register] = value;
    }

    pub fn set_selection(&mut self, register: usize) {
        self.selected_register = register;
    }

    pub fn tone_mut(&mut self, channel: usize) -> &mut ToneGenerator {
        &mut self.tone_generators[channel]
    }

    pub fn noise_mut(&mut self) -> &mut NoiseGenerator {
        &mut self.noise_generator
    }

    pub fn envelope_mut(&mut self) -> &mut EnvelopeGenerator {
        &mut self.envelope_generator
    }

    pub fn config_mut(&mut self) -> &mut crate::mixer::MixerConfig {
        &mut self.mixer.config
    }

    pub fn set_variant(&mut self, variant: u8) {
        self.mixer.set_variant(variant);
    }

    /// Stamp, register and value of each, front first.
    pub fn set_waiting(&mut self, writes: &[(u64, u8, u8)]) {
        let waiting = |&(cpu_cycle, register, value): &(u64, u8, u8)| PendingWrite { cpu_cycle, register, value };
        self.write_queue = writes.iter().map(waiting).collect();
    }
}
