//! Audio mixer and output stage
//!
//! The mixer combines tone and noise signals according to register R7,
//! applies volume/envelope levels, and handles special effects like DigiDrum.

use crate::generators::NUM_CHANNELS;
use crate::tables::{MASKS, YM2149_LOG_LEVELS};

/// Maximum output level for normalization
pub const MAX_LEVEL: u32 = 10922;

/// Maximum amplitude for DigiDrum samples (Arkos Tracker 3 uses 0.0-4.0 range)
const DIGIDRUM_MAX_AMPLITUDE: f32 = 4.0;

/// Mixer configuration from register R7
#[derive(Clone, Debug, Default)]
pub struct MixerConfig {
    /// Tone enable mask (inverted in hardware: 0 = enabled)
    tone_mask: u32,
    /// Noise enable mask (inverted in hardware: 0 = enabled)
    noise_mask: u32,
}

impl MixerConfig {
    /// Update mixer config from register R7 value
    #[inline]
    pub fn set_from_register(&mut self, value: u8) {
        self.tone_mask = MASKS[(value & 0x07) as usize];
        self.noise_mask = MASKS[((value >> 3) & 0x07) as usize];
    }

    /// Get the combined gate mask for all channels
    #[inline]
    pub fn compute_gate_mask(&self, tone_edges: u32, noise_mask: u32) -> u32 {
        (tone_edges | self.tone_mask) & (noise_mask | self.noise_mask)
    }
}

/// Channel state for mixing
#[derive(Clone, Debug, Default)]
pub struct ChannelState {
    /// User mute flag
    pub muted: bool,
    /// DigiDrum sample override
    pub drum_override: Option<f32>,
    /// Last computed output level (bipolar: -1.0 to 1.0 for visualization)
    pub last_output: f32,
    /// Last ungated amplitude level (for bipolar computation)
    pub last_amplitude: f32,
}

/// Audio mixer and output stage
#[derive(Clone, Debug, Default)]
pub struct Mixer {
    /// Mixer configuration
    pub config: MixerConfig,
    /// Per-channel state
    pub channels: [ChannelState; NUM_CHANNELS],
    variant: u8, // oracle
}

impl Mixer {
    /// Create a new mixer
    pub fn new() -> Self {
        Self::default()
    }

    /// Compute channel levels from volume registers and envelope
    ///
    /// # Arguments
    ///
    /// * `volume_regs` - Volume registers R8, R9, R10
    /// * `envelope_level` - Current envelope level (0-31)
    /// * `gate_mask` - Combined tone/noise gate mask
    ///
    /// # Returns
    ///
    /// Tuple of (gated_levels, ungated_levels) - packed level values (5 bits per channel)
    #[inline]
    pub fn compute_levels(
        &self,
        volume_regs: [u8; 3],
        envelope_level: u32,
        gate_mask: u32,
    ) -> (u32, u32) {
        let mut levels: u32 = 0;

        for (i, &vol_reg) in volume_regs.iter().enumerate() {
            let level = if (vol_reg & 0x10) != 0 {
                // Envelope mode
                envelope_level
            } else {
                // Fixed volume (shift left to match envelope range)
                (vol_reg as u32) << 1
            };
            let level = self.used(vol_reg, level); // oracle
            levels |= level << (i * 5);
        }

        // Return both ungated and gated levels
        (levels & gate_mask, levels)
    }

    /// Compute final output for a channel
    ///
    /// # Arguments
    ///
    /// * `channel` - Channel index (0-2)
    /// * `level_index` - Gated level from compute_levels (0-31)
    /// * `ungated_level_index` - Ungated level (amplitude without gate)
    /// * `half_amplitude` - Whether to halve amplitude (period <= 1)
    ///
    /// # Returns
    ///
    /// Output level (0 to MAX_LEVEL)
    #[inline]
    pub fn compute_channel_output(
        &mut self,
        channel: usize,
        level_index: u32,
        ungated_level_index: u32,
        half_amplitude: bool,
    ) -> u32 {
        let state = &mut self.channels[channel];

        let output = if state.muted {
            0
        } else if let Some(drum_sample) = state.drum_override {
            // DigiDrum: scale sample to YM volume range (0 to MAX_LEVEL)
            ((drum_sample / DIGIDRUM_MAX_AMPLITUDE * MAX_LEVEL as f32) as u32).min(MAX_LEVEL)
        } else {
            let base_level = YM2149_LOG_LEVELS[level_index as usize];
            if half_amplitude {
                base_level >> 1
            } else {
                base_level
            }
        };

        // Compute bipolar output for visualization (-1.0 to 1.0)
        // Square wave oscillates around zero: HIGH = +1, LOW = -1
        if state.muted {
            state.last_output = 0.0;
            state.last_amplitude = 0.0;
        } else if state.drum_override.is_some() {
            // DigiDrum: already bipolar-ish, normalize to -1..1
            state.last_output = (output as f32 / MAX_LEVEL as f32) * 2.0 - 1.0;
            state.last_amplitude = 1.0;
        } else {
            // Get the ungated amplitude (what the level would be if gate was on)
            let ungated_output = YM2149_LOG_LEVELS[ungated_level_index as usize];
            let ungated_output = if half_amplitude {
                ungated_output >> 1
            } else {
                ungated_output
            };
            let amplitude = ungated_output as f32 / MAX_LEVEL as f32;
            state.last_amplitude = amplitude;

            // Bipolar with amplitude: show actual volume level, not just +1/-1
            // This creates a more "musical" waveform where quiet notes have smaller
            // deflections and loud notes have larger deflections
            if ungated_level_index > 0 {
                // Channel has signal - scale by amplitude
                let gate_on = level_index == ungated_level_index;
                state.last_output = if gate_on { amplitude } else { -amplitude };
            } else {
                // No signal (volume is 0)
                state.last_output = 0.0;
            }
        }

        output
    }

    /// Get the last output levels for all channels
    #[inline]
    pub fn channel_outputs(&self) -> (f32, f32, f32) {
        (
            self.channels[0].last_output,
            self.channels[1].last_output,
            self.channels[2].last_output,
        )
    }

    /// Set mute state for a channel
    #[inline]
    pub fn set_mute(&mut self, channel: usize, muted: bool) {
        if channel < NUM_CHANNELS {
            self.channels[channel].muted = muted;
        }
    }

    /// Check if channel is muted
    #[inline]
    pub fn is_muted(&self, channel: usize) -> bool {
        self.channels.get(channel).is_some_and(|c| c.muted)
    }

    /// Set drum sample override for a channel
    #[inline]
    pub fn set_drum_override(&mut self, channel: usize, sample: Option<f32>) {
        if channel < NUM_CHANNELS {
            self.channels[channel].drum_override = sample;
        }
    }

    /// Reset mixer state
    pub fn reset(&mut self) {
        self.config = MixerConfig::default();
        for channel in &mut self.channels {
            channel.drum_override = None;
            channel.last_output = 0.0;
            // Note: mute state preserved
        }
    }
}

// =============================================================================
// Oracle: a view of the private fields, and a setter. Nothing above reads or calls them. Last, the variant, which one line above asks.
// =============================================================================

impl MixerConfig {
    /// Tone mask, noise mask.
    pub fn view(&self) -> (u32, u32) {
        (self.tone_mask, self.noise_mask)
    }

    pub fn set_masks(&mut self, tone: u32, noise: u32) {
        self.tone_mask = tone;
        self.noise_mask = noise;
    }
}

/// 02, request 05. A new mixer is of variant 0, which is the crate's; of the others this is no longer the crate, but a second reading.
impl Mixer {
    pub fn variant(&self) -> u8 {
        self.variant
    }

    pub fn set_variant(&mut self, variant: u8) {
        self.variant = variant;
    }

    /// The level used in the place of the crate's. The plain build, which is timed, has the crate's alone.
    #[inline]
    fn used(&self, vol_reg: u8, level: u32) -> u32 {
        match (self.variant, vol_reg) {
            _ if cfg!(feature = "plain") => level,
            (1, 1..=15) => level + 1,
            (2, 16..) => level & !1,
            _ => level,
        }
    }
}
