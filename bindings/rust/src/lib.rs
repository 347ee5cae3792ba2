//! The proved YM2149 for Rust on x86-64 Linux: `Chip`, whose calls answer what they promise or one of document 01's numbers.
//!
//! ```
//! use ym2149_proved::{Chip, Refusal};
//!
//! let mut chip = Chip::with_clocks(2_000_000, 250_000)?;
//! chip.load_registers([0x02, 0, 0, 0, 0, 0, 0, 0x3e, 0x0f, 0, 0, 0, 0, 0, 0, 0])?;
//! let mut out = [0; 4];
//! assert_eq!(chip.block(&mut out)?.ticks, 4);
//! assert_eq!(out, [9234, 100, 100, 9234]);
//! assert!(chip.write_register(8, 0x0e)?.changed && !chip.write_register(8, 0xee)?.changed);
//! assert_eq!(Chip::with_clocks(2_000_000, 250_001), Err(Refusal::RATE_TOO_HIGH));
//! # Ok::<(), Refusal>(())
//! ```
//!
//! `record` has the struct that the calls work on, `calls` the calls themselves as the library exports them, as include/ym2149.h has them for C.

#![no_std]

pub mod calls;
mod chip;
pub mod record;
mod refusal;

pub use chip::{Block, Chip, Effect, Effects, Word};
pub use record::Record;
pub use refusal::Refusal;
