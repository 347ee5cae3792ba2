//! The record that a host owns, field for field as the library has it. include/ym2149.h says what the fields hold.

use core::mem::{offset_of, size_of};

#[repr(C)]
#[derive(Clone, Copy, Debug, PartialEq)]
pub struct Clocks {
    pub master: u32,
    pub rate: u32,
    pub internal: u32,
    pub cycles: u64,
}

#[repr(C)]
#[derive(Clone, Copy, Debug, PartialEq)]
pub struct Tone {
    pub counter: u16,
    pub period: u16,
    pub edges: u32,
    pub pending: bool,
}

#[repr(C)]
#[derive(Clone, Copy, Debug, PartialEq)]
pub struct Noise {
    pub counter: u16,
    pub period: u8,
    pub register: u32,
    pub output: u32,
    pub half: bool,
}

#[repr(C)]
#[derive(Clone, Copy, Debug, PartialEq)]
pub struct Envelope {
    pub counter: u16,
    pub period: u16,
    pub position: i32,
    pub offset: u16,
}

#[repr(C)]
#[derive(Clone, Copy, Debug, PartialEq)]
pub struct Generators {
    pub a: Tone,
    pub b: Tone,
    pub c: Tone,
    pub noise: Noise,
    pub envelope: Envelope,
}

#[repr(C)]
#[derive(Clone, Copy, Debug, PartialEq)]
pub struct Gates {
    pub tone: u32,
    pub noise: u32,
}

#[repr(C)]
#[derive(Clone, Copy, Debug, PartialEq)]
pub struct Voice {
    pub registers: [u8; 14],
    pub generators: Generators,
    pub gates: Gates,
    pub irq: bool,
}

#[repr(C)]
#[derive(Clone, Copy, Debug, PartialEq)]
pub struct Drum {
    pub on: bool,
    pub sample: f32,
}

#[repr(C)]
#[derive(Clone, Copy, Debug, PartialEq)]
pub struct Channel {
    pub muted: bool,
    pub drum: Drum,
    pub output: f32,
    pub amplitude: f32,
}

#[repr(C)]
#[derive(Clone, Copy, Debug, PartialEq)]
pub struct Core {
    pub clocks: Clocks,
    pub voice: Voice,
    pub a: Channel,
    pub b: Channel,
    pub c: Channel,
    pub selected: u8,
    pub variant: u8,
    pub accumulator: u32,
    pub stamp: u64,
    pub start: u64,
}

#[repr(C)]
#[derive(Clone, Copy, Debug, PartialEq)]
pub struct Queue {
    pub stamps: [u64; 256],
    pub registers: [u8; 256],
    pub values: [u8; 256],
    pub head: usize,
    pub count: usize,
}

/// Equal field by field: a record that holds a NaN is equal to none.
#[repr(C)]
#[derive(Clone, Copy, Debug, PartialEq)]
pub struct Record {
    pub core: Core,
    pub queue: Queue,
}

/// Fails to compile where a size is another, or a field lies elsewhere.
macro_rules! laid_out {
    ($type:ty, $size:literal $(, $field:ident $at:literal)*) => {
        const _: () = assert!(size_of::<$type>() == $size $(&& offset_of!($type, $field) == $at)*);
    };
}
pub(crate) use laid_out;

laid_out!(Clocks, 24, rate 4, internal 8, cycles 16);
laid_out!(Tone, 12, period 2, edges 4, pending 8);
laid_out!(Noise, 16, period 2, register 4, output 8, half 12);
laid_out!(Envelope, 12, period 2, position 4, offset 8);
laid_out!(Generators, 64, b 12, c 24, noise 36, envelope 52);
laid_out!(Gates, 8, noise 4);
laid_out!(Voice, 92, generators 16, gates 80, irq 88);
laid_out!(Drum, 8, sample 4);
laid_out!(Channel, 20, drum 4, output 12, amplitude 16);
laid_out!(Core, 200, voice 24, a 116, b 136, c 156, selected 176, variant 177, accumulator 180, stamp 184, start 192);
laid_out!(Queue, 2576, registers 2048, values 2304, head 2560, count 2568);
laid_out!(Record, 2776, queue 200);
