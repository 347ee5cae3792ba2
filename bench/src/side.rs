//! One side: its chip, and the calls that a host makes on it.

pub const MASTER: u32 = 2_000_000;
/// As many writes as may wait (01, answer 4).
pub const RING: usize = 256;

/// Three tones, noise on A, a fixed volume on A, the envelope on B, a masked volume on C.
pub const BUSY: [u8; 16] = [0x1c, 0x01, 0x7b, 0x00, 0x05, 0x00, 0x07, 0x00, 0x0f, 0x10, 0x1c, 0x30, 0x00, 0x0e, 0, 0];
/// All off, as R7 stands in a new chip.
pub const SILENT: [u8; 16] = [0, 0, 0, 0, 0, 0, 0, 0x3f, 0, 0, 0, 0, 0, 0, 0, 0];

pub trait Side: Clone {
    /// A chip of a variant, of which the crate has 0 alone.
    fn loaded(variant: u8, rate: u32, registers: &[u8; 16]) -> Self;

    fn set_cycle(&mut self, cycle: u64);
    fn select(&mut self, register: u8);
    fn data(&mut self, value: u8);
    fn data_at_once(&mut self, value: u8);
    fn write_register(&mut self, register: u8, value: u8);
    fn flush(&mut self);

    fn cycle(&self) -> u64;
    fn waiting(&self) -> usize;
    fn read_port(&self, port: u8) -> u8;
    fn read_register(&self, register: u8) -> u8;

    fn word(&mut self) -> u16;
    fn block(&mut self, out: &mut [u16]);

    /// A write as a cabinet's processor makes it.
    fn queue(&mut self, cycle: u64, register: u8, value: u8) {
        self.set_cycle(cycle);
        self.select(register);
        self.data(value);
    }

    /// Fills the ring with writes to these registers in turn, `apart` cycles from one to the next.
    fn fill(&mut self, registers: &[u8], apart: u64) {
        for place in 0..RING {
            let register = registers[place % registers.len()];
            let turn = place / registers.len();
            self.queue((place as u64 + 1) * apart, register, value(register, turn));
        }
    }
}

/// The CPU's cycles in a word: writes that lie so far apart fall due one to a word.
pub fn cycles_of_a_word(rate: u32) -> u64 {
    (4 * MASTER / rate) as u64
}

/// Another value in each of a register's turns, of R13 another shape. The periods' high bytes stay low, so that tones and envelope move.
fn value(register: u8, turn: usize) -> u8 {
    match register {
        1 | 3 | 5 | 12 => (turn % 3) as u8,
        13 => 8 + (turn % 8) as u8,
        _ => (turn * 37) as u8,
    }
}

/// What a host sees of a chip, and the words that the chip would go on with.
#[derive(Debug, PartialEq)]
pub struct Seen {
    registers: [u8; 14],
    selected: u8,
    cycle: u64,
    waiting: usize,
    words: [u16; 8],
}

impl Seen {
    pub fn of<S: Side>(mut chip: S) -> Seen {
        let mut words = [0; 8];
        chip.block(&mut words);
        Seen {
            registers: std::array::from_fn(|register| chip.read_register(register as u8)),
            selected: chip.read_port(0),
            cycle: chip.cycle(),
            waiting: chip.waiting(),
            words,
        }
    }
}
