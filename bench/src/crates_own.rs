//! The crate's side: the same calls, and a block word by word, as it has none.

use crate::side::{MASTER, Side};
use oracle::chip::Ym2149;

// A call by itself stays a call, as ours is one into a library.
impl Side for Ym2149 {
    fn loaded(variant: u8, rate: u32, registers: &[u8; 16]) -> Ym2149 {
        assert_eq!(variant, 0, "the crate has no other part");
        let mut chip = Ym2149::with_clocks(MASTER, rate);
        chip.load_registers(registers);
        chip
    }

    #[inline(never)]
    fn set_cycle(&mut self, cycle: u64) {
        self.set_cpu_cycle(cycle);
    }

    #[inline(never)]
    fn select(&mut self, register: u8) {
        self.write_port(0, register);
    }

    #[inline(never)]
    fn data(&mut self, value: u8) {
        self.write_port(2, value);
    }

    #[inline(never)]
    fn data_at_once(&mut self, value: u8) {
        self.write_port_immediate(2, value);
    }

    #[inline(never)]
    fn write_register(&mut self, register: u8, value: u8) {
        Ym2149::write_register(self, register, value);
    }

    #[inline(never)]
    fn flush(&mut self) {
        self.flush_pending_writes();
    }

    #[inline(never)]
    fn cycle(&self) -> u64 {
        self.cpu_cycle()
    }

    #[inline(never)]
    fn waiting(&self) -> usize {
        self.pending_write_count()
    }

    #[inline(never)]
    fn read_port(&self, port: u8) -> u8 {
        Ym2149::read_port(self, port)
    }

    #[inline(never)]
    fn read_register(&self, register: u8) -> u8 {
        Ym2149::read_register(self, register)
    }

    #[inline(never)]
    fn word(&mut self) -> u16 {
        self.compute_next_sample()
    }

    fn block(&mut self, out: &mut [u16]) {
        for word in out {
            *word = self.compute_next_sample();
        }
    }
}
