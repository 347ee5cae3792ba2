//! Our side: the calls of the proved library, as a host makes them.

use crate::side::{MASTER, Side};
use ym2149_proved::Chip;

impl Side for Chip {
    fn loaded(variant: u8, rate: u32, registers: &[u8; 16]) -> Chip {
        let mut chip = Chip::with_variant(MASTER, rate, variant).unwrap();
        chip.load_registers(*registers).unwrap();
        chip
    }

    fn set_cycle(&mut self, cycle: u64) {
        self.set_cpu_cycle(cycle).unwrap();
    }

    fn select(&mut self, register: u8) {
        self.write_port(0, register).unwrap();
    }

    fn data(&mut self, value: u8) {
        self.write_port(2, value).unwrap();
    }

    fn data_at_once(&mut self, value: u8) {
        self.write_port_immediate(2, value).unwrap();
    }

    fn write_register(&mut self, register: u8, value: u8) {
        Chip::write_register(self, register, value).unwrap();
    }

    fn flush(&mut self) {
        self.flush_pending_writes().unwrap();
    }

    fn cycle(&self) -> u64 {
        self.cpu_cycle().unwrap()
    }

    fn waiting(&self) -> usize {
        self.pending_write_count().unwrap()
    }

    fn read_port(&self, port: u8) -> u8 {
        Chip::read_port(self, port).unwrap()
    }

    fn read_register(&self, register: u8) -> u8 {
        Chip::read_register(self, register).unwrap()
    }

    fn word(&mut self) -> u16 {
        self.compute_next_sample().unwrap().word
    }

    fn block(&mut self, out: &mut [u16]) {
        Chip::block(self, out).unwrap();
    }
}
