//! `set` lines: a field about its limits, some calls on the record that it makes, and back where it is out of range.

use crate::draw::Draw;
use oracle::refusal::MASTER_MAX;
use oracle::ring::SLOTS;
use oracle::set::{FIELDS, Field};
use oracle::tables::REG_MASK;

/// Calls asked of a record out of range, at most.
const ASKED: u64 = 6;

impl Draw<'_> {
    pub fn set(&mut self) {
        if self.random.one_in(8) {
            return self.set_slot();
        }
        let (name, field, (least, most)) = self.random.pick(&FIELDS);
        let before = self.bench.held(field);
        let value = self.about(field).clamp(least, most);
        self.call(format!("set {name} {value}"));
        if self.bench.in_range() {
            return;
        }
        self.ask_of_it();
        match self.random.below(4) {
            0 => self.make(),
            _ => self.call(format!("set {name} {before}")),
        }
    }

    /// The register of any slot, which is then the last that waits, or among them, or the first that does not; and all of it back.
    fn set_slot(&mut self) {
        let count = self.bench.ring.count;
        let place = self.random.within(1, SLOTS);
        let among = self.random.within(place, SLOTS);
        let waiting = self.random.pick(&[place - 1, place, among, SLOTS]);
        let register = self.about(Field::WaitingRegister);
        self.call(format!("set count {place}"));
        let before = self.bench.ring.last_register();
        self.call(format!("set waiting_register {register}"));
        self.call(format!("set count {waiting}"));
        self.ask_of_it();
        self.call(format!("set count {place}"));
        self.call(format!("set waiting_register {before}"));
        self.call(format!("set count {count}"));
    }

    /// Some calls that leave the record as it is: of every kind where all are refused, and else of those that read.
    fn ask_of_it(&mut self) {
        for _ in 0..self.random.within(1, ASKED) {
            if self.bench.in_range() {
                self.read();
            } else {
                let line = self.any_call();
                self.call(line);
            }
        }
    }

    /// A value on either side of the field's limits, or anywhere.
    fn about(&mut self, field: Field) -> i128 {
        let held = self.bench.held(field);
        let rate = self.bench.held(Field::Rate);
        let internal = self.bench.held(Field::Internal);
        let accumulator = self.bench.held(Field::Accumulator);
        let any = self.random.next();
        let (wide, byte, pair, quad) = (any as i128, any as u8 as i128, any as u16 as i128, any as u32 as i128);
        match field {
            Field::Master => {
                let eighth = 8 * internal;
                let top = MASTER_MAX as i128;
                self.random.pick(&[eighth - 1, eighth, eighth + 3, eighth + 7, eighth + 8, top, top + 1, quad])
            }
            Field::Rate => {
                let near = self.random.pick(&[accumulator, accumulator + 1, internal, internal + 1]);
                self.random.pick(&[0, 1, rate - 1, rate + 1, near, near, quad])
            }
            Field::Internal => self.random.pick(&[0, held - 1, held, held + 1, quad]),
            Field::Cycles => self.random.pick(&[0, held - 1, held, held + 1, held + (1 << 32), wide]),
            Field::Variant => self.random.pick(&[0, 1, 2, 3, 255, byte]),
            Field::Accumulator => self.random.pick(&[0, rate - 1, rate, rate + 1, quad % rate, quad]),
            Field::Stamp | Field::Start => self.random.pick(&[held, held + 1, wide, wide >> 24]),
            Field::Stored(register) => {
                let mask = REG_MASK[register] as i128;
                self.random.pick(&[mask, mask + 1, byte & mask, byte, 255])
            }
            Field::Select | Field::WaitingRegister => self.random.pick(&[0, 14, 15, 16, byte % 16, byte, 255]),
            Field::ToneCounter(_) | Field::NoiseCounter => self.random.pick(&[0, 4_094, 4_095, 65_534, 65_535, pair]),
            Field::TonePeriod(_) => self.random.pick(&[0, 1, 4_095, 4_096, pair % 4_096, pair, 65_535]),
            Field::ToneEdges(channel) => {
                let bits = 0x1f << (5 * channel);
                self.random.pick(&[0, bits, quad & bits, bits << 1, bits | bits >> 1, bits | 0x8000, quad])
            }
            Field::NoisePeriod => self.random.pick(&[0, 1, 31, 32, byte % 32, 255]),
            Field::NoiseRegister => self.random.pick(&[0, 1, 131_071, 131_072, quad % 131_072, quad]),
            Field::NoiseOutput => self.random.pick(&[0, 1, 0xffff_fffe, 0xffff_ffff, 0xffff, quad]),
            Field::EnvelopeCounter | Field::EnvelopePeriod => self.random.pick(&[0, 1, 65_534, 65_535, pair]),
            Field::EnvelopePosition => {
                let end = self.random.pick(&[i32::MIN, i32::MAX]) as i128;
                self.random.pick(&[-65, -64, -1, 0, 62, 63, 64, byte % 128 - 64, quad - (1 << 31), end])
            }
            Field::EnvelopeOffset => {
                let row = 128 * (byte % 10);
                self.random.pick(&[row, row, row, 64, 1_151, 1_152, 1_153, 1_280, pair])
            }
            Field::GatesTone | Field::GatesNoise => self.random.pick(&[0, 0x7fff, 0x8000, pair & 0x7fff, quad]),
            Field::Head => self.random.pick(&[byte, byte, byte, byte, 255, 256, wide]),
            Field::Count => self.random.pick(&[0, 1, 255, 256, 256, 257, byte, byte, wide]),
        }
    }

    /// Every kind of call but the makings, of plain arguments.
    fn any_call(&mut self) -> String {
        let (byte, other) = (self.random.byte(), self.random.byte());
        let (register, on) = (byte % 16, byte % 2);
        let cycle = self.random.next();
        let channel = self.channel();
        let length = self.random.pick(&[0, 1, 2, 40, 65_536, 65_537]);
        let digits: String = (0..32).map(|_| format!("{:x}", self.random.below(16))).collect();
        match self.random.below(25) {
            0 => "reset".into(),
            1 => format!("write {register} {other}"),
            2 => format!("read {register}"),
            3 => format!("load {digits}"),
            4 => "dump".into(),
            5 => format!("port {byte} {other}"),
            6 => format!("port_now {byte} {other}"),
            7 => format!("read_port {byte}"),
            8 => format!("cycle {cycle}"),
            9 => "get_cycle".into(),
            10 => format!("sync {cycle}"),
            11 => "flush".into(),
            12 => "pending".into(),
            13 => format!("waiting {byte}"),
            14 => format!("irq {on}"),
            15 => format!("inside_irq {on}"),
            16 => "trigger".into(),
            17 => format!("mute {channel} {on}"),
            18 => format!("muted {channel}"),
            19 => format!("drum {channel} off"),
            20 => format!("drum {channel} {}", &digits[..8]),
            21 => "outputs".into(),
            22 => "word".into(),
            23 => format!("lent {on}"),
            _ => format!("block {length}"),
        }
    }

    /// A channel that there is, or one of those from 3 up to 2^64 - 1.
    pub fn channel(&mut self) -> u64 {
        match self.random.below(2) {
            0 => self.random.below(3),
            _ => self.no_channel(),
        }
    }

    /// Among them those that a narrower number would take for 0, 1 or 2.
    pub fn no_channel(&mut self) -> u64 {
        let low = self.random.below(3);
        let width = self.random.within(2, 63);
        let any = self.random.spread(u64::MAX / 2).max(3);
        let narrowed = low + self.random.pick(&[256, 65_536, 65_538, 1 << 32, 1 << width]);
        self.random.pick(&[3, 4, 255, narrowed, narrowed, any, u64::MAX])
    }
}
