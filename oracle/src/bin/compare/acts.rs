//! The calls that a script is made of, with arguments that aim at 01's limits.

use crate::draw::Draw;
use oracle::refusal::{self, ACCEPTED, BLOCK_MAX, QUEUE_MAX};

impl Draw<'_> {
    // ---- registers ----

    pub fn value(&mut self, register: u8) -> u8 {
        let any = self.random.byte();
        match register {
            0 | 2 | 4 => self.random.pick(&[0, 1, 2, 3, 5, 255, any, any]),
            1 | 3 | 5 => self.random.pick(&[0, 0, 0, 0, 1, 16, 255, any]),
            6 => self.random.pick(&[0, 1, 2, 31, 32, 33, any, any]),
            7 => self.random.pick(&[0, 7, 56, 62, 63, 128, any, any, any, any]),
            8..=10 => self.random.pick(&[0, 1, 15, 16, 31, 32, any, any, any]),
            11 => self.random.pick(&[0, 1, 2, 3, 255, any]),
            12 => self.random.pick(&[0, 0, 0, 0, 0, 1, any]),
            _ => any,
        }
    }

    pub fn register(&mut self) {
        let register = self.some_register();
        let value = self.value(register);
        self.call(format!("write {register} {value}"));
    }

    fn some_register(&mut self) -> u8 {
        let ignored = self.random.within(14, 255) as u8;
        let ignored = self.random.pick(&[14, 15, 16, ignored]);
        if self.random.one_in(24) { ignored } else { self.random.below(14) as u8 }
    }

    /// A tone period about 1, by a call, a port or the queue.
    pub fn low(&mut self) {
        let register = self.random.below(6) as u8;
        let value = self.low_value(register);
        match self.random.below(4) {
            way @ 0..=1 => self.by_ports(["port", "port_now"][way as usize], register, value),
            _ => self.call(format!("write {register} {value}")),
        }
    }

    /// A byte of a tone period about 1.
    pub fn low_value(&mut self, register: u8) -> u8 {
        let (even, odd) = (self.random.pick(&[0, 0, 1, 1, 2, 255]), self.random.pick(&[0, 0, 0, 16, 1]));
        if register % 2 == 0 { even } else { odd }
    }

    pub fn shape(&mut self) {
        let (register, value) = self.of_shape();
        self.call(format!("write {register} {value}"));
    }

    /// Registers of the envelope, and channels that follow it.
    pub fn of_shape(&mut self) -> (u8, u8) {
        let register = self.random.pick(&[8, 9, 10, 11, 11, 12, 13, 13, 13]);
        let value = if register < 11 { self.random.within(16, 31) as u8 } else { self.value(register) };
        (register, value)
    }

    pub fn load(&mut self) {
        let digits: String = (0..16).map(|register| format!("{:02x}", self.value(register))).collect();
        self.call(format!("load {digits}"));
    }

    // ---- ports and queue ----

    /// A port with bit 1 clear, which selects.
    fn selecting(&mut self) -> u8 {
        if self.random.one_in(2) { 0 } else { self.random.byte() & !2 }
    }

    /// A port with bit 1 set, which writes.
    fn writing(&mut self) -> u8 {
        if self.random.one_in(2) { 2 } else { self.random.byte() | 2 }
    }

    /// A register's number, and then its value.
    pub fn by_ports(&mut self, name: &str, register: u8, value: u8) {
        let (selecting, writing) = (self.selecting(), self.writing());
        self.call(format!("{name} {selecting} {register}"));
        self.call(format!("{name} {writing} {value}"));
    }

    pub fn data(&mut self) {
        if self.random.one_in(2) {
            self.stamped("cycle");
        }
        if self.random.one_in(2) {
            self.select("port");
        }
        let port = self.writing();
        let value = self.value(self.bench.chip.selection() as u8);
        self.call(format!("port {port} {value}"));
    }

    pub fn now(&mut self) {
        if self.random.one_in(2) {
            self.select("port_now");
        }
        let port = self.writing();
        let value = self.value(self.bench.chip.selection() as u8);
        self.call(format!("port_now {port} {value}"));
    }

    fn select(&mut self, name: &str) {
        let port = self.selecting();
        let register = if self.random.one_in(12) { self.random.byte() } else { self.random.below(16) as u8 };
        self.call(format!("{name} {port} {register}"));
    }

    /// Brings the queue to 255 or 256 writes, and asks for up to two more, which are refused.
    pub fn fill(&mut self) {
        let wanted = QUEUE_MAX - 1 + self.random.below(4) as usize;
        let mut asked = self.bench.chip.pending_write_count();
        while asked < wanted {
            match self.random.below(6) {
                0 => self.stamped("cycle"),
                1 => self.select("port"),
                _ => {}
            }
            let port = self.writing();
            let value = self.value(self.bench.chip.selection() as u8);
            self.call(format!("port {port} {value}"));
            asked += 1;
        }
    }

    /// A full queue of which each word takes a few writes, so that the ring turns and stays full.
    pub fn turn(&mut self) {
        let (_, _, cycles) = self.bench.chip.clocks();
        let (each, turns) = (self.random.pick(&[1, 1, 1, 2, 4]), self.random.within(1, 256));
        if !self.has_time_for(turns) {
            return;
        }
        self.call("flush".into());
        let mut end = self.bench.chip.start();
        for _ in 0..QUEUE_MAX as u64 / each {
            end += cycles;
            self.due(end, each);
        }
        for _ in 0..turns {
            self.call("word".into());
            end += cycles;
            let room = QUEUE_MAX - self.bench.chip.pending_write_count();
            self.due(end, room as u64);
        }
    }

    /// Writes stamped at a word's end, one before or one after it; one more than fits now and then.
    fn due(&mut self, end: u64, writes: u64) {
        let stamp = self.random.pick(&[end, end, end - 1, end.saturating_add(1)]);
        self.call(format!("cycle {stamp}"));
        let more = self.random.one_in(16) as u64;
        for _ in 0..writes + more {
            let port = self.writing();
            let value = self.random.byte();
            self.call(format!("port {port} {value}"));
        }
    }

    /// A cycle at, just before or just after the end of a word to come, or anywhere.
    pub fn stamped(&mut self, name: &str) {
        let (_, _, cycles) = self.bench.chip.clocks();
        let start = self.bench.chip.start();
        let words = self.random.spread(40).wrapping_mul(cycles);
        let near = self.random.below(3).wrapping_sub(1);
        let any = self.random.next();
        let low = self.random.spread(1 << 40);
        let cycle = match self.random.below(12) {
            0..=5 => start.wrapping_add(words).wrapping_add(near),
            6 => start.wrapping_add(near),
            7 => start.wrapping_sub(words),
            8 => self.bench.chip.cpu_cycle().wrapping_add(near),
            9 => low,
            10 => self.random.pick(&[0, 1, u64::MAX, u64::MAX - 1, any]),
            _ => start.wrapping_add(cycles),
        };
        self.call(format!("{name} {cycle}"));
    }

    /// A start from which only some words still fit below 2^64.
    pub fn end(&mut self) {
        let (_, _, cycles) = self.bench.chip.clocks();
        let words = self.random.pick(&[0, 1, 2, 31, 32, 33, 65_535, 65_536, 65_537]);
        let near = self.random.below(3);
        let start = u64::MAX.wrapping_sub(words * cycles).wrapping_add(near).wrapping_sub(1);
        self.call(format!("sync {start}"));
    }

    // ---- effects ----

    pub fn irq(&mut self) {
        let name = self.random.pick(&["irq", "irq", "inside_irq"]);
        let on = self.random.below(2);
        self.call(format!("{name} {on}"));
    }

    pub fn mute(&mut self) {
        let channel = if self.random.one_in(12) { self.no_channel() } else { self.random.below(3) };
        let on = self.random.below(2);
        self.call(format!("mute {channel} {on}"));
    }

    pub fn drum(&mut self) {
        let channel = self.random.below(3);
        if self.random.one_in(5) {
            return self.call(format!("drum {channel} off"));
        }
        let bits = self.sample();
        self.call(format!("drum {channel} {bits:08x}"));
    }

    /// Every kind of f32, more than half of them where the cut to a level is close.
    fn sample(&mut self) -> u32 {
        let payload = self.random.next() as u32;
        let sign = payload & 0x8000_0000;
        match self.random.below(24) {
            0 => sign | 0x7f80_0001 | payload & 0x007f_ffff,
            1 => sign | 0x7f80_0000,
            2 => sign,
            3 => sign | payload & 0x007f_ffff,
            4 => payload,
            5 => self.random.pick(&[1.0f32, 4.0, 8.0, 0.5, 3.999_999_8, 4.000_000_5, -1.0, -8.0, f32::MAX]).to_bits(),
            6 => (payload as f32 / u32::MAX as f32 * 5.0).to_bits(),
            _ => {
                let level = self.random.within(0, 10_923) as f64 + self.random.pick(&[0.0, 0.0, 0.0, 0.5]);
                let close = (level * 4.0 / 10_922.0) as f32;
                close.to_bits().wrapping_add(self.random.below(7) as u32).wrapping_sub(3)
            }
        }
    }

    // ---- words ----

    pub fn ticks_a_word(&self) -> u64 {
        let (internal, rate, _) = self.bench.chip.clocks();
        (internal / rate) as u64 + 1
    }

    /// Words that the budget allows. A clock that is too slow for it gets one now and then all the same.
    fn room(&mut self) -> u64 {
        let ticks = self.ticks_a_word();
        let room = self.budget / ticks;
        if room == 0 && self.random.one_in(2 + ticks / 30_000) { 1 } else { room }
    }

    /// Ticks for so many words, and cycles for those and a full queue's behind them.
    pub fn has_time_for(&self, words: u64) -> bool {
        let (_, _, cycles) = self.bench.chip.clocks();
        let far = (QUEUE_MAX as u64 + words).saturating_mul(cycles);
        self.bench.chip.start().checked_add(far).is_some() && self.ticks_a_word() * words <= self.budget
    }

    /// A block to be refused: a wrong side that renders it should come to its end.
    fn bearable(&self, length: u64) -> bool {
        length * self.ticks_a_word() < 1 << 22
    }

    pub fn word(&mut self) {
        let (_, _, cycles) = self.bench.chip.clocks();
        let refused = self.bench.chip.start() > u64::MAX - cycles;
        if refused || self.room() > 0 {
            self.call("word".into());
        }
    }

    pub fn block(&mut self) {
        let (_, _, cycles) = self.bench.chip.clocks();
        let left = (u64::MAX - self.bench.chip.start()) / cycles;
        // At the end of time: the last block that fits, and the first that does not.
        if left <= BLOCK_MAX as u64 && self.random.one_in(2) {
            let length = (left + self.random.below(3)).saturating_sub(1).min(BLOCK_MAX as u64 + 1);
            if length <= self.room() || length > left && self.bearable(length) {
                return self.call(format!("block {length}"));
            }
        }
        let length = match self.random.below(12) {
            0 => return self.call("block 0".into()),
            1 => 1,
            2..=5 => self.random.within(2, 40),
            6..=10 => self.random.spread(4_000),
            _ => self.random.spread(BLOCK_MAX as u64),
        };
        // A part of what the budget allows, so that it lasts for the script.
        let room = self.room();
        let length = length.min(room.div_ceil(4));
        if length > 0 {
            self.call(format!("block {length}"));
        }
    }

    /// An envelope whose counter climbs high, up to its step or nearly. It has ticks of its own.
    pub fn climb(&mut self) {
        let any = self.random.byte();
        let (low, high) = (self.random.pick(&[255, 254, any]), self.random.pick(&[255, 255, 254, 128, 64]));
        let ticks = self.ticks_a_word();
        let period = low as u64 + 256 * high as u64;
        let words = (period / ticks).saturating_sub(self.random.below(3));
        let (_, _, cycles) = self.bench.chip.clocks();
        if words == 0 || refusal::of_block(words as usize, self.bench.chip.start(), cycles) != ACCEPTED {
            return;
        }
        self.budget += period;
        self.call(format!("write 11 {low}"));
        self.call(format!("write 12 {high}"));
        self.call("trigger".into());
        self.call(format!("block {words}"));
    }

    // ---- the rest ----

    pub fn read(&mut self) {
        let register = if self.random.one_in(4) { self.random.byte() } else { self.random.below(16) as u8 };
        let port = if self.random.one_in(2) { self.selecting() } else { self.writing() };
        let last = self.bench.chip.pending_write_count().min(255) as u64;
        let place = self.random.within(0, last);
        let channel = self.channel();
        let line = match self.random.below(8) {
            0 => format!("read {register}"),
            1 => "dump".into(),
            2 => format!("read_port {port}"),
            3 => "get_cycle".into(),
            4 => "pending".into(),
            5 => format!("waiting {place}"),
            6 => format!("muted {channel}"),
            _ => "outputs".into(),
        };
        self.call(line);
    }

    pub fn refused(&mut self) {
        let channel = self.no_channel();
        let on = self.random.below(2);
        let bits = self.sample();
        let line = match self.random.below(6) {
            0 | 1 if self.bearable(BLOCK_MAX as u64 + 1) => format!("block {}", BLOCK_MAX + 1),
            1 => format!("mute {channel} {on}"),
            2 => format!("drum {channel} off"),
            3 => format!("drum {channel} {bits:08x}"),
            _ => return self.refused_making(),
        };
        self.call(line);
    }

    pub fn lent(&mut self) {
        let on = self.random.below(2);
        self.call(format!("lent {on}"));
    }
}
