//! Draws a capture's writes: runs of them, each with its own way of stamping.

use oracle::capture::Write;
use oracle::random::Random;
use oracle::refusal::{QUEUE_MAX, WRITES_MAX};

pub struct Stamped<'a> {
    pub random: &'a mut Random,
    /// To a word.
    cycles: u64,
    /// The last stamp.
    at: u64,
    selected: u8,
    pub writes: Vec<Write>,
}

impl Stamped<'_> {
    pub fn new(random: &mut Random, cycles: u64) -> Stamped<'_> {
        let mut stamped = Stamped { random, cycles, at: 0, selected: 0, writes: Vec::new() };
        if stamped.random.one_in(4) {
            stamped.at = stamped.random.below(3 * cycles);
        }
        stamped
    }

    /// Runs of writes, few or many.
    pub fn some(&mut self) {
        if self.random.one_in(2) {
            self.audible();
        }
        for _ in 0..self.random.within(1, 6) {
            self.run();
        }
    }

    /// Runs until there are so many.
    pub fn fill(&mut self, count: usize) {
        while self.writes.len() < count {
            self.run();
        }
    }

    fn run(&mut self) {
        if self.writes.len() >= WRITES_MAX as usize {
            return;
        }
        match self.random.below(16) {
            0..=2 => self.wander(),
            3..=4 => self.dense(),
            5..=8 => self.ends(),
            9..=10 => self.note(),
            11 => self.equal(),
            12 => self.burst(),
            13 => self.two_bursts(),
            14 => self.selects(),
            _ => self.late(),
        }
    }

    fn push(&mut self, port: u8, value: u8) {
        self.writes.push(Write { at: self.at, port, value });
    }

    /// By port 0 or 1. The value's high bits count for nothing.
    fn select(&mut self, register: u8) {
        let (port, high) = (self.random.below(2) as u8, self.random.pick(&[0, 0, 0x10, 0xf0]));
        self.selected = register;
        self.push(port, high | register);
    }

    /// By port 2 or 3.
    fn data(&mut self) {
        let port = 2 + self.random.below(2) as u8;
        let value = self.value();
        self.push(port, value);
    }

    /// Short periods and loud channels, or the words would hardly move.
    fn value(&mut self) -> u8 {
        let (byte, low) = (self.random.byte(), self.random.below(4) as u8);
        match self.selected {
            0 | 2 | 4 | 11 => self.random.pick(&[low, low, byte]),
            1 | 3 | 5 | 12 => self.random.pick(&[0, 0, 0, byte]),
            7 => self.random.pick(&[0x38, 0x3f, 0x00, byte]),
            8..=10 => self.random.pick(&[0x0f, 0x10, byte]),
            // In a dump's frame it would be no write.
            13 => self.random.pick(&[0xff, byte, byte]),
            _ => byte,
        }
    }

    /// A select, or data, or both.
    fn write(&mut self) {
        let register = self.random.below(16) as u8;
        match self.random.below(4) {
            0 => self.select(register),
            1 => self.data(),
            _ => {
                self.select(register);
                if self.random.one_in(3) {
                    self.move_on(8);
                }
                self.data();
            }
        }
    }

    /// By 0 to so many cycles.
    fn move_on(&mut self, most: u64) {
        let cycles = self.random.below(most.saturating_add(1).max(1));
        self.at = self.at.saturating_add(cycles);
    }

    /// Tone A of period 2 and channel A at its loudest.
    fn audible(&mut self) {
        for (register, value) in [(0, 2), (7, 0x3e), (8, 0x0f)] {
            self.select(register);
            self.push(2, value);
        }
    }

    /// The end of the word by which the last stamp is due, the first word's where it is 0.
    fn end(&self) -> u64 {
        self.at.div_ceil(self.cycles).max(1).saturating_mul(self.cycles)
    }

    fn wander(&mut self) {
        let most = self.random.spread(40) * self.cycles;
        for _ in 0..self.random.within(1, 12) {
            self.move_on(most);
            self.write();
        }
    }

    fn dense(&mut self) {
        for _ in 0..self.random.within(5, 40) {
            self.move_on(self.cycles / 8);
            self.write();
        }
    }

    /// At the end of a word, one before it and one after it.
    fn ends(&mut self) {
        for _ in 0..self.random.within(1, 8) {
            let words = self.random.pick(&[0, 0, 1, 1, 2, 7]);
            let end = self.end().saturating_add(words * self.cycles);
            let stamp = self.random.pick(&[end - 1, end, end, end.saturating_add(1)]);
            self.at = self.at.max(stamp);
            self.write();
        }
    }

    /// Registers one after the other, as a tune's player writes them: a select, some cycles, its data.
    fn note(&mut self) {
        self.move_on(3 * self.cycles);
        for register in 0..self.random.within(1, 14) as u8 {
            self.select(register);
            self.move_on(12);
            self.data();
            self.move_on(20);
        }
    }

    fn equal(&mut self) {
        for _ in 0..self.random.within(2, 20) {
            self.write();
        }
    }

    /// So many data writes due by one end, with selects among them; one stamp for all, or stamps that climb to the end.
    fn due_by(&mut self, end: u64, count: usize) {
        let climbing = self.random.one_in(2);
        self.at = self.at.max(if climbing { end - self.cycles + 1 } else { end - self.random.below(self.cycles) });
        let (selects, same_port) = (self.random.one_in(2), self.random.one_in(2));
        for _ in 0..count {
            if selects && self.random.one_in(16) {
                let register = self.random.below(16) as u8;
                self.select(register);
            }
            if climbing && self.at < end && self.random.one_in(4) {
                self.at += 1;
            }
            if same_port {
                let value = self.value();
                self.push(2 + (count % 2) as u8, value);
            } else {
                self.data();
            }
        }
        // The last may be at the end itself.
        if self.random.one_in(2) {
            self.at = end;
            self.writes.last_mut().unwrap().at = end;
        }
    }

    /// About 256 data writes due in one word of their own, and what may come next.
    fn burst(&mut self) {
        let Some(end) = self.end().checked_add(self.cycles) else { return };
        let count = self.random.pick(&[255, 256, 256, 256, 257, 258, 300, 512, 1_400]);
        self.due_by(end, count);
        match self.random.below(4) {
            0 => {
                self.select(8);
                self.data();
            }
            1 => {
                self.at = end.saturating_add(1);
                self.data();
            }
            2 => self.data(),
            _ => {}
        }
    }

    /// 256 due in each of two words running, or one more in the second.
    fn two_bursts(&mut self) {
        let first = self.end().checked_add(self.cycles);
        let Some((first, second)) = first.and_then(|first| Some((first, first.checked_add(self.cycles)?))) else {
            return;
        };
        self.due_by(first, QUEUE_MAX);
        let more = self.random.pick(&[0, 0, 1]);
        self.due_by(second, QUEUE_MAX + more);
    }

    /// More than the queue holds, and none of them goes there.
    fn selects(&mut self) {
        for _ in 0..self.random.pick(&[20, 255, 257, 300]) {
            let register = self.random.below(16) as u8;
            self.select(register);
        }
        self.data();
    }

    /// Past most words that are asked for, up to the last cycle.
    fn late(&mut self) {
        let far = self.random.pick(&[1 << 20, 1 << 32, 1 << 40, 1 << 63, u64::MAX]);
        self.at = self.at.saturating_add(far);
        self.move_on(self.cycles);
        self.write();
    }
}
