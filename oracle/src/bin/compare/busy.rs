//! Busy words: bursts of writes that fall due in one word, and the words and blocks in which they do.

use crate::draw::Draw;
use crate::due::{ENVELOPE, TONES};
use oracle::ring::SLOTS;

/// Register and value of each write, in order.
type Burst = Vec<(u8, u8)>;

/// Bursts queued ahead of the words, and how often they come again, at most.
const BURSTS: u64 = 6;
const AGAIN: u64 = 3;
const REGISTERS: [u8; 16] = [0, 1, 2, 3, 4, 5, 6, 7, 8, 9, 10, 11, 12, 13, 14, 15];

impl Draw<'_> {
    /// Bursts that fall due in some words to come, and those words.
    pub fn busy(&mut self) {
        let words = self.random.pick(&[1, 1, 2, 2, 3, 6, 40]);
        if !self.has_time_for(words + AGAIN) {
            return;
        }
        if self.bench.chip.pending_write_count() > 0 {
            self.call("flush".into());
        }
        self.irq();
        let front = self.bench.ring.head;
        self.bursts(words);
        let queued = self.bench.ring.count;
        self.pieces(words);
        for _ in 0..self.random.within(0, AGAIN) {
            self.once_more(front, queued);
        }
    }

    /// In words by chance: several may fall in one, and others have none. Out of order, a later one holds back those behind it.
    fn bursts(&mut self, words: u64) {
        let (_, _, cycles) = self.bench.chip.clocks();
        let bursts = self.random.within(1, BURSTS);
        let mut places: Vec<u64> = (0..bursts).map(|_| self.random.within(1, words)).collect();
        if !self.random.one_in(4) {
            places.sort_unstable();
        }
        for place in places {
            let before = self.random.below(cycles);
            let before = self.random.pick(&[0, 0, 1, cycles - 1, before]);
            self.call(format!("cycle {}", self.bench.chip.start() + place * cycles - before));
            let burst = self.burst();
            burst.iter().for_each(|(register, value)| self.by_ports("port", *register, *value));
        }
    }

    fn burst(&mut self) -> Burst {
        let register = self.random.below(14) as u8;
        let tone = self.random.pick(&TONES);
        let period = self.random.pick(&[tone, tone, tone, ENVELOPE]);
        match self.random.below(7) {
            0 => self.every_register(),
            1 => self.writes_to(&REGISTERS, Self::value),
            2 => self.writes_to(&[register], Self::value),
            3 => self.writes_to(&period, Self::value),
            4..=5 => self.writes_to(&tone, Self::low_value),
            _ => self.shapes(),
        }
    }

    fn every_register(&mut self) -> Burst {
        let mut burst = REGISTERS.map(|register| (register, self.value(register)));
        if self.random.one_in(2) {
            burst.reverse();
        }
        burst.to_vec()
    }

    fn writes_to(&mut self, registers: &[u8], value: fn(&mut Self, u8) -> u8) -> Burst {
        let mut burst = Burst::new();
        for _ in 0..self.random.within(2, 6) {
            let register = self.random.pick(registers);
            burst.push((register, value(self, register)));
        }
        burst
    }

    /// A shape again and again, others between, and what else the envelope is made of.
    fn shapes(&mut self) -> Burst {
        let again = (13, self.random.byte());
        let writes = self.random.within(2, 6);
        (0..writes).map(|_| if self.random.one_in(2) { again } else { self.of_shape() }).collect()
    }

    /// The words by themselves and in blocks. What is heard is read after each.
    fn pieces(&mut self, words: u64) {
        let mut left = words;
        while left > 0 {
            let length = self.random.pick(&[1, 1, 2, left, left]).min(left);
            let by_itself = length == 1 && self.random.one_in(2);
            self.call(if by_itself { "word".into() } else { format!("block {length}") });
            self.heard();
            self.between();
            left -= length;
        }
    }

    fn heard(&mut self) {
        let channel = self.random.below(3);
        self.call("outputs".into());
        self.call(format!("muted {channel}"));
    }

    /// What the next word sees, and the last one has not seen.
    fn between(&mut self) {
        match self.random.below(8) {
            0 => self.irq(),
            1 => self.mute(),
            2 => self.drum(),
            3 => self.lent(),
            4 => self.call("block 0".into()),
            _ => {}
        }
    }

    /// The same writes from the slots in which they were left, some of them, or all that the ring has: nearly all are due in the next word.
    fn once_more(&mut self, front: u64, queued: u64) {
        let (skipped, any) = (self.random.below(queued), self.random.below(SLOTS));
        let (head, count) = self.random.pick(&[(front, queued), (front + skipped, queued - skipped), (any, SLOTS)]);
        self.call(format!("set head {}", head % SLOTS));
        self.call(format!("set count {count}"));
        self.irq();
        self.pieces(1);
    }
}
