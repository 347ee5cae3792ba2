//! The ring of 256 slots that our record has where the crate has a `VecDeque`. It follows the crate's queue, so that `set` can
//! move its place and its count, and what then waits is known.

pub const SLOTS: u64 = 256;

/// Stamp, register and value.
pub type Waiting = (u64, u8, u8);

pub struct Ring {
    slots: [Waiting; SLOTS as usize],
    pub head: u64,
    pub count: u64,
}

impl Default for Ring {
    fn default() -> Self {
        Ring { slots: [(0, 0, 0); SLOTS as usize], head: 0, count: 0 }
    }
}

impl Ring {
    fn slot(&self, place: u64) -> usize {
        ((self.head % SLOTS + place % SLOTS) % SLOTS) as usize
    }

    /// A ring that the crate's queue can stand for.
    pub fn fits(&self) -> bool {
        self.head < SLOTS && self.count <= SLOTS
    }

    /// The waiting write at a place, 0 being the front.
    pub fn at(&self, place: u64) -> Option<Waiting> {
        (place < self.count).then(|| self.slots[self.slot(place)])
    }

    /// All waiting writes of a ring that fits, front first.
    pub fn all(&self) -> Vec<Waiting> {
        (0..self.count).filter_map(|place| self.at(place)).collect()
    }

    pub fn push(&mut self, write: Waiting) {
        self.slots[self.slot(self.count)] = write;
        self.count += 1;
    }

    /// Takes writes off the front; their slots stay as they are.
    pub fn drop_front(&mut self, writes: u64) {
        self.head = (self.head + writes) % SLOTS;
        self.count -= writes;
    }

    pub fn last_register(&self) -> u8 {
        self.count.checked_sub(1).and_then(|last| self.at(last)).map_or(0, |(_, register, _)| register)
    }

    /// Nothing changes where none waits.
    pub fn set_last_register(&mut self, register: u8) {
        if let Some(last) = self.count.checked_sub(1) {
            self.slots[self.slot(last)].1 = register;
        }
    }
}
