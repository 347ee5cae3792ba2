//! Which waiting writes fall due in which word of a block, and what is counted of such a word.

use oracle::refusal::{self, ACCEPTED};
use oracle::script::Bench;
use oracle::tables::REG_MASK;

/// The registers of a period, the low byte's first.
type Pair = [u8; 2];
pub const TONES: [Pair; 3] = [[0, 1], [2, 3], [4, 5]];
pub const ENVELOPE: Pair = [11, 12];
const NOISE: u8 = 6;
const GATES: u8 = 7;
const SHAPE: u8 = 13;

/// A word and what is due in it: register and masked value, in the order in which they are applied.
pub struct Due {
    /// 1 for the block's first word.
    word: u64,
    pub writes: Vec<(u8, u8)>,
    /// The stored bytes ahead of them and after each.
    stored: Vec<[u8; 16]>,
}

/// The words of a block that have writes due, on a record in range; none where it is refused.
pub fn words(bench: &Bench, length: u64) -> Vec<Due> {
    let (_, _, cycles) = bench.chip.clocks();
    let start = bench.chip.start();
    let mut words: Vec<Due> = Vec::new();
    if refusal::of_block(length as usize, start, cycles) != ACCEPTED {
        return words;
    }
    let (mut word, mut stored) = (1, bench.chip.dump_registers());
    for (stamp, register, value) in bench.ring.all() {
        // One that would be due earlier waits for those ahead of it.
        word = word.max(stamp.saturating_sub(start).div_ceil(cycles));
        if word > length {
            break;
        }
        if words.last().is_none_or(|last| last.word != word) {
            words.push(Due { word, writes: Vec::new(), stored: vec![stored] });
        }
        let value = value & REG_MASK.get(register as usize).unwrap_or(&0);
        stored[register as usize] = value;
        let last = words.last_mut().unwrap();
        last.writes.push((register, value));
        last.stored.push(stored);
    }
    words
}

/// Whether a word is of a kind, on the bench ahead of its block.
type IsSo = fn(&Due, &Bench) -> bool;

#[rustfmt::skip]
pub const KINDS: [(&str, IsSo); 18] = [
    ("words with writes due", |_, _| true),
    ("due in one word: 2 or more", |due, _| due.writes.len() >= 2),
    ("due in one word: 8 or more", |due, _| due.writes.len() >= 8),
    ("due in one word: 64 or more", |due, _| due.writes.len() >= 64),
    ("due in one word, in the IRQ: 2 or more", |due, bench| bench.chip.irq() && due.writes.len() >= 2),
    ("due in one word, in the IRQ: 8 or more", |due, bench| bench.chip.irq() && due.writes.len() >= 8),
    ("due in one word, in the IRQ: 64 or more", |due, bench| bench.chip.irq() && due.writes.len() >= 64),
    ("due in one word, in the IRQ: a tone's period past 1", |due, bench| bench.chip.irq() && due.passes_one()),
    ("due in one word: R7 twice or more", |due, _| due.values(GATES).len() > 1),
    ("due in one word: R13 twice or more, of one shape", |due, _| due.shapes_differ() == Some(false)),
    ("due in one word: R13 twice or more, of several", |due, _| due.shapes_differ() == Some(true)),
    ("due in one word: some that change no byte", |due, _| due.changes().contains(&false)),
    ("due in one word: a byte that changes and comes back", |due, _| due.comes_back()),
    ("due in one word: both bytes of a period, the low first", |due, _| due.has_both_bytes(true)),
    ("due in one word: both bytes of a period, the high first", |due, _| due.has_both_bytes(false)),
    ("due in one word: a tone's period to its counter or below", Due::lowers_a_tone),
    ("due in one word: the noise's period to its counter or below", Due::lowers_the_noise),
    ("due in one word: the envelope's period to its counter or below", Due::lowers_the_envelope),
];

fn period(stored: &[u8; 16], pair: Pair) -> u32 {
    let [low, high] = pair.map(|register| stored[register as usize]);
    u16::from_le_bytes([low, high]) as u32
}

impl Due {
    fn values(&self, register: u8) -> Vec<u8> {
        self.writes.iter().filter(|(written, _)| *written == register).map(|(_, value)| *value).collect()
    }

    /// Whether each changes its byte; 14 and 15 have none.
    fn changes(&self) -> Vec<bool> {
        let written = self.writes.iter().zip(self.stored.windows(2)).filter(|((register, _), _)| *register < 14);
        written.map(|(_, stored)| stored[0] != stored[1]).collect()
    }

    /// The bytes ahead of the word and after it do not tell how many changed.
    fn comes_back(&self) -> bool {
        let (first, last) = (self.stored[0], self.stored[self.stored.len() - 1]);
        (0..14).any(|register| {
            first[register] == last[register] && self.stored.iter().any(|stored| stored[register] != first[register])
        })
    }

    /// None where R13 is not due twice.
    fn shapes_differ(&self) -> Option<bool> {
        let shapes = self.values(SHAPE);
        (shapes.len() > 1).then(|| shapes.iter().any(|shape| *shape != shapes[0]))
    }

    fn has_both_bytes(&self, low_first: bool) -> bool {
        let place = |register: u8| self.writes.iter().position(|(written, _)| *written == register);
        TONES.iter().chain([&ENVELOPE]).any(|pair| match pair.map(place) {
            [Some(low), Some(high)] => (low < high) == low_first,
            _ => false,
        })
    }

    /// The periods that a pair's writes make, one by one.
    fn periods(&self, pair: Pair) -> Vec<u32> {
        let written = self.writes.iter().zip(&self.stored[1..]);
        let written = written.filter(|((register, _), _)| pair.contains(register));
        written.map(|(_, stored)| period(stored, pair)).collect()
    }

    /// At most 1 for a while and longer in the end: the last bytes do not tell that a flip is pending.
    fn passes_one(&self) -> bool {
        let passes = |periods: Vec<u32>| periods.iter().any(|period| *period <= 1) && *periods.last().unwrap() > 1;
        TONES.iter().any(|tone| passes(self.periods(*tone)))
    }

    /// Known of the first word alone, as the counter is that ahead of the block.
    fn lowers(&self, last: Option<u32>, before: u32, counter: u32) -> bool {
        self.word == 1 && last.is_some_and(|last| last < before && last <= counter)
    }

    fn lowers_a_tone(&self, bench: &Bench) -> bool {
        TONES.iter().zip(bench.chip.tones()).any(|(pair, tone)| {
            let (counter, before, ..) = tone.view();
            self.lowers(self.periods(*pair).last().copied(), before, counter)
        })
    }

    fn lowers_the_noise(&self, bench: &Bench) -> bool {
        let (counter, before, ..) = bench.chip.noise().view();
        self.lowers(self.values(NOISE).last().map(|last| *last as u32), before, counter)
    }

    fn lowers_the_envelope(&self, bench: &Bench) -> bool {
        let (counter, before, ..) = bench.chip.envelope().view();
        self.lowers(self.periods(ENVELOPE).last().copied(), before, counter)
    }
}
