//! What scripts are about.

use oracle::random::Random;

#[derive(Clone, Copy)]
pub enum Act {
    Register,
    Low,
    Shape,
    Load,
    Data,
    Fill,
    Turn,
    Now,
    Cycle,
    Sync,
    End,
    Flush,
    Irq,
    Trigger,
    Mute,
    Drum,
    Word,
    Block,
    Read,
    Reset,
    New,
    Refused,
    Lent,
    Climb,
    Busy,
    Set,
}

use Act::*;

/// What a script does, each act as often as its weight, and how many calls it has at least.
#[derive(Clone, Copy)]
pub struct Mood {
    pub calls: u64,
    pub acts: &'static [(u64, Act)],
}

const fn mood(calls: u64, acts: &'static [(u64, Act)]) -> Mood {
    Mood { calls, acts }
}

/// Each as often as its weight. The first has everything.
#[rustfmt::skip]
pub const MOODS: [(u64, Mood); 10] = [
    (6, mood(4, &[
        (9, Register), (2, Low), (2, Shape), (1, Load), (6, Data), (2, Now), (2, Cycle), (2, Sync), (1, End),
        (1, Flush), (3, Irq), (1, Trigger), (2, Mute), (3, Drum), (6, Word), (9, Block), (5, Read), (1, Reset),
        (1, New), (1, Refused), (1, Lent), (2, Set),
    ])),
    // Tones and noise.
    (5, mood(4, &[
        (30, Register), (4, Shape), (3, Load), (8, Now), (8, Word), (30, Block), (8, Read), (2, Reset), (1, New),
    ])),
    // Stamped writes, in order and out of order.
    (4, mood(4, &[
        (30, Data), (8, Cycle), (3, Sync), (2, Flush), (3, Register), (10, Word), (8, Block), (8, Read), (1, Reset),
        (1, Irq),
    ])),
    // A queue held full, long enough for its room to be used again.
    (2, mood(500, &[
        (2, Fill), (3, Turn), (24, Data), (3, Cycle), (1, Sync), (1, Flush), (12, Word), (2, Block), (6, Read), (1, Reset),
    ])),
    // Many writes due in one word, in the IRQ and outside it.
    (5, mood(100, &[
        (12, Busy), (4, Register), (1, Shape), (2, Load), (2, Data), (1, Flush), (3, Irq), (1, Trigger), (3, Mute), (3, Drum),
        (1, Word), (2, Block), (1, Reset), (2, Lent), (1, Set),
    ])),
    // Periods 0 and 1 inside and outside the IRQ.
    (4, mood(4, &[
        (12, Irq), (24, Low), (6, Data), (2, Cycle), (4, Register), (12, Word), (8, Block), (3, Read), (1, Reset),
        (1, Load), (1, Flush),
    ])),
    // Drums and mutes.
    (3, mood(4, &[
        (24, Drum), (6, Mute), (24, Word), (2, Block), (4, Register), (4, Low), (6, Read), (2, Reset), (2, Refused),
    ])),
    // Envelopes.
    (4, mood(4, &[
        (12, Shape), (4, Trigger), (6, Register), (6, Word), (14, Block), (1, Climb), (3, Read), (1, Reset), (1, Load),
    ])),
    // The last cycles before 2^64.
    (3, mood(4, &[
        (8, End), (6, Sync), (6, Cycle), (8, Data), (12, Block), (8, Word), (3, Read), (1, Reset), (1, New),
        (1, Refused),
    ])),
    // Records that no call leads to.
    (5, mood(4, &[
        (24, Set), (4, Register), (2, Low), (2, Shape), (4, Data), (1, Fill), (2, Now), (2, Cycle), (1, Sync), (1, Flush),
        (2, Irq), (1, Trigger), (1, Mute), (1, Drum), (6, Word), (6, Block), (3, Read), (1, Reset), (1, Lent),
    ])),
];

/// One of these, each as likely as its weight.
pub fn weighed<T: Copy>(random: &mut Random, from: &[(u64, T)]) -> T {
    let mut place = random.below(from.iter().map(|(weight, _)| weight).sum());
    let chosen = from.iter().find(|(weight, _)| {
        let found = place < *weight;
        place = place.saturating_sub(*weight);
        found
    });
    chosen.unwrap().1
}
