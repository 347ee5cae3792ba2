//! Times the two sides in turn, and compares what they leave.

use crate::side::{Seen, Side};
use oracle::chip::Ym2149;
use std::hint::black_box;
use ym2149_proved::Chip;

/// What both sides are timed at.
pub trait Work {
    /// How many words or other answers a run leaves.
    fn answers(&self) -> usize;

    /// One run: nanoseconds to a word or a call, and the chip as it is then.
    fn run<S: Side>(&self, answers: &mut [u16]) -> (f64, S);
}

/// Nanoseconds to a word or a call.
#[derive(Clone, Copy)]
pub struct Times {
    pub ours: f64,
    pub theirs: f64,
}

impl Times {
    pub fn ratio(self) -> f64 {
        self.ours / self.theirs
    }

    fn or_less(self, other: Times) -> Times {
        Times { ours: self.ours.min(other.ours), theirs: self.theirs.min(other.theirs) }
    }
}

/// Nanoseconds that this process has run on a processor, so that others who share it do not count.
fn clock() -> f64 {
    #[repr(C)]
    struct Time {
        seconds: i64,
        nanoseconds: i64,
    }
    unsafe extern "C" {
        fn clock_gettime(clock: i32, time: *mut Time) -> i32;
    }
    const PROCESS_CPU_TIME: i32 = 2;
    let mut time = Time { seconds: 0, nanoseconds: 0 };
    unsafe { clock_gettime(PROCESS_CPU_TIME, &mut time) };
    time.seconds as f64 * 1e9 + time.nanoseconds as f64
}

/// Nanoseconds that the work took, and what it gave.
pub fn timed<T>(work: impl FnOnce() -> T) -> (f64, T) {
    let begun = clock();
    let given = black_box(work());
    (clock() - begun, given)
}

/// The best of several runs, for each side.
fn best(run: &mut impl FnMut() -> Times) -> Times {
    let mut times = Times { ours: f64::MAX, theirs: f64::MAX };
    let begun = clock();
    let mut runs = 0;
    while runs < 7 || (runs < 60 && clock() - begun < 0.7e9) {
        times = times.or_less(run());
        runs += 1;
    }
    times
}

/// A run of ours and one of the crate's. The two must leave the same answers and the same chip.
pub fn beside_the_crate(work: &impl Work) -> impl FnMut() -> Times {
    let (mut our_answers, mut their_answers) = (vec![0; work.answers()], vec![0; work.answers()]);
    move || {
        let (ours, our_chip) = work.run::<Chip>(&mut our_answers);
        let (theirs, their_chip) = work.run::<Ym2149>(&mut their_answers);
        assert!(our_answers == their_answers, "the two sides gave different answers");
        assert_eq!(Seen::of(our_chip), Seen::of(their_chip), "the two sides left different chips");
        Times { ours, theirs }
    }
}

/// What is not within its bar is measured twice more, and the best of all counts, for both sides: a neighbour may have been loud.
pub fn held(mut run: impl FnMut() -> Times, within: impl Fn(Times) -> bool) -> Times {
    let mut times = best(&mut run);
    for _ in 0..2 {
        if !within(times) {
            times = times.or_less(best(&mut run));
        }
    }
    times
}
