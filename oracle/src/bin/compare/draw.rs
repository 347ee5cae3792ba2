//! Draws scripts. Each call is run on the oracle as it is drawn, so that later ones can aim at the state reached.

use crate::moods::{Act, Act::*, MOODS, weighed};
use crate::tally::Tally;
use oracle::random::Random;
use oracle::refusal::{MASTER_MAX, VARIANT_MAX};
use oracle::script::Bench;
use oracle::script_cases::Case;

/// Most clocks have a word of at most so many ticks, and slow ones of at most so many.
const SOME_TICKS: u64 = 700;
const MANY_TICKS: u64 = 26_843;
/// The crate's default clocks: 5 or 6 ticks to a word.
const SEVERAL_TICKS: (u64, u64) = (2_000_000, 44_100);
/// A new chip has ticks for so many words at least, if its clock is not of the slowest.
const SOME_WORDS: u64 = 24;

/// A script, what the oracle prints for it, and its tally.
pub struct Drawn {
    /// Its name, where it was not drawn.
    pub case: Option<String>,
    pub script: String,
    pub printed: String,
    pub calls: u64,
    pub words: u64,
    pub ticks: u64,
}

pub struct Draw<'a> {
    pub random: &'a mut Random,
    tally: &'a mut Tally,
    pub bench: Bench,
    script: String,
    printed: String,
    /// Ticks that the script may still run.
    pub budget: u64,
}

/// One script of a drawn mood. It makes its chip first, unless it begins on the default one.
pub fn script(random: &mut Random, tally: &mut Tally, begin_on_default: bool) -> Drawn {
    let mood = weighed(random, &MOODS);
    let calls = mood.calls + random.spread(2_047);
    let budget = 20 * calls + random.spread(1 << 20);
    let (script, printed) = (String::new(), String::new());
    let mut draw = Draw { random, tally, bench: Bench::default(), script, printed, budget };
    draw.tally.script();
    if !begin_on_default {
        draw.make();
    }
    draw.lent();
    while draw.bench.calls < calls && !draw.spent() {
        draw.act(mood.acts);
    }
    drawn(None, draw.script, draw.printed, draw.bench)
}

/// A case in the place of a drawn script: its calls, and not what it says of them.
pub fn case(case: Case) -> Drawn {
    let (mut bench, mut script, mut printed) = (Bench::default(), String::new(), String::new());
    for line in case.script.lines().filter(|line| !line.starts_with('#')) {
        assert!(bench.line(line, &mut printed), "{}: {line}", case.name);
        script.push_str(line);
        script.push('\n');
    }
    drawn(Some(case.name), script, printed, bench)
}

fn drawn(case: Option<String>, script: String, printed: String, bench: Bench) -> Drawn {
    let Bench { calls, words, ticks, .. } = bench;
    Drawn { case, script, printed, calls, words, ticks }
}

impl Draw<'_> {
    pub fn call(&mut self, line: String) {
        let (ticks, printed) = (self.bench.ticks, self.printed.len());
        let call = self.tally.before(&line, &self.bench);
        assert!(self.bench.line(&line, &mut self.printed));
        let number = self.printed[printed..].split([' ', '\n']).next().and_then(|number| number.parse().ok());
        self.tally.after(call, number.unwrap(), &self.bench);
        self.budget = self.budget.saturating_sub(self.bench.ticks - ticks);
        self.script.push_str(&line);
        self.script.push('\n');
    }

    /// No word is left to a clock that is not of the slowest.
    fn spent(&self) -> bool {
        let ticks = self.ticks_a_word();
        self.budget < ticks && ticks <= MANY_TICKS
    }

    fn act(&mut self, acts: &[(u64, Act)]) {
        match weighed(self.random, acts) {
            Register => self.register(),
            Low => self.low(),
            Shape => self.shape(),
            Load => self.load(),
            Data => self.data(),
            Fill => self.fill(),
            Turn => self.turn(),
            Now => self.now(),
            Cycle => self.stamped("cycle"),
            Sync => self.stamped("sync"),
            End => self.end(),
            Flush => self.call("flush".into()),
            Irq => self.irq(),
            Trigger => self.call("trigger".into()),
            Mute => self.mute(),
            Drum => self.drum(),
            Word => self.word(),
            Block => self.block(),
            Read => self.read(),
            Reset => self.call("reset".into()),
            New => self.make(),
            Refused => self.refused(),
            Lent => self.lent(),
            Climb => self.climb(),
            Busy => self.busy(),
            Set => self.set(),
        }
    }

    // ---- making ----

    pub fn make(&mut self) {
        let (master, rate) = match self.random.below(24) {
            0 => return self.call("default".into()),
            1..=2 => return self.refused_making(),
            3..=5 => SEVERAL_TICKS,
            6..=8 => self.one_tick_clocks(),
            9..=10 => self.tiny_clocks(),
            11..=12 => self.extreme_clocks(),
            13..=14 => self.slow_clocks(),
            _ => self.any_clocks(),
        };
        self.make_of(master, rate);
        let ticks = self.ticks_a_word();
        if ticks <= MANY_TICKS {
            self.budget = self.budget.max(SOME_WORDS * ticks);
        }
    }

    /// Two in three are of variant 0, by one call or the other: demand 2 speaks of these.
    fn make_of(&mut self, master: u64, rate: u64) {
        match self.random.below(12) {
            0..=5 => self.call(format!("new {master} {rate}")),
            6..=7 => self.call(format!("make {master} {rate} 0")),
            8..=9 => self.call(format!("make {master} {rate} 1")),
            _ => self.call(format!("make {master} {rate} 2")),
        }
    }

    fn any_clocks(&mut self) -> (u64, u64) {
        let ticks = self.random.spread(SOME_TICKS);
        let master = self.random.spread(MASTER_MAX as u64).max(8);
        self.clocks_of(master, ticks)
    }

    /// Hundreds of ticks to a word, and thousands.
    fn slow_clocks(&mut self) -> (u64, u64) {
        let high = self.random.pick(&[2_000, MANY_TICKS]);
        let ticks = self.random.within(SOME_TICKS, high);
        let master = self.random.within(8 * ticks, MASTER_MAX as u64);
        self.clocks_of(master, ticks)
    }

    /// So many ticks to a word, or nearly.
    fn clocks_of(&mut self, master: u64, ticks: u64) -> (u64, u64) {
        let rate = (master / 8 / ticks + self.random.below(3)).clamp(1, master / 8);
        (master, rate)
    }

    fn one_tick_clocks(&mut self) -> (u64, u64) {
        let any = self.random.spread(MASTER_MAX as u64).max(8);
        let master = self.random.pick(&[2_000_000, 8, 15, 16, MASTER_MAX as u64, any]);
        (master, master / 8)
    }

    fn tiny_clocks(&mut self) -> (u64, u64) {
        let master = self.random.within(8, 120);
        (master, self.random.within(1, master / 8))
    }

    /// Here a word may take up to 134,217,727 ticks; the budget says whether one is asked for.
    fn extreme_clocks(&mut self) -> (u64, u64) {
        let master = MASTER_MAX as u64 - self.random.below(9);
        let near_one_tick = master / 8 - self.random.below(3);
        let near_two_ticks = master / 16 + self.random.below(3);
        let slow = self.random.within(1, 5_000);
        (master, self.random.pick(&[near_one_tick, near_two_ticks, slow, 1, 1_000, 50_000_000]))
    }

    /// It leaves the default chip, of one tick to a word. Half of the scripts go on with several.
    pub fn refused_making(&mut self) {
        let line = self.refused_line();
        self.call(line);
        if self.random.below(2) == 0 {
            let (master, rate) = SEVERAL_TICKS;
            self.make_of(master, rate);
        }
    }

    /// By the clocks, by the variant, or by both, of which the clocks come first.
    fn refused_line(&mut self) -> String {
        let (master, rate) = self.refused_clocks();
        let variant = self.random.within(0, VARIANT_MAX as u64);
        let none = self.no_variant();
        let (fine, its_rate) = self.any_clocks();
        match self.random.below(8) {
            0..=3 => format!("new {master} {rate}"),
            4 => format!("make {master} {rate} {variant}"),
            5..=6 => format!("make {master} {rate} {none}"),
            _ => format!("make {fine} {its_rate} {none}"),
        }
    }

    /// Among them those that fewer bits would take for 0, 1 or 2.
    fn no_variant(&mut self) -> u64 {
        let any = self.random.within(VARIANT_MAX as u64 + 1, 255);
        self.random.pick(&[3, 3, 4, 5, 6, 128, 130, 255, any, any])
    }

    fn refused_clocks(&mut self) -> (u64, u64) {
        let master = self.random.spread(MASTER_MAX as u64);
        let high = self.random.within(MASTER_MAX as u64 + 1, u32::MAX as u64);
        let all = u32::MAX as u64;
        self.random.pick(&[
            (MASTER_MAX as u64 + 1, 0),
            (MASTER_MAX as u64 + 1, 44_100),
            (all, all),
            (high, 0),
            (high, master),
            (master, 0),
            (7, 0),
            (0, 0),
            (7, 1),
            (0, 1),
            (2_000_000, 250_001),
            (master, master / 8 + 1),
            (master, all),
        ])
    }
}
