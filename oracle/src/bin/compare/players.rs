//! Dumps and captures: one to a process of the other side, its whole output compared, the first difference shrunk.

use crate::SHRINKING;
use crate::other;
use crate::parting::{Parting, parting};
use crate::shrink::shortest;
use oracle::random::Random;
use std::time::Instant;

/// A text up to this length is shrunk byte by byte too, and printed whole; a longer one piece by piece, for its lines may be long.
const SHORT: usize = 400;
const PIECE: usize = 256;

/// Whether the two sides differ on a text.
pub type Fails<'a> = &'a dyn Fn(&[u8]) -> bool;

/// What the programs of a kind are given.
pub struct Kind {
    /// Of one text.
    pub name: &'static str,
    pub draw: fn(&mut Random) -> Vec<u8>,
    /// What the oracle prints for a text.
    pub play: fn(&[u8]) -> Vec<u8>,
    /// A text that still fails, without the frames or writes that are not needed.
    pub fewer: fn(&[u8], Fails) -> Vec<u8>,
    /// Texts that are not drawn, and their names.
    pub cases: fn() -> Vec<(String, Vec<u8>)>,
}

/// The other side of a kind, and what was found of it.
pub struct Players {
    kind: Kind,
    path: String,
    random: Random,
    drawn: u64,
    refused: u64,
    words: u64,
    cases: u64,
    pub differences: u64,
}

impl Players {
    pub fn new(kind: Kind, path: &str, random: Random) -> Players {
        Players { kind, path: path.into(), random, drawn: 0, refused: 0, words: 0, cases: 0, differences: 0 }
    }

    pub fn compare(&mut self) {
        let text = (self.kind.draw)(&mut self.random);
        let ours = (self.kind.play)(&text);
        self.drawn += 1;
        for line in ours.split(|byte| *byte == b'\n') {
            match line.first() {
                Some(b'r') => self.refused += 1,
                Some(b'0'..=b'9') => self.words += 1,
                _ => {}
            }
        }
        self.beside(&text, &ours, &format!("{} {}", self.kind.name, self.drawn));
    }

    /// The cases one after the other, up to the first difference where that is enough.
    pub fn compare_cases(&mut self, first: bool) {
        for (name, text) in (self.kind.cases)() {
            if !(first && self.differences > 0) {
                self.cases += 1;
                self.beside(&text, &(self.kind.play)(&text), &format!("case {name}"));
            }
        }
    }

    fn beside(&mut self, text: &[u8], ours: &[u8], name: &str) {
        if parting(ours, &other::run(&self.path, text.to_vec())).is_some() {
            self.differences += 1;
            if self.differences == 1 {
                println!("first difference at {name}");
                self.show(text);
            }
        }
    }

    fn parts(&self, text: &[u8]) -> Option<Parting> {
        parting(&(self.kind.play)(text), &other::run(&self.path, text.to_vec()))
    }

    /// Shrinks the text and prints what is left.
    fn show(&self, text: &[u8]) {
        let begun = Instant::now();
        let fails = |text: &[u8]| begun.elapsed() <= SHRINKING && self.parts(text).is_some();
        let text = (self.kind.fewer)(text, &fails);
        let mut text = shortest(&lines_of(&text), &mut |lines| fails(&lines.concat())).concat();
        if text.len() > SHORT {
            text = shortest(&text.chunks(PIECE).collect::<Vec<_>>(), &mut |pieces| fails(&pieces.concat())).concat();
        }
        if text.len() <= SHORT {
            text = shortest(&text, &mut |bytes| fails(bytes));
        }
        let shown = &text[..text.len().min(SHORT)];
        println!("shortest {} that shows it ({} bytes, {} shown):", self.kind.name, text.len(), shown.len());
        for line in shown.split_inclusive(|byte| *byte == b'\n') {
            println!("    {}", line.escape_ascii());
        }
        if let Some(parting) = self.parts(&text) {
            parting.print();
        }
    }

    pub fn report(&self) {
        let Players { kind, path, drawn, refused, words, cases, differences, .. } = self;
        println!(
            "{}s={drawn} refused={refused} words={words} cases={cases} differences={differences} ({path})",
            kind.name
        );
    }
}

/// Lines with their LF.
pub fn lines_of(text: &[u8]) -> Vec<Vec<u8>> {
    text.split_inclusive(|byte| *byte == b'\n').map(<[u8]>::to_vec).collect()
}
