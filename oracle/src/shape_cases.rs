//! Dumps about R13's byte (02, request 02). Each frame says beside its line what is written to R13, by hand and not by the player.
//! `tests/shape.rs` holds the player to it; `compare` plays the same dumps on ours.

use std::fmt::Write;

/// R0 to R13 as in the line, and the byte that goes to R13, if any.
pub type Frame = ([u8; 14], Option<u8>);

pub struct Case {
    pub name: String,
    pub frames: Vec<Frame>,
}

/// One tick to a word.
pub const MASTER: u32 = 2_000_000;
pub const RATE: u32 = MASTER / 8;
/// A frame ends in the middle of a rise or fall, and of a count to 3.
pub const WORDS: usize = 50;

impl Case {
    pub fn text(&self) -> String {
        let mut text = format!("master={MASTER}\nrate={RATE}\nwords={WORDS}\nframes={}\n", self.frames.len());
        for (registers, _) in &self.frames {
            text.push_str("regs=");
            registers.iter().for_each(|byte| write!(text, "{byte:02x}").unwrap());
            text.push('\n');
        }
        text
    }
}

fn case(name: impl Into<String>, frames: impl Into<Vec<Frame>>) -> Case {
    Case { name: name.into(), frames: frames.into() }
}

/// Nothing gated, A by the envelope, B and C still. The envelope's period is 3 and a rise or fall takes 96 words.
fn line(shape: u8) -> [u8; 14] {
    [2, 0, 0, 0, 0, 0, 0, 0x3f, 0x10, 0, 0, 3, 0, shape]
}

fn wrote(shape: u8) -> Frame {
    (line(shape), Some(shape))
}

/// A frame of ff.
fn left() -> Frame {
    (line(0xff), None)
}

fn with(frame: Frame, register: usize, value: u8) -> Frame {
    let (mut registers, shape) = frame;
    registers[register] = value;
    (registers, shape)
}

pub fn all() -> Vec<Case> {
    let mut all = vec![
        case("ff in the only frame", [left()]),
        case("ff in the first frame", [left(), wrote(0x0d), left(), left()]),
        case("ff in every frame", vec![left(); 9]),
        case("ff in every other frame", [wrote(0x0d), left()].repeat(4)),
        case("ff in every other frame, from the first on", [left(), wrote(0x0a)].repeat(4)),
        case("ff after 0e", [vec![wrote(0x0e)], vec![left(); 9]].concat()),
        case("ff after 00", [wrote(0x00), left(), left()]),
        case("ff after 0f", [wrote(0x0f), left(), left()]),
        case("ff after 0f, twice", [wrote(0x0f), left(), wrote(0x0f), left()]),
        case("ff in R0 to R12, and 00 in R13", [([&[0xff; 13][..], &[0]].concat().try_into().unwrap(), Some(0))]),
        case("ff in R0 to R13", [wrote(0x0a), ([0xff; 14], None), left()]),
        case("R11 changed in a frame of ff", [wrote(0x0e), with(left(), 11, 1), with(left(), 11, 7), left()]),
        case("R12 changed in a frame of ff", [wrote(0x0a), with(left(), 12, 1), left(), with(left(), 12, 0xff)]),
        case("R12 changed in the first frame, of ff", [with(left(), 12, 1), wrote(0x0c)]),
        case("R11 and R12 changed, and then 0e", [left(), with(with(wrote(0x0e), 11, 1), 12, 0), left()]),
    ];
    for shape in [0xfe, 0xef, 0x0f, 0x1f, 0xf0] {
        all.push(case(format!("{shape:02x} after 0a, and again"), [wrote(0x0a), wrote(shape), wrote(shape), left()]));
        all.push(case(format!("{shape:02x} in the first frame"), [wrote(shape), left(), left(), left()]));
    }
    for register in 0..13 {
        let others = [wrote(0x0e), with(wrote(0x0e), register, 0xff), with(left(), register, 0xff), left()];
        all.push(case(format!("ff in R{register}"), others));
    }
    // 255 is the one byte that is not written.
    let every: Vec<Frame> = (0x00..=0xfe).flat_map(|shape| [wrote(shape), left()]).collect();
    all.push(case("every byte but ff, and ff after it", every));
    all
}
