//! A text's lines, as dumps, captures and lists of pitches have them: a key, `=`, a value, one LF. 01, "The dump player".

use crate::refusal::{self, *};
use std::ops::RangeInclusive;

/// Digits of a decimal, at most.
const DIGITS: usize = 10;

/// A refusal's number and line.
#[derive(Debug, PartialEq)]
pub struct Refused(pub u8, pub usize);

/// The lines not yet read, and the number of the one read last.
pub struct Lines<'a> {
    text: &'a [u8],
    line: usize,
}

impl<'a> Lines<'a> {
    /// 11 comes before any line.
    pub fn of(text: &'a [u8]) -> Result<Self, Refused> {
        if text.len() > TEXT_MAX {
            return Err(Refused(DUMP_TOO_LONG, 0));
        }
        Ok(Lines { text, line: 0 })
    }

    /// What follows the key on the next line, without its LF.
    fn value(&mut self, key: &str) -> Result<&'a [u8], Refused> {
        self.line += 1;
        let end = self.text.iter().position(|&byte| byte == b'\n').ok_or(self.refused(BAD_FORM))?;
        let line = &self.text[..end];
        self.text = &self.text[end + 1..];
        line.strip_prefix(key.as_bytes()).ok_or(self.refused(BAD_FORM))
    }

    fn decimal(&mut self, key: &str, most_digits: usize) -> Result<u128, Refused> {
        let digits = self.value(key)?;
        let needless = digits.len() > 1 && digits[0] == b'0';
        if digits.is_empty() || digits.len() > most_digits || needless || !digits.iter().all(u8::is_ascii_digit) {
            return Err(self.refused(BAD_FORM));
        }
        Ok(digits.iter().fold(0, |sum, digit| sum * 10 + (digit - b'0') as u128))
    }

    /// The clocks' lines, the first two of every text.
    pub fn clocks(&mut self) -> Result<(u32, u32), Refused> {
        // A value above 32 bits is a value too high: it is cut to the highest, which is refused alike.
        let master = self.decimal("master=", DIGITS)?.min(u32::MAX as u128) as u32;
        if master > MASTER_MAX {
            return Err(self.refused(MASTER_TOO_HIGH));
        }
        let rate = self.decimal("rate=", DIGITS)?.min(u32::MAX as u128) as u32;
        let refusal = refusal::of_clocks(master, rate);
        if refusal != ACCEPTED {
            return Err(self.refused(refusal));
        }
        Ok((master, rate))
    }

    /// A number of this range; 9 where it is outside.
    pub fn number(&mut self, key: &str, range: RangeInclusive<u64>) -> Result<u64, Refused> {
        self.long_number(key, DIGITS, range)
    }

    /// The same, of so many digits.
    pub fn long_number(&mut self, key: &str, digits: usize, range: RangeInclusive<u64>) -> Result<u64, Refused> {
        self.number_or(OUT_OF_RANGE, key, digits, range)
    }

    /// A 32-bit number of this range, with a refusal of its own where it is outside.
    pub fn short_number(&mut self, outside: u8, key: &str, range: RangeInclusive<u32>) -> Result<u32, Refused> {
        let range = *range.start() as u64..=*range.end() as u64;
        self.number_or(outside, key, DIGITS, range).map(|number| number as u32)
    }

    fn number_or(&mut self, outside: u8, key: &str, digits: usize, range: RangeInclusive<u64>) -> Result<u64, Refused> {
        let number = self.decimal(key, digits)?;
        let known = u64::try_from(number).ok().filter(|number| range.contains(number));
        known.ok_or(self.refused(outside))
    }

    /// So many bytes, each of two lower-case hex digits.
    pub fn bytes<const COUNT: usize>(&mut self, key: &str) -> Result<[u8; COUNT], Refused> {
        let digits = self.value(key)?;
        if digits.len() != 2 * COUNT {
            return Err(self.refused(BAD_FORM));
        }
        let mut bytes = [0; COUNT];
        for (byte, pair) in bytes.iter_mut().zip(digits.chunks(2)) {
            let high = nibble(pair[0]).ok_or(self.refused(BAD_FORM))?;
            let low = nibble(pair[1]).ok_or(self.refused(BAD_FORM))?;
            *byte = high << 4 | low;
        }
        Ok(bytes)
    }

    pub fn has_more(&self) -> bool {
        !self.text.is_empty()
    }

    /// 10 at the line after the last.
    pub fn end(&self) -> Result<(), Refused> {
        if self.text.is_empty() { Ok(()) } else { Err(Refused(BYTES_LEFT, self.line + 1)) }
    }

    pub fn refused(&self, number: u8) -> Refused {
        Refused(number, self.line)
    }
}

fn nibble(digit: u8) -> Option<u8> {
    match digit {
        b'0'..=b'9' => Some(digit - b'0'),
        b'a'..=b'f' => Some(digit - b'a' + 10),
        _ => None,
    }
}
