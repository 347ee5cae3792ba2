//! 01, "Numbers a call can answer", with 02's later ones.

use core::fmt;

/// The number by which a call was refused; never 0. Shown, it is 01's words for it, or 02's.
#[derive(Clone, Copy, Debug, PartialEq, Eq)]
pub struct Refusal(u8);

impl Refusal {
    pub const MASTER_TOO_HIGH: Refusal = Refusal(1);
    pub const RATE_ZERO: Refusal = Refusal(2);
    pub const RATE_TOO_HIGH: Refusal = Refusal(3);
    pub const QUEUE_FULL: Refusal = Refusal(4);
    pub const BLOCK_TOO_LONG: Refusal = Refusal(5);
    pub const BLOCK_TOO_LATE: Refusal = Refusal(6);
    pub const NO_SUCH_CHANNEL: Refusal = Refusal(7);
    pub const NO_SUCH_VARIANT: Refusal = Refusal(13);
    pub const OUT_OF_RANGE: Refusal = Refusal(22);

    pub fn number(self) -> u8 {
        self.0
    }

    /// `value` where the number is 0, accepted.
    pub(crate) fn unless<T>(no: u8, value: T) -> Result<T, Refusal> {
        if no == 0 { Ok(value) } else { Err(Refusal(no)) }
    }
}

impl fmt::Display for Refusal {
    fn fmt(&self, f: &mut fmt::Formatter<'_>) -> fmt::Result {
        f.write_str(match self.0 {
            1 => "master clock above 1,073,741,823",
            2 => "sample rate 0",
            3 => "sample rate above master / 8, rounded down",
            4 => "data write bound for the queue while 256 writes wait",
            5 => "block buffer longer than 65,536 words",
            6 => "block's last word would end past cycle 2^64 - 1",
            7 => "mute or drum for channel 3 or above",
            13 => "variant above 2",
            22 => "a handed-in chip record out of range",
            no => return write!(f, "refused by number {no}"),
        })
    }
}

impl core::error::Error for Refusal {}
