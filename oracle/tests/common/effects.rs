//! What writes report, in the words of 02's request 03. Nothing of the crate's but the two counts.

use oracle::chip::Effects;

/// 01: "the byte is masked .. and stored"
const MASKS: [u8; 14] = [0xff, 0x0f, 0xff, 0x0f, 0xff, 0x0f, 0x1f, 0x3f, 0x1f, 0x1f, 0x1f, 0xff, 0xff, 0x0f];

/// The stored bytes, and what the writes to them come to.
pub struct Stored {
    bytes: [u8; 14],
    pub effects: Effects,
}

/// 01: "registers 0 and then 0x3F to R7"
impl Default for Stored {
    fn default() -> Self {
        Stored { bytes: [0, 0, 0, 0, 0, 0, 0, 0x3f, 0, 0, 0, 0, 0, 0], effects: Effects::default() }
    }
}

impl Stored {
    /// "whether the stored byte changed", from what it was just before; "whether the envelope restarted", which R13 does, "even for the
    /// same byte" (01). Registers 14 and up "change nothing" (01).
    pub fn write(&mut self, register: u8, value: u8) {
        let Some(byte) = self.bytes.get_mut(register as usize) else { return };
        let before = *byte;
        *byte = value & MASKS[register as usize];
        self.effects.changed += (*byte != before) as u32;
        self.effects.restarted += (register == 13) as u32;
    }

    /// What these writes come to, on the bytes of a dump.
    #[allow(dead_code)] // of the tests that take this file, one has no use for it
    pub fn counted(dumped: [u8; 16], writes: impl IntoIterator<Item = (u8, u8)>) -> Effects {
        let mut stored = Stored { bytes: std::array::from_fn(|register| dumped[register]), ..Stored::default() };
        writes.into_iter().for_each(|(register, value)| stored.write(register, value));
        stored.effects
    }
}
