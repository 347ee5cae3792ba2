//! Reads a capture on standard input and prints its words and the writes left, or why it is refused.

use oracle::capture::play;
use oracle::refusal::TEXT_MAX;
use std::io::{BufWriter, Read, Write, stdin, stdout};

fn main() -> std::io::Result<()> {
    let mut text = Vec::new();
    // One byte past the limit is enough to know 11.
    stdin().lock().take(TEXT_MAX as u64 + 1).read_to_end(&mut text)?;
    let mut out = BufWriter::with_capacity(1 << 16, stdout().lock());
    play(&text, &mut out)?;
    out.flush()
}
