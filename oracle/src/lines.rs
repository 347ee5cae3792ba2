//! A script's lines, whatever chip their calls go to. README.md has the form.

use crate::call::{self, Call};
use std::io::{self, BufRead, Write, stdin, stdout};

const PIECE: usize = 1 << 16;

/// One line: a comment prints nothing, a call what `called` prints of it, anything else `bad`, and gives false.
pub fn line(line: &str, out: &mut String, called: impl FnOnce(Call, &mut String)) -> bool {
    if line.starts_with('#') {
        return true;
    }
    let Some(call) = call::read(line) else {
        out.push_str("bad\n");
        return false;
    };
    called(call, out);
    true
}

/// The script on standard input, line by line; the process ends with status 1 after one that is `bad`.
pub fn play(mut called: impl FnMut(Call, &mut String)) -> io::Result<()> {
    let mut out = String::new();
    for text in stdin().lock().split(b'\n') {
        let good = line(&String::from_utf8_lossy(&text?), &mut out, &mut called);
        if out.len() > PIECE || !good {
            stdout().write_all(out.as_bytes())?;
            out.clear();
        }
        if !good {
            std::process::exit(1);
        }
    }
    stdout().write_all(out.as_bytes())
}
