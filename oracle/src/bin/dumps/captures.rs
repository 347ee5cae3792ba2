//! Captures (02, request 01), in this order: good ones; what is no capture at all, a dump among it; each line damaged; bytes that are
//! no digits; numbers on both sides of each limit, stamps among them; stamps lower than the one before; two errors at once; more or
//! fewer lines than are due; bytes after the end; each cut and each byte left out; damages drawn at random; the longest. Last come
//! captures that are read as dumps.

mod damages;
mod ends;
mod errors;
mod good;
mod limits;
mod lines;
mod order;
mod others;
mod stamps;

use crate::{Kind, Text, text};

pub fn texts() -> Vec<Text> {
    let mut all = good::texts();
    all.extend(others::texts());
    all.extend(lines::texts());
    all.extend(limits::not_digits());
    all.extend(limits::texts());
    all.extend(stamps::texts());
    all.extend(order::texts());
    all.extend(errors::texts());
    all.extend(ends::texts());
    all.extend(damages::texts());
    all.extend(others::longest());
    all.iter_mut().for_each(|text| text.kind = Kind::Capture);
    all.extend(as_dumps());
    all
}

fn as_dumps() -> Vec<Text> {
    let read_as_dump = |capture: Text| text(format!("a capture: {}", capture.name), capture.bytes);
    good::texts().into_iter().map(read_as_dump).collect()
}
