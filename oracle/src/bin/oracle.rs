//! Reads a script of calls on standard input and prints two lines for each.

use oracle::{lines, script::Bench};

fn main() -> std::io::Result<()> {
    let mut bench = Bench::default();
    lines::play(|call, out| bench.called(call, out))
}
