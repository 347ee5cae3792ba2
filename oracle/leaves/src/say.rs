//! Numbers and labels on standard output.

pub fn text(t: &str) {
    print!("{t}");
}

pub fn end() {
    println!();
}

pub fn number(n: u64) {
    print!(" {n}");
}

pub fn hex(n: u32) {
    print!(" {n:x}");
}

pub fn flag(b: bool) {
    number(b as u64);
}

/// An f32's bits, eight digits.
pub fn bits(x: f32) {
    print!(" {:08x}", x.to_bits());
}
