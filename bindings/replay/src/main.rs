//! Reads a script of calls on standard input and makes them through the library as a host links it. oracle/README.md has the form of a
//! script and what is printed: two lines for each call, as the crate's side prints them. Status 0; 1 after a line that is no call.
//!
//! `lent 0` has the calls made as the library exports them, `lent 1` by `Chip`.

mod by_calls;
mod by_chip;
mod record;

use oracle::call::Call;
use oracle::lines;
use ym2149_proved::{Chip, Record};

fn answer(host: &mut Record, by_chip: &mut bool, call: Call) -> String {
    match call {
        Call::Waiting(place) => format!("0 {}", record::waiting(host, place)),
        Call::Lent(on) => {
            *by_chip = on;
            "0".into()
        }
        Call::Set(field, value) => {
            record::set(host, field, value);
            "0".into()
        }
        _ if *by_chip => by_chip::answer(host, call),
        _ => by_calls::answer(host, call),
    }
}

fn main() -> std::io::Result<()> {
    let (mut host, mut by_chip) = (*Chip::new().record(), false);
    lines::play(|call, out| {
        let said = answer(&mut host, &mut by_chip, call);
        out.push_str(&format!("{said}\n{}\n", record::state(&host)));
    })
}
