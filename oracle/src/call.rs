//! One line of a script. README.md has the form.

use crate::set::{Field, named};

/// No script has a longer block.
const LONGEST: usize = 65_537;

#[derive(Clone, Copy)]
pub enum Call {
    New(u32, u32),
    Make(u32, u32, u8),
    Default,
    Reset,
    Write(u8, u8),
    Read(u8),
    Load([u8; 16]),
    Dump,
    Port(u8, u8),
    PortNow(u8, u8),
    ReadPort(u8),
    Cycle(u64),
    GetCycle,
    Sync(u64),
    Flush,
    Pending,
    Waiting(u8),
    Irq(bool),
    InsideIrq(bool),
    Trigger,
    Mute(u64, bool),
    Muted(u64),
    Drum(u64, Option<f32>),
    Outputs,
    Word,
    Block(usize),
    Lent(bool),
    Set(Field, i128),
}

/// None where the line has another form.
pub fn read(line: &str) -> Option<Call> {
    let parts: Vec<&str> = line.split(' ').collect();
    Some(match parts[..] {
        ["new", master, rate] => Call::New(number(master)?, number(rate)?),
        ["make", master, rate, variant] => Call::Make(number(master)?, number(rate)?, number(variant)?),
        ["default"] => Call::Default,
        ["reset"] => Call::Reset,
        ["write", register, value] => Call::Write(number(register)?, number(value)?),
        ["read", register] => Call::Read(number(register)?),
        ["load", digits] => Call::Load(bytes(digits)?),
        ["dump"] => Call::Dump,
        ["port", port, value] => Call::Port(number(port)?, number(value)?),
        ["port_now", port, value] => Call::PortNow(number(port)?, number(value)?),
        ["read_port", port] => Call::ReadPort(number(port)?),
        ["cycle", cycle] => Call::Cycle(number(cycle)?),
        ["get_cycle"] => Call::GetCycle,
        ["sync", cycle] => Call::Sync(number(cycle)?),
        ["flush"] => Call::Flush,
        ["pending"] => Call::Pending,
        ["waiting", place] => Call::Waiting(number(place)?),
        ["irq", on] => Call::Irq(flag(on)?),
        ["inside_irq", on] => Call::InsideIrq(flag(on)?),
        ["trigger"] => Call::Trigger,
        ["mute", channel, on] => Call::Mute(number(channel)?, flag(on)?),
        ["muted", channel] => Call::Muted(number(channel)?),
        ["drum", channel, "off"] => Call::Drum(number(channel)?, None),
        ["drum", channel, digits] => {
            let sample = f32::from_bits(u32::from_be_bytes(bytes(digits)?));
            Call::Drum(number(channel)?, Some(sample))
        }
        ["outputs"] => Call::Outputs,
        ["word"] => Call::Word,
        ["block", length] => Call::Block(number(length).filter(|length| *length <= LONGEST)?),
        ["lent", on] => Call::Lent(flag(on)?),
        ["set", name, value] => {
            let (field, limits) = named(name)?;
            let value = match value.strip_prefix('-') {
                Some(digits) => -number::<i128>(digits).filter(|value| *value > 0)?,
                None => number(value)?,
            };
            limits.contains(&value).then_some(Call::Set(field, value))?
        }
        _ => return None,
    })
}

fn flag(text: &str) -> Option<bool> {
    match text {
        "0" => Some(false),
        "1" => Some(true),
        _ => None,
    }
}

/// Decimal digits alone, no needless leading zero, within the type.
fn number<T: std::str::FromStr>(text: &str) -> Option<T> {
    let digits = text.bytes().all(|byte| byte.is_ascii_digit());
    let needless = text.len() > 1 && text.starts_with('0');
    if !digits || needless { None } else { text.parse().ok() }
}

/// Exactly two lower-case hex digits to a byte.
fn bytes<const N: usize>(text: &str) -> Option<[u8; N]> {
    let digits = text.bytes().all(|byte| matches!(byte, b'0'..=b'9' | b'a'..=b'f'));
    if !digits || text.len() != 2 * N {
        return None;
    }
    let mut out = [0; N];
    for (place, byte) in out.iter_mut().enumerate() {
        *byte = u8::from_str_radix(&text[2 * place..2 * place + 2], 16).ok()?;
    }
    Some(out)
}
