//! From a failing input to a short one that still fails.

/// Drops parts, large ones first, until no single item can go.
pub fn shortest<T: Clone>(items: &[T], fails: &mut dyn FnMut(&[T]) -> bool) -> Vec<T> {
    let mut kept = items.to_vec();
    let mut size = (kept.len() / 2).max(1);
    loop {
        let before = kept.len();
        let mut place = 0;
        while place < kept.len() {
            let end = (place + size).min(kept.len());
            let without = [&kept[..place], &kept[end..]].concat();
            if fails(&without) {
                kept = without;
            } else {
                place = end;
            }
        }
        if size == 1 && kept.len() == before {
            return kept;
        }
        size = (size / 2).max(1);
    }
}

/// Makes the numbers of each line smaller while the whole still fails.
pub fn smallest(lines: &[String], fails: &mut dyn FnMut(&[String]) -> bool) -> Vec<String> {
    let mut kept = lines.to_vec();
    for line in 0..kept.len() {
        for part in 1..kept[line].split(' ').count() {
            while let Some(smaller) = smaller(&kept, line, part, fails) {
                kept = smaller;
            }
        }
    }
    kept
}

fn smaller(
    lines: &[String],
    line: usize,
    part: usize,
    fails: &mut dyn FnMut(&[String]) -> bool,
) -> Option<Vec<String>> {
    let parts: Vec<&str> = lines[line].split(' ').collect();
    let tries = match parts[0] {
        "load" => fewer_bytes(parts[part]),
        "drum" if part == 2 => Vec::new(),
        _ => smaller_numbers(parts[part]),
    };
    tries.iter().find_map(|text| {
        let mut changed = parts.clone();
        changed[part] = text;
        let mut tried = lines.to_vec();
        tried[line] = changed.join(" ");
        fails(&tried).then_some(tried)
    })
}

fn smaller_numbers(text: &str) -> Vec<String> {
    let number: u64 = text.parse().unwrap_or(0);
    let less = [0, 1, 2, number / 2, number.saturating_sub(1)];
    less.iter().filter(|less| **less < number).map(u64::to_string).collect()
}

/// The hex digits with one byte that is not 00 made so.
fn fewer_bytes(digits: &str) -> Vec<String> {
    let places = (0..digits.len()).step_by(2).filter(|place| &digits[*place..place + 2] != "00");
    places.map(|place| format!("{}00{}", &digits[..place], &digits[place + 2..])).collect()
}
