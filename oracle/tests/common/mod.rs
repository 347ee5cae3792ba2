//! Scripts that say under their lines what 01 gives.

use oracle::script::Bench;

/// Plays a script and holds each `# answer:` and `# state:` beside what the call above printed. Answers how many there were.
pub fn check(script: &str, mut unsaid: impl FnMut(&str, &str, &str)) -> usize {
    let mut bench = Bench::default();
    let mut printed = String::new();
    let mut checked = 0;
    let lines: Vec<&str> = script.lines().collect();
    for (place, line) in lines.iter().enumerate() {
        let (answer, state) = printed.split_once('\n').unwrap_or_default();
        if let Some(expected) = line.strip_prefix("# answer: ") {
            assert_eq!(answer, expected, "line {}", place + 1);
            checked += 1;
        } else if let Some(fields) = line.strip_prefix("# state: ") {
            let fields = fields.split(' ').filter(|field| !state.split_whitespace().any(|part| part == *field));
            assert_eq!(fields.collect::<Vec<_>>(), [""; 0], "line {}: {state}", place + 1);
            checked += 1;
        } else if !line.starts_with('#') {
            let before = state.to_string();
            printed.clear();
            assert!(bench.line(line, &mut printed), "line {}", place + 1);
            if bench.ring.fits() {
                let queue: Vec<_> = (0..).map_while(|place| bench.chip.waiting(place)).collect();
                assert_eq!(bench.ring.all(), queue, "line {}: the ring and the crate's queue", place + 1);
            }
            if !lines.get(place + 1).is_some_and(|next| next.starts_with("# answer: ")) {
                unsaid(line, &before, &printed);
            }
        }
    }
    checked
}
