//! 02, request 12, by hand. `oracle/pitches` draws cases and compares our program.

use oracle::pitch_cases::{items, notes};
use oracle::pitch_items::{input, output};
use oracle::pitches::{are_nearest, nearest, nearest_period, printed, tied};
use std::fs;

/// 2,000,000 / (16 × 284) is 440.141 Hz, and C4 is 261.626 Hz.
#[test]
fn notes_at_2_megahertz() {
    assert_eq!(nearest(2_000_000, 440_000), 284);
    assert_eq!(nearest(2_000_000, 261_626), 478);
}

/// 1,000,000 / 64 is 15,625 Hz and 1,000,000 / 80 is 12,500 Hz: 14,062.5 Hz is just between them.
#[test]
fn tie_takes_the_smaller() {
    assert!(tied(1_000_000, 14_062_500));
    assert_eq!([14_062_499, 14_062_500, 14_062_501].map(|pitch| nearest(1_000_000, pitch)), [5, 4, 4]);
    assert!(!tied(1_000_000, 14_062_499) && !tied(1_000_000, 14_062_501));
}

/// 24 / 32 is 0.75 Hz and 24 / 48 is 0.5 Hz, with 0.625 Hz just between them: a quotient of 2.4. At 0.6 Hz it is 2.5.
#[test]
fn change_of_2_to_3_is_at_2_4() {
    assert_eq!([750, 626, 625, 624, 601, 600, 500].map(|pitch| nearest(24, pitch)), [2, 2, 2, 3, 3, 3, 3]);
}

#[test]
fn ends_of_the_ranges() {
    let (lowest, highest) = (8, 1_073_741_823);
    assert_eq!(nearest_period(lowest, 20_000_000), (0, 2));
    // 8 / (16 × 500) is 0.001 Hz.
    assert_eq!(nearest_period(lowest, 1), (0, 500));
    assert_eq!(nearest_period(highest, 1), (0, 4_095));
    // 1,073,741,823,000 / (16 × 20,000,000) is 3,355.44.
    assert_eq!(nearest_period(highest, 20_000_000), (0, 3_355));
    assert_eq!([0, 7, 1_073_741_824].map(|master| nearest_period(master, 440_000)), [(1, 0); 3]);
    assert_eq!([0, 20_000_001].map(|pitch| nearest_period(2_000_000, pitch)), [(19, 0); 2]);
    assert_eq!(nearest_period(7, 0), (1, 0));
}

#[test]
fn lists_by_hand() {
    let said = |periods: &[u16]| are_nearest(2_000_000, &[440_000, 261_626], periods);
    assert_eq!(said(&[284, 478]), (0, true));
    for wrong in [[285, 478], [284, 477], [0, 478], [1, 478], [284, 4_096], [284, 65_535], [478, 284]] {
        assert_eq!(said(&wrong), (0, false), "{wrong:?}");
    }
    assert_eq!(are_nearest(1_000_000, &[14_062_500], &[4]), (0, true));
    assert_eq!(are_nearest(1_000_000, &[14_062_500], &[5]), (0, false));
    assert_eq!(are_nearest(8, &[], &[]), (0, true));
    // 0.5 Hz is the tone of 1 itself, which no list may have.
    assert_eq!([1, 2].map(|period| are_nearest(8, &[500], &[period])), [(0, false), (0, true)]);
}

/// 1, 20, 19; a refused pitch before a wrong period.
#[test]
fn order_of_refusals() {
    assert_eq!(are_nearest(7, &[], &[]), (1, false));
    assert_eq!(are_nearest(7, &[0], &[]), (1, false));
    assert_eq!(are_nearest(8, &[0], &[]), (20, false));
    assert_eq!(are_nearest(8, &[], &[2]), (20, false));
    assert_eq!(are_nearest(8, &[1, 0], &[0, 2]), (19, false));
    assert_eq!(are_nearest(8, &[1, 20_000_001], &[500, 2]), (19, false));
}

#[test]
fn texts_by_hand() {
    for (text, expected) in [
        ("master=2000000\npitch=440000\npitch=261626\n", "period=284\nperiod=478\n"),
        ("master=8\n", ""),
        ("", "refused=8 line=1\n"),
        ("master=2000000", "refused=8 line=1\n"),
        ("master=7\npitch=x\n", "refused=1 line=1\n"),
        ("master=9999999999\n", "refused=1 line=1\n"),
        ("master=10000000000\n", "refused=8 line=1\n"),
        ("master=2000000\npitch=440000\npitch=0\n", "refused=19 line=3\n"),
        ("master=2000000\npitch=20000001\npitch=x\n", "refused=19 line=2\n"),
        ("master=2000000\npitch=4294967297\n", "refused=19 line=2\n"),
        ("master=2000000\npitch=0440000\n", "refused=8 line=2\n"),
        ("master=2000000\npitch=440000\n\n", "refused=8 line=3\n"),
        ("master=2000000\npitch=440000", "refused=8 line=2\n"),
    ] {
        assert_eq!(String::from_utf8(printed(text.as_bytes())).unwrap(), expected, "{text:?}");
    }
    assert_eq!(printed(&[b'x'; 65_537]), b"refused=11 line=0\n");
    assert_eq!(printed(&[b'x'; 65_536]), b"refused=8 line=1\n");
}

/// `oracle/pitches` writes these files.
#[test]
fn kept_files_are_the_oracles() {
    kept("notes/stdin", &notes());
    kept("notes/stdout", &printed(&notes()));
    kept("test_pitches/stdin", &input(&items()));
    kept("test_pitches/stdout", &output(&items()));
}

fn kept(name: &str, expected: &[u8]) {
    let path = format!("{}/../crates/{name}", env!("CARGO_MANIFEST_DIR"));
    assert!(fs::read(&path).unwrap() == expected, "{path} is another");
}
