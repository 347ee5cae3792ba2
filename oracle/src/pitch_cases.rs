//! The lists that are kept for `crates/notes` and `crates/test_pitches`. 02, request 12.

use crate::pitch_items::{Item, Lists, pitches_text};
use crate::pitches::nearest;
use crate::refusal::{MASTER_MAX, PITCH_MAX, TEXT_MAX};

const KEYS: i32 = 88;
const MASTER: u32 = 2_000_000;

/// What `crates/notes` is run on: a piano's notes, the ends of the range, and what is about a tone. The tone of 7 is the first in range.
pub fn notes() -> Vec<u8> {
    let mut pitches: Vec<u64> = (1..=KEYS).map(|key| piano_key(key) as u64).collect();
    pitches.extend([1, PITCH_MAX as u64]);
    pitches.extend([7, 8, 4_094, 4_095].iter().flat_map(|&period| about_tone(MASTER as u64, period)));
    pitches_text(MASTER as u64, &pitches)
}

/// What `crates/test_pitches` is run on.
pub fn items() -> Vec<Item> {
    let texts =
        [masters(), pitches(), tones(), ties(), change_at_2_4(), first_lines(), later_lines(), cuts(), longest()];
    let lists = [empty_lists(), refused_lists(), right_lists(), wrong_lists(), periods_outside()];
    let texts = texts.into_iter().flatten().map(Item::Text);
    texts.chain(lists.into_iter().flatten().map(Item::Lists)).collect()
}

/// Millihertz in equal temperament: key 49 is A4, 440 Hz.
fn piano_key(key: i32) -> u32 {
    (440_000.0 * 2f64.powf((key - 49) as f64 / 12.0)).round() as u32
}

/// A period's tone with the pitches on both sides of it; these alone, where the tone is no whole number of millihertz.
fn about_tone(master: u64, period: u64) -> Vec<u64> {
    let (tone, rest) = (1_000 * master / (16 * period), 1_000 * master % (16 * period));
    if rest == 0 { vec![tone - 1, tone, tone + 1] } else { vec![tone, tone + 1] }
}

/// The least master and pitch with the pitch in the middle of two tones, the period's and the next one's. All others are its multiples:
/// the middle is 1,000 × master × (2 × period + 1) / (32 × period × (period + 1)).
pub fn least_tie(period: u64) -> (u64, u64) {
    let (above, below) = (1_000 * (2 * period + 1), 32 * period * (period + 1));
    let common = common_divisor(above, below);
    (below / common, above / common)
}

/// How many multiples of the least tie have master and pitch in range.
pub fn ties_of(period: u64) -> u64 {
    let (master, pitch) = least_tie(period);
    (MASTER_MAX as u64 / master).min(PITCH_MAX as u64 / pitch)
}

fn common_divisor(one: u64, other: u64) -> u64 {
    if other == 0 { one } else { common_divisor(other, one % other) }
}

/// A text to a pitch, so that one refused hides no other.
fn each(master: u64, pitches: impl IntoIterator<Item = u64>) -> Vec<Vec<u8>> {
    pitches.into_iter().map(|pitch| pitches_text(master, &[pitch])).collect()
}

/// Some of those above 2^32 would pass if they were cut to 32 bits. The last has a digit too many.
fn masters() -> Vec<Vec<u8>> {
    #[rustfmt::skip]
    let masters = [
        0, 1, 7, 8, 9, 1_073_741_822, 1_073_741_823, 1_073_741_824, 4_294_967_295, 4_294_967_296, 4_296_967_296, 9_999_999_999,
        10_000_000_000,
    ];
    masters.iter().flat_map(|&master| each(master, [440_000, 0])).collect()
}

/// As above.
fn pitches() -> Vec<Vec<u8>> {
    #[rustfmt::skip]
    let pitches = [
        0, 1, 2, 19_999_999, 20_000_000, 20_000_001, 4_294_967_295, 4_294_967_296, 4_295_407_296, 9_999_999_999, 10_000_000_000,
    ];
    [8, MASTER as u64, MASTER_MAX as u64].iter().flat_map(|&master| each(master, pitches)).collect()
}

/// Those of 1 and 4,096 too, which no answer may be. At 640,000 the tone of 2 is the highest pitch. Some are out of range.
fn tones() -> Vec<Vec<u8>> {
    let mut all = Vec::new();
    for master in [8, 640_000, 1_000_000, MASTER_MAX as u64] {
        for period in [1, 2, 3, 4_094, 4_095, 4_096] {
            all.extend(each(master, about_tone(master, period)));
        }
    }
    all
}

/// The least and the highest tie of each period, and 1,000,000 with 14,062,500, each with the pitches on both sides of it.
fn ties() -> Vec<Vec<u8>> {
    let periods = [2, 3, 4, 5, 24, 124, 255, 256, 1_023, 2_047, 2_048, 4_093, 4_094];
    let ends = periods.iter().flat_map(|&period| [(period, 1), (period, ties_of(period))]);
    let about = |(period, times): (u64, u64)| {
        let (master, pitch) = least_tie(period);
        each(times * master, [-1, 0, 1].map(|step| (times * pitch).saturating_add_signed(step)))
    };
    ends.chain([(4, 62_500)]).flat_map(about).collect()
}

/// 1,000 × 24 / (16 × 625) is 2.4, and 600 has 2.5: between them 3 is nearer, though the quotient is nearer to 2.
fn change_at_2_4() -> Vec<Vec<u8>> {
    let quotients_by_24 = [750, 749, 626, 625, 624, 612, 601, 600, 599, 501, 500, 499];
    [each(24, quotients_by_24), vec![pitches_text(24, &quotients_by_24)]].concat()
}

/// No list at all, and lists whose first line is damaged or refused.
fn first_lines() -> Vec<Vec<u8>> {
    #[rustfmt::skip]
    let texts = [
        "", "\n", "\r\n", " ", "x", "master", "master=", "master=\n", "master=2000000", "master=2000000\r\n", "master=2000000\n",
        "\nmaster=2000000\n", " master=2000000\n", "master =2000000\n", "master= 2000000\n", "master=2000000 \n", "Master=2000000\n",
        "clock=2000000\n", "aster=2000000\n", "masters=2000000\n", "master:2000000\n", "master==2000000\n", "master2000000\n",
        "master=02000000\n", "master=0\n", "master=00\n", "master=+8\n", "master=-8\n", "master=0x8\n", "master=8.0\n",
        "master=20000/0\n", "master=20000:0\n", "master=20\x0000\n", "master=２０００\n", "pitch=440000\n",
        "pitch=440000\nmaster=2000000\n", "rate=250000\nmaster=2000000\n", "master=7\npitch=x\n", "master=x\npitch=0\n",
        "master=7", "master=9999999999", "master=07\n", "\u{feff}master=2000000\npitch=440000\n",
    ];
    texts.map(|text| text.as_bytes().to_vec()).into()
}

/// The lines after a good first one. An empty line is 8 like any other.
fn later_lines() -> Vec<Vec<u8>> {
    #[rustfmt::skip]
    let ends = [
        "\n", "\r\n", " ", "x", "pitch=440000", "pitch=440000\r\n", "pitch=440000\n", "pitch=440000\n\n", "\npitch=440000\n",
        "pitch=440000\n\npitch=261626\n", "pitch=440000\npitch=261626", " pitch=440000\n", "pitch =440000\n", "pitch= 440000\n",
        "pitch=440000 \n", "pitch=440000 pitch=261626\n", "Pitch=440000\n", "note=440000\n", "itch=440000\n", "pitches=440000\n",
        "period=284\n", "pitch:440000\n", "pitch==440000\n", "pitch440000\n", "pitch=\n", "pitch", "pitch=", "pitch=0440000\n",
        "pitch=00\n", "pitch=01\n", "pitch=+1\n", "pitch=-1\n", "pitch=0x1\n", "pitch=440000.0\n", "pitch=440/000\n", "pitch=440:000\n",
        "pitch=44\x0000\n", "pitch=４４０\n", "pitch=00000000001\n", "pitch=440000\npitch=0\n",
        "pitch=440000\npitch=20000001\npitch=261626\n", "pitch=0\npitch=x\n",
        "pitch=x\npitch=0\n", "pitch=0\npitch=20000001\n", "pitch=440000\npitch=0\npitch=", "pitch=0",
        "pitch=9999999999", "pitch=440000\nmaster=2000000\n", "master=2000000\n", "pitch=440000\n\0",
    ];
    let text = |end: &str| [pitches_text(MASTER, &[]), end.as_bytes().to_vec()].concat();
    ends.map(text).into()
}

/// A list of two pitches, cut before each byte, without each byte, and with each byte out of ASCII.
fn cuts() -> Vec<Vec<u8>> {
    let good = pitches_text(MASTER, &[440_000, 261_626]);
    let damaged = |place: usize| {
        let (before, after) = (&good[..place], &good[place + 1..]);
        [before.to_vec(), [before, after].concat(), [before, b"\xff", after].concat()]
    };
    (0..good.len()).flat_map(damaged).collect()
}

/// The list with the most lines, whose output is the longest; the same with its last pitch refused, and with a byte more.
fn longest() -> Vec<Vec<u8>> {
    let most = pitches_text(10_000_000, &[1; 8_190]);
    assert_eq!(most.len(), TEXT_MAX);
    let cut = |length: usize, end: &[u8]| [&most[..length], end].concat();
    vec![most.clone(), cut(TEXT_MAX - 2, b"0\n"), cut(TEXT_MAX - 1, b"0\n")]
}

fn lists(master: u32, pitches: &[u32], periods: &[u16]) -> Lists {
    Lists { master, pitches: pitches.to_vec(), periods: periods.to_vec() }
}

fn right_list(master: u32, pitches: &[u32]) -> Lists {
    let periods: Vec<u16> = pitches.iter().map(|&pitch| nearest(master, pitch)).collect();
    lists(master, pitches, &periods)
}

/// As many of a piano's notes as a list may have.
fn piano() -> Lists {
    right_list(MASTER, &(1..=64).map(piano_key).collect::<Vec<u32>>())
}

/// 02: "empty lists are a yes". A refused master is refused before.
fn empty_lists() -> Vec<Lists> {
    [0, 7, 8, MASTER, MASTER_MAX, MASTER_MAX + 1, u32::MAX].map(|master| lists(master, &[], &[])).into()
}

/// Each number by itself, and with those that come after it; 19 ahead of a wrong period, at it and behind it.
fn refused_lists() -> Vec<Lists> {
    let (good, refused) = ([440_000, 261_626], [440_000, 0]);
    let mut all = Vec::new();
    for master in [0, 7, MASTER_MAX + 1, u32::MAX, 8, MASTER, MASTER_MAX] {
        for pitches in [good, refused, [0, 440_000], [PITCH_MAX + 1, u32::MAX]] {
            all.extend(
                [&[284, 478][..], &[1, 478], &[284], &[284, 478, 478], &[]]
                    .map(|periods| lists(master, &pitches, periods)),
            );
        }
        all.push(lists(master, &[], &[284]));
    }
    let Lists { pitches, periods, .. } = piano();
    all.extend([lists(MASTER, &pitches[..63], &periods), lists(MASTER, &pitches, &periods[..63])]);
    for place in [0, 31, 63] {
        let mut at_end = piano();
        at_end.pitches[63] = 0;
        at_end.periods[place] = 0;
        all.push(at_end);
    }
    all
}

fn right_lists() -> Vec<Lists> {
    let ends = [(8, 1), (8, PITCH_MAX), (MASTER_MAX, 1), (MASTER_MAX, PITCH_MAX)];
    let mut all = vec![piano(), right_list(MASTER, &[440_000, 440_000]), right_list(1_000_000, &[14_062_500])];
    all.extend(ends.map(|(master, pitch)| right_list(master, &[pitch])));
    all
}

/// One wrong period, at the first place, in the middle and at the last; and the higher one of a tie.
fn wrong_lists() -> Vec<Lists> {
    let mut all = vec![lists(1_000_000, &[14_062_500], &[5]), lists(24, &[624, 625, 626], &[3, 3, 2])];
    for place in [0, 31, 63] {
        let right = piano().periods[place];
        for wrong in [right - 1, right + 1, 0, 1, 4_096, 65_535] {
            let mut list = piano();
            list.periods[place] = wrong;
            all.push(list);
        }
    }
    all
}

/// 02: "A proposed period outside 2 to 4,095 is a no", though no period in range is as near as 1 or 4,096 would be.
fn periods_outside() -> Vec<Lists> {
    let pairs = [(8, PITCH_MAX), (8, 500), (MASTER_MAX, 1), (65_536, 1_000), (MASTER, 440_000)];
    let each = |(master, pitch)| [0, 1, 2, 4_095, 4_096, 65_535].map(|period| lists(master, &[pitch], &[period]));
    pairs.into_iter().flat_map(each).collect()
}
