//! Texts of all numbers of lines, whole and damaged, through the four calls that read one.

use crate::comparison::Comparison;
use crate::document::fields::LONGEST;
use crate::document::text::Profile;
use crate::document::{BUDGET_LIMIT, SLOT_LIMIT};
use crate::inputs::profiles::{any_profile, record};
use crate::inputs::random::Random;
use crate::inputs::typed::{NO_NUMBERS, OUT_OF_RANGE, OWN_BANDS_RIGHT, OWN_BANDS_WRONG, any_text, lines, text};

pub fn run(comparison: &mut Comparison) {
    let mut random = Random::new(5);
    every_length(comparison, &mut random);
    every_prefix(comparison, &mut random);
    for slots in [1, 2, 5, 511, SLOT_LIMIT] {
        faults_in_lines(comparison, &mut random, slots);
        faults_at_the_end(comparison, &mut random, slots);
    }
    for _ in 0..3_000 {
        several_faults(comparison, &mut random);
    }
}

/// A text through the four calls, with destination, budget and record as chance has it: a text's refusal goes before theirs.
fn read(comparison: &mut Comparison, random: &mut Random, text: &[u8]) {
    let destination = *random.pick(&[0, 6, 7, LONGEST]);
    comparison.text_to_record(text, destination);
    let budget = *random.pick(&[0, 1, 2, BUDGET_LIMIT, BUDGET_LIMIT + 1, u64::MAX]);
    comparison.least_band_of_text(text, budget);
    let lines = text.iter().filter(|&&byte| byte == 10).count();
    let slots = lines.saturating_sub(2).clamp(1, SLOT_LIMIT);
    let mut bytes = record(random, slots, 4).bytes();
    bytes.truncate(bytes.len() - random.below(2));
    comparison.record_against_text(&bytes, text);
    comparison.better_offer(text, &bytes, &bytes);
}

/// A profile whose answers are quickly worked out: it is the text that matters here.
fn quick(random: &mut Random, slots: usize) -> Profile {
    let setpoints = (0..slots).map(|slot| (slot / 100) as i32 * 25).collect();
    let profile = Profile::plain(random.between(-50, 50), random.between(0, 200), setpoints);
    let own: Vec<i32> = (0..slots).map(|_| profile.band + i32::from(random.below(9) == 0)).collect();
    if random.below(2) == 0 { profile } else { profile.with_bands(&own) }
}

fn quick_lines(random: &mut Random, slots: usize) -> Vec<Vec<u8>> {
    let profile = quick(random, slots);
    lines(random, &profile)
}

/// Texts of 0 to 516 lines, and of so many that their number ends in a small one when cut short.
fn every_length(comparison: &mut Comparison, random: &mut Random) {
    let all = quick_lines(random, SLOT_LIMIT + 2);
    for length in 0..=all.len() {
        read(comparison, random, &text(&all[..length]));
    }
    for length in 65_536..65_541 {
        read(comparison, random, &b"0\n".repeat(length));
    }
}

/// Every front part of a text of 42 lines, and of the longest text the parts that end near its end.
fn every_prefix(comparison: &mut Comparison, random: &mut Random) {
    let profile = any_profile(random, 40);
    let short = any_text(random, &profile);
    for end in 0..short.len() {
        read(comparison, random, &short[..end]);
    }
    let long = text(&quick_lines(random, SLOT_LIMIT + 1));
    for end in long.len() - 30..long.len() {
        read(comparison, random, &long[..end]);
    }
}

/// Every fault in the first lines, in the middle and in the last lines.
fn faults_in_lines(comparison: &mut Comparison, random: &mut Random, slots: usize) {
    let good = quick_lines(random, slots);
    let places = [0, 1, 2, 3, 4, 100, 257, 511, 512, 513];
    for place in places.into_iter().filter(|&place| place < good.len()) {
        for field in NO_NUMBERS.iter().chain(&OUT_OF_RANGE).chain(&OWN_BANDS_WRONG).chain(&OWN_BANDS_RIGHT) {
            let mut damaged = good.clone();
            damaged[place] = field.to_vec();
            read(comparison, random, &text(&damaged));
        }
        let joined = [text(&good[..place]), good[place].clone(), text(&good[place + 1..])].concat();
        read(comparison, random, &joined);
        let empty_line = [text(&good[..place]), b"\n".to_vec(), text(&good[place..])].concat();
        read(comparison, random, &empty_line);
    }
}

/// The last line not ended, and bytes after it: of a line, of no line, of a part of one.
fn faults_at_the_end(comparison: &mut Comparison, random: &mut Random, slots: usize) {
    let good = quick_lines(random, slots);
    let whole = text(&good);
    let good_lines: [&[u8]; 2] = [b"14,50", b"14,50 0,25"];
    for last in NO_NUMBERS.iter().chain(&OUT_OF_RANGE).chain(&OWN_BANDS_WRONG).chain(&good_lines) {
        read(comparison, random, &[text(&good[..good.len() - 1]), last.to_vec()].concat());
        read(comparison, random, &[whole.as_slice(), last].concat());
        read(comparison, random, &[whole.as_slice(), last, b"\n"].concat());
    }
    for byte in 0..=255 {
        read(comparison, random, &[whole.as_slice(), &[byte]].concat());
    }
}

/// Up to three faults in a text of any length: the first line that has one decides.
fn several_faults(comparison: &mut Comparison, random: &mut Random) {
    let slots = *random.pick(&[0, 1, 2, 3, 4, 7, 8, 30, 511, 512, 513, 514]);
    let mut lines = quick_lines(random, slots);
    for _ in 0..random.below(4) {
        let bound = *random.pick(&[2, lines.len()]);
        let faults = *random.pick(&[NO_NUMBERS.as_slice(), &OUT_OF_RANGE, &OWN_BANDS_WRONG, &OWN_BANDS_RIGHT]);
        lines[random.below(bound)] = random.pick(faults).to_vec();
    }
    let mut text = text(&lines);
    text.truncate(text.len() - random.below(2));
    read(comparison, random, &text);
}
