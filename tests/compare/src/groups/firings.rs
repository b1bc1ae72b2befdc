//! Profiles from text to record and back: every slot restored, the record checked against its text, and the least bands around its count;
//! with special slots and without.

use crate::comparison::Comparison;
use crate::document::calls::Call;
use crate::document::fields::{LONGEST, byte_count};
use crate::document::text::{Profile, write_text};
use crate::inputs::profiles::{LIMIT_VALUES, SHAPES, profile};
use crate::inputs::random::Random;

pub fn run(comparison: &mut Comparison) {
    for slots in 1..=4 {
        for_all(&[0, 1, 2], slots, |setpoints| {
            fire_with_all(comparison, setpoints, &[-1, 0, 1, 2], &[0, 1, 2]);
        });
    }
    for slots in 1..=3 {
        for_all(&[-20_000, -1, 0, 20_000], slots, |setpoints| {
            fire_with_all(comparison, setpoints, &LIMIT_VALUES, &[0, 1, 19_999, 20_000, 39_999, 40_000]);
        });
    }
    windows_apart(comparison);
    long_destinations(comparison);
    let mut random = Random::new(2);
    for round in 0..60 * SHAPES.len() {
        let slots = 1 + random.below(40);
        fire(comparison, &profile(&mut random, SHAPES[round % SHAPES.len()], slots));
    }
    for round in 0..18 * SHAPES.len() {
        let slots = 1 + random.below(512);
        fire(comparison, &profile(&mut random, SHAPES[round % SHAPES.len()], slots));
    }
    for shape in SHAPES {
        for slots in [63, 64, 65, 100, 127, 128, 129, 200, 255, 256, 257, 300, 511, 512] {
            fire(comparison, &profile(&mut random, shape, slots));
        }
        for _ in 0..12 {
            fire(comparison, &profile(&mut random, shape, 512));
        }
    }
}

/// 512 setpoints so far apart that no value fits two of them, and rest values that fit one of them or none: nothing that
/// fits below the root may be forgotten.
fn windows_apart(comparison: &mut Comparison) {
    let setpoints: Vec<i32> = (0..512).map(|slot| slot * 37 % 512 * 78 - 19_929).collect();
    for slot in (0..512).step_by(9).chain([83, 511]) {
        for distance in [-39, -38, 38, 39] {
            let profile = Profile::plain(setpoints[slot] + distance, 38, setpoints.clone());
            comparison.text_to_record(&write_text(&profile), byte_count(512, 0));
        }
    }
}

/// Destinations whose length ends in a small number when cut short.
fn long_destinations(comparison: &mut Comparison) {
    let text = write_text(&Profile::plain(0, 0, vec![1, 2, 3, 4]));
    for destination in [255, 256, 257, 65_535, 65_536, 65_537, 1 << 20] {
        comparison.text_to_record(&text, destination);
    }
}

/// Every list of so many of the values.
pub fn for_all(values: &[i32], slots: usize, mut each: impl FnMut(&[i32])) {
    for number in 0..values.len().pow(slots as u32) {
        let digit = |slot: usize| number / values.len().pow(slot as u32) % values.len();
        each(&(0..slots).map(|slot| values[digit(slot)]).collect::<Vec<i32>>());
    }
}

pub fn fire_with_all(comparison: &mut Comparison, setpoints: &[i32], rests: &[i32], bands: &[i32]) {
    for &rest in rests {
        for &band in bands {
            fire(comparison, &Profile::plain(rest, band, setpoints.to_vec()));
        }
    }
}

/// One firing in full.
pub fn fire(comparison: &mut Comparison, profile: &Profile) {
    comparison.note_profile(profile);
    let text = write_text(profile);
    let ([_, _, terms, greatest_error], record) = comparison.text_to_record(&text, LONGEST);
    let Some(record) = record else {
        return;
    };
    let length = record.len();
    for destination in [0, length / 2, length - 1, length, length + 1] {
        comparison.text_to_record(&text, destination);
    }
    for slot in 0..=profile.setpoints.len() as u64 {
        comparison.record_slot(&record, slot);
    }
    let call = Call::TextToRecord { text: &text, destination: length };
    let checked = comparison.record_against_text(&record, &text);
    comparison.same("the check says kept, with the error of building", &call, [0, 1, greatest_error, 0], checked);
    let least = comparison.least_band_of_text(&text, u64::from(terms));
    if !profile.specials.is_empty() {
        comparison.same("special slots have no least band", &call, [12, 0, 0, 0], least);
        return;
    }
    comparison.same("the least band of as many terms is the greatest error", &call, [0, greatest_error, 0, 0], least);
    if terms > 0 {
        let [_, least, ..] = comparison.least_band_of_text(&text, u64::from(terms) - 1);
        comparison.same("one term fewer keeps no band so small", &call, true, i32::from(least) > profile.band);
    }
}
