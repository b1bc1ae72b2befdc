//! Document 02's F-8, "Profiles laid end to end": the number of terms of two profiles and of the joined one, and the number of
//! terms and the least margin of a profile and of the moved and the turned one. What is compared are the library's own answers,
//! with each other; whether its answers are the documents' is tried by the other groups, on other profiles.

use super::firings::for_all;
use crate::built::{Built, build};
use crate::comparison::Comparison;
use crate::document::laid::{farthest_moves, joined, moved, turned, with_values};
use crate::document::text::Profile;
use crate::document::{SLOT_LIMIT, VALUE_LIMIT};
use crate::inputs::profiles::{SHAPES, band, profile, rest, specials};
use crate::inputs::random::Random;
use crate::law_cases::joined_lengths;
use std::ops::Range;

/// The most slots of profiles that are moved and turned, by turns: long ones are rare, since every slot is restored.
const MOST_SLOTS: [usize; 10] = [8, 40, 8, 40, 8, 40, 8, 40, 200, SLOT_LIMIT];

pub fn run(comparison: &mut Comparison) {
    let mut random = Random::new(12);
    every_small_pair(comparison);
    for length in joined_lengths() {
        for round in 0..400 * SHAPES.len() {
            any_pair(comparison, &mut random, round, length);
        }
    }
    every_profile_at_a_limit(comparison);
    for round in 0..2_000 * SHAPES.len() {
        let slots = 1 + random.below(MOST_SLOTS[round / SHAPES.len() % MOST_SLOTS.len()]);
        let profile = profile(&mut random, SHAPES[round % SHAPES.len()], slots);
        anywhere(comparison, &mut random, &profile);
    }
}

/// "The joined profile needs as many terms as the two together, or exactly one fewer."
pub fn as_many_or_one_fewer([first, second]: [&Built; 2], whole: &Built) -> bool {
    let together = first.count + second.count;
    whole.count == together || whole.count + 1 == together
}

/// Two profiles of equal length with one rest value, joined with a common band.
fn join(comparison: &mut Comparison, parts: [Profile; 2], common: i32) {
    let whole = build(comparison, joined(parts.each_ref(), common));
    let parts = parts.map(|part| build(comparison, part));
    let [first, second] = &parts;
    let by_law = as_many_or_one_fewer([first, second], &whole);
    let counts = [first, second, &whole].map(|built| built.count);
    comparison.same(
        "a joined profile has as many terms as the two together, or one fewer",
        &format_args!("terms {counts:?} of {:?}, {:?} and {:?}", first.profile, second.profile, whole.profile),
        true,
        by_law,
    );
    comparison.coverage.laws.note_joined([first, second], &whole);
}

/// A profile moved by some amounts, and turned: the number of terms and the least margin are as they were.
fn move_and_turn(comparison: &mut Comparison, profile: Profile, amounts: &[i32]) {
    let before = build(comparison, profile);
    let margin = before.least_margin(comparison);
    for &by in amounts {
        let after = build(comparison, moved(&before.profile, by));
        same_count_and_margin(comparison, "moved", (&before, margin), &after);
        comparison.coverage.laws.note_moved([&before, &after], by, margin);
    }
    let after = build(comparison, turned(&before.profile));
    same_count_and_margin(comparison, "turned", (&before, margin), &after);
    comparison.coverage.laws.note_turned([&before, &after], margin);
}

fn same_count_and_margin(comparison: &mut Comparison, how: &str, (before, margin): (&Built, i32), after: &Built) {
    let found = (after.count, after.least_margin(comparison));
    let case = format_args!("{:?}, {how}: {:?}", before.profile, after.profile);
    comparison.same("the number of terms and the least margin are as they were", &case, (before.count, margin), found);
}

/// One slot each and two slots each, with every setpoint and every band of a few steps, joined with every such common band.
fn every_small_pair(comparison: &mut Comparison) {
    let spaces: [(usize, &[i32], &[i32]); 2] =
        [(1, &[-2, -1, 0, 1, 2], &[-3, -1, 0, 1, 3]), (2, &[0, 1, 2], &[0, 1, 3])];
    for (slots, values, rests) in spaces {
        for_all(values, 2 * slots, |setpoints| {
            for_all(&[0, 1, 2], 2 * slots, |bands| {
                for &rest in rests {
                    let part = |slots: Range<usize>| {
                        with_bands(rest, bands[slots.start], &setpoints[slots.clone()], &bands[slots])
                    };
                    for common in 0..=3 {
                        join(comparison, [part(0..slots), part(slots..2 * slots)], common);
                    }
                }
            });
        });
    }
}

fn with_bands(rest: i32, common: i32, setpoints: &[i32], bands: &[i32]) -> Profile {
    Profile::plain(rest, common, setpoints.to_vec()).with_bands(bands)
}

/// Two profiles of one shape: the halves of one, or each drawn by itself. By turns they have one common band or two, and own
/// bands; the joined one has the common band of either or another.
fn any_pair(comparison: &mut Comparison, random: &mut Random, round: usize, length: usize) {
    let shape = SHAPES[round % SHAPES.len()];
    let [halves, two_bands, own_bands] = [1, 2, 4].map(|turn| (round / SHAPES.len()) & turn != 0);
    let setpoints =
        if halves { shape(random, 2 * length) } else { [shape(random, length), shape(random, length)].concat() };
    let rest = rest(random, &setpoints);
    let first_band = band(random);
    let second_band = if two_bands { band(random) } else { first_band };
    let mut part = |band: i32, setpoints: &[i32]| {
        let specials = if own_bands { specials(random, length, band) } else { Vec::new() };
        Profile { specials, ..Profile::plain(rest, band, setpoints.to_vec()) }
    };
    let parts = [part(first_band, &setpoints[..length]), part(second_band, &setpoints[length..])];
    let other_band = band(random);
    join(comparison, parts, *random.pick(&[first_band, second_band, other_band]));
}

/// One to four slots at a limit or a few steps from it, with bands that reach past it, moved away by a step or two and up to
/// the other limit. A term's value is cut at the limit where the band alone would let it go farther.
fn every_profile_at_a_limit(comparison: &mut Comparison) {
    let spaces: [(usize, &[i32]); 4] = [(1, &[0, 1, 2, 3]), (2, &[0, 1, 2, 3]), (3, &[0, 1, 2, 3]), (4, &[0, 1, 3])];
    for (slots, steps) in spaces {
        for_all(steps, slots, |steps| {
            for_all(&[0, 1, 2], slots, |bands| {
                for rest in [0, 2, 5] {
                    from_either_limit(comparison, &with_bands(rest, common_band(bands), steps, bands));
                }
            });
        });
    }
}

/// A common band of 0 to 3 beside bands of 0 to 2: that of all slots, of some or of none.
fn common_band(bands: &[i32]) -> i32 {
    bands.iter().sum::<i32>() % 4
}

/// A profile with its values counted from the lower limit up, and from the upper limit down.
fn from_either_limit(comparison: &mut Comparison, profile: &Profile) {
    let from_below = moved(profile, -VALUE_LIMIT);
    let from_above = turned(&from_below);
    let [_, up] = farthest_moves(&from_below);
    move_and_turn(comparison, from_below, &[1, 2, up]);
    move_and_turn(comparison, from_above, &[-1, -2, -up]);
}

/// A profile with its values as they are or nearer to 0, so that there is room for moves: to either limit, by a few steps and
/// by any amount between.
fn anywhere(comparison: &mut Comparison, random: &mut Random, profile: &Profile) {
    let nearer = *random.pick(&[1, 2, 100, 1_000]);
    let profile = with_values(profile, |value| value / nearer);
    let [down, up] = farthest_moves(&profile);
    let step = random.between(-3, 3).clamp(down, up);
    let mut amounts = vec![down, up, step, random.between(down, up)];
    amounts.retain(|&by| by != 0);
    move_and_turn(comparison, profile, &amounts);
}
