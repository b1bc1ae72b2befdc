//! Profiles and synopses of many kinds.

use super::random::Random;
use crate::document::bands::Special;
use crate::document::record::Record;
use crate::document::synopsis::{Term, padded_length, restored};
use crate::document::text::Profile;
use crate::document::{BAND_LIMIT, VALUE_LIMIT};

type Shape = fn(&mut Random, usize) -> Vec<i32>;

/// The kinds of setpoints.
pub const SHAPES: [Shape; 9] =
    [anywhere, narrow, steps, ramp, alternating, at_the_limits, hundredths, fed_by_terms, ends_apart];

/// Values at and near the limits and 0.
pub const LIMIT_VALUES: [i32; 7] = [-VALUE_LIMIT, 1 - VALUE_LIMIT, -1, 0, 1, VALUE_LIMIT - 1, VALUE_LIMIT];

pub fn value(random: &mut Random) -> i32 {
    random.between(-VALUE_LIMIT, VALUE_LIMIT)
}

fn clipped(value: i32) -> i32 {
    value.clamp(-VALUE_LIMIT, VALUE_LIMIT)
}

/// A value so far from another, where the limits have one.
pub fn away(value: i32, distance: i32) -> i32 {
    clipped(if value > 0 { value - distance } else { value + distance })
}

fn anywhere(random: &mut Random, slots: usize) -> Vec<i32> {
    (0..slots).map(|_| value(random)).collect()
}

fn narrow(random: &mut Random, slots: usize) -> Vec<i32> {
    let middle = value(random);
    let width = random.between(1, 300);
    (0..slots).map(|_| clipped(middle + random.between(-width, width))).collect()
}

/// Levels that are held for a while, with some unrest on them.
fn steps(random: &mut Random, slots: usize) -> Vec<i32> {
    let unrest = random.between(0, 30);
    let mut level = value(random);
    let mut step = |_| {
        if random.below(9) == 0 {
            level = value(random);
        }
        clipped(level + random.between(-unrest, unrest))
    };
    (0..slots).map(&mut step).collect()
}

fn ramp(random: &mut Random, slots: usize) -> Vec<i32> {
    let start = value(random);
    let slope = random.between(-150, 150);
    (0..slots).map(|slot| clipped(start + slope * slot as i32)).collect()
}

/// Two levels by turns, with slips: what fits below a node is seldom one interval.
fn alternating(random: &mut Random, slots: usize) -> Vec<i32> {
    let levels = [value(random), value(random)];
    (0..slots).map(|slot| levels[(slot + usize::from(random.below(12) == 0)) % 2]).collect()
}

fn at_the_limits(random: &mut Random, slots: usize) -> Vec<i32> {
    (0..slots).map(|_| *random.pick(&LIMIT_VALUES)).collect()
}

/// A few hundredths: most halves are not whole.
fn hundredths(random: &mut Random, slots: usize) -> Vec<i32> {
    (0..slots).map(|_| random.between(-3, 3)).collect()
}

/// What a synopsis restores, with some unrest on it: few terms keep a small band.
fn fed_by_terms(random: &mut Random, slots: usize) -> Vec<i32> {
    let terms = terms(random, slots, slots / 6 + 1);
    let rest = value(random);
    let unrest = random.between(0, 30);
    let first_leaf = padded_length(slots);
    (0..slots)
        .map(|slot| clipped(restored(&terms, rest, first_leaf + slot) + random.between(-unrest, unrest)))
        .collect()
}

/// A level that is held, and another in the last slots: terms for these meet filler at once.
fn ends_apart(random: &mut Random, slots: usize) -> Vec<i32> {
    let levels = [value(random), value(random)];
    let last_slots = 1 + random.below(slots.min(3));
    (0..slots).map(|slot| levels[usize::from(slot >= slots - last_slots)]).collect()
}

/// Some terms, ascending by node; `most` is how many are drawn.
pub fn terms(random: &mut Random, slots: usize, most: usize) -> Vec<Term> {
    let nodes = 2 * padded_length(slots) - 1;
    let mut drawn: Vec<usize> = (0..most).map(|_| 1 + random.below(nodes)).collect();
    drawn.sort_unstable();
    drawn.dedup();
    drawn.into_iter().map(|node| Term { node, value: value(random) }).collect()
}

pub fn rest(random: &mut Random, setpoints: &[i32]) -> i32 {
    match random.below(4) {
        0 => value(random),
        1 => *random.pick(&LIMIT_VALUES),
        _ => clipped(random.pick(setpoints) + random.between(-20, 20)),
    }
}

pub fn band(random: &mut Random) -> i32 {
    match random.below(7) {
        0 => 0,
        1 => random.between(1, 3),
        2 => random.between(0, 60),
        3 => random.between(0, 500),
        4 => random.between(0, 10_000),
        5 => random.between(0, BAND_LIMIT),
        _ => BAND_LIMIT - random.between(0, 1),
    }
}

/// An own band for a slot: of any size, near the common one, or tighter.
fn own_band(random: &mut Random, common: i32) -> i32 {
    match random.below(6) {
        0 => band(random),
        1 => 0,
        2 => (common + random.between(1, 100)).min(BAND_LIMIT),
        3 => (common + random.between(-3, 3)).clamp(0, BAND_LIMIT),
        _ => random.between(0, common),
    }
}

/// Special slots as half of the profiles have them: in some slots, around one, or in all; where the own band is drawn as the
/// common one, its slot is none.
pub fn specials(random: &mut Random, slots: usize, common: i32) -> Vec<Special> {
    let drawn: Vec<usize> = match random.below(6) {
        0 => (0..slots).filter(|_| random.below(5) == 0).collect(),
        1 => {
            let (middle, reach) = (random.below(slots), random.below(13));
            (0..slots).filter(|slot| slot.abs_diff(middle) <= reach).collect()
        }
        2 => (0..slots).collect(),
        _ => Vec::new(),
    };
    let own = drawn.into_iter().map(|slot| Special { slot, band: own_band(random, common) });
    own.filter(|special| special.band != common).collect()
}

pub fn profile(random: &mut Random, shape: Shape, slots: usize) -> Profile {
    let setpoints = shape(random, slots);
    let (rest, band) = (rest(random, &setpoints), band(random));
    Profile { specials: specials(random, slots, band), ..Profile::plain(rest, band, setpoints) }
}

pub fn any_profile(random: &mut Random, slots: usize) -> Profile {
    let shape = *random.pick(&SHAPES);
    profile(random, shape, slots)
}

/// The nodes over filler alone: those whose first slot is n or more.
pub fn filler_nodes(slots: usize) -> Vec<usize> {
    let first_leaf = padded_length(slots);
    let first_slot = |mut node: usize| {
        while node < first_leaf {
            node *= 2;
        }
        node - first_leaf
    };
    (1..2 * first_leaf).filter(|&node| first_slot(node) >= slots).collect()
}

/// A record with one value at some nodes, besides its terms at others.
pub fn with_terms_at(record: &Record, nodes: &[usize], value: i32) -> Record {
    let mut terms = record.terms.clone();
    terms.retain(|term| !nodes.contains(&term.node));
    terms.extend(nodes.iter().map(|&node| Term { node, value }));
    terms.sort_unstable_by_key(|term| term.node);
    Record { terms, ..record.clone() }
}

/// A record that is accepted, with up to `most` terms, half of the time with special slots.
pub fn record(random: &mut Random, slots: usize, most: usize) -> Record {
    let band = band(random);
    let specials = specials(random, slots, band);
    Record { specials, ..Record::plain(slots, band, value(random), terms(random, slots, most)) }
}
