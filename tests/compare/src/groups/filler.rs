//! Document 02's F-3, "Slots past the end": profiles whose length is no power of two, and records made elsewhere that have terms
//! over filler alone. Such a record is valid, and nothing that is looked at depends on these terms.

use super::firings::{fire, fire_with_all, for_all};
use super::records::{every_slot, restored_profile};
use crate::comparison::Comparison;
use crate::document::VALUE_LIMIT;
use crate::document::record::Record;
use crate::document::text::Profile;
use crate::inputs::profiles::{SHAPES, away, filler_nodes, profile, record, with_terms_at};
use crate::inputs::random::Random;
use crate::inputs::typed::any_text;

pub fn run(comparison: &mut Comparison) {
    let mut random = Random::new(8);
    for slots in [3, 5, 6, 7] {
        for_all(&[0, 1], slots, |setpoints| fire_with_all(comparison, setpoints, &[0, 1], &[0]));
    }
    for slots in lengths() {
        for round in 0..4 * SHAPES.len() {
            fire(comparison, &profile(&mut random, SHAPES[round % SHAPES.len()], slots));
        }
        terms_over_filler(comparison, &mut random, slots);
    }
}

/// For every m from 8 on: one slot in the right half, one filler slot, and a last slot whose path turns at every node; 3, where
/// these are one; and 300, which the request names. In the first two all filler and the last slot have a node to themselves, so a term there may
/// as well serve filler, and F-3 changes no fewest number; along the third's path filler hangs from every other node.
fn lengths() -> impl Iterator<Item = usize> {
    (3..=9).map(|height| 1 << height).flat_map(|m| [m / 2 + 1, m - 1, 2 * m / 3 + 1]).chain([3, 300])
}

/// Terms at the first, at the last and at all nodes over filler alone, with a value far from the last setpoint: the check
/// answers by the slots below n, and each of these is restored as ever.
fn terms_over_filler(comparison: &mut Comparison, random: &mut Random, slots: usize) {
    let band = random.between(0, 500);
    let own: Vec<i32> = (0..slots).map(|_| random.between(0, 500)).collect();
    let specials = Profile::plain(0, band, vec![0; slots]).with_bands(&own).specials;
    for specials in [Vec::new(), specials] {
        let record = Record { band, specials, ..record(random, slots, 5) };
        over_filler_by_bands(comparison, random, record);
    }
}

/// The same for a record's bands.
fn over_filler_by_bands(comparison: &mut Comparison, random: &mut Random, plain: Record) {
    let slots = plain.slots;
    let bands = plain.bands();
    let restored = restored_profile(random, &plain);
    let far = away(restored.setpoints[slots - 1], VALUE_LIMIT);
    let nodes = filler_nodes(slots);
    for nodes in [&nodes[..1], &nodes[nodes.len() - 1..], &nodes] {
        let record = with_terms_at(&plain, nodes, far);
        let bytes = record.bytes();
        let case = format!("{slots} slots, terms at nodes {nodes:?}");
        every_slot(comparison, &record);
        let kept = comparison.record_against_text(&bytes, &any_text(random, &restored));
        comparison.same("kept, with terms over filler alone", &case, [0, 1, 0, 0], kept);
        for slot in [0, random.below(slots), slots - 1] {
            let mut moved = restored.clone();
            moved.setpoints[slot] = away(moved.setpoints[slot], bands[slot] + 1);
            let not_kept = comparison.record_against_text(&bytes, &any_text(random, &moved));
            comparison.same("not kept in a slot below n", &case, [0, 0, 0, slot as u16], not_kept);
        }
    }
}
