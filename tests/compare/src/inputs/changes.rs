//! Changes of a record's fields, to what is just within a limit and just beyond it.

use super::profiles::LIMIT_VALUES;
use super::random::Random;
use crate::document::SLOT_LIMIT;
use crate::document::fields::{Fields, SpecialFields};
use crate::document::synopsis::padded_length;

/// One change. A term, or a special slot, is named by its place in the list, counted round and round.
pub enum Change {
    Version(i32),
    Length(i32),
    Band(i32),
    Rest(i32),
    CountBy(i32),
    Fill(i32),
    NodeTo(usize, i32),
    NodeBy(usize, i32),
    ValueTo(usize, i32),
    OneMoreTerm(i32),
    TermsReversed,
    TermsOnNodesTo(i32),
    SecondCountBy(i32),
    SpecialSlotTo(usize, i32),
    SpecialSlotBy(usize, i32),
    SpecialBandTo(usize, i32),
    SpecialBandCommon(usize),
    OneMoreSpecial(i32, i32),
    SpecialsReversed,
    SpecialsInSlotsTo(i32),
    NoSpecials,
    NoSecondCount,
}

impl Change {
    pub fn apply(&self, fields: &mut Fields) {
        match *self {
            Change::Version(version) => fields.version = version,
            Change::Length(length) => fields.length = length,
            Change::Band(band) => fields.band = band,
            Change::Rest(rest) => fields.rest = rest,
            Change::CountBy(step) => fields.count += step,
            Change::Fill(fill) => fields.fill = fill,
            Change::NodeTo(place, node) => change_term(fields, place, |term| term.0 = node),
            Change::NodeBy(place, step) => change_term(fields, place, |term| term.0 += step),
            Change::ValueTo(place, value) => change_term(fields, place, |term| term.1 = value),
            Change::OneMoreTerm(node) => add_term(fields, (node, 0)),
            Change::TermsReversed => fields.terms.reverse(),
            Change::TermsOnNodesTo(last) => put_terms(fields, last),
            Change::SecondCountBy(step) => second_part(fields).count += step,
            Change::SpecialSlotTo(place, slot) => change_special(fields, place, |special| special.0 = slot),
            Change::SpecialSlotBy(place, step) => change_special(fields, place, |special| special.0 += step),
            Change::SpecialBandTo(place, band) => change_special(fields, place, |special| special.1 = band),
            Change::SpecialBandCommon(place) => {
                let common = fields.band;
                change_special(fields, place, |special| special.1 = common);
            }
            Change::OneMoreSpecial(slot, band) => add_special(fields, (slot, band)),
            Change::SpecialsReversed => second_part(fields).slots.reverse(),
            Change::SpecialsInSlotsTo(last) => put_specials(fields, last),
            Change::NoSpecials => *second_part(fields) = SpecialFields { count: 0, slots: Vec::new() },
            Change::NoSecondCount => fields.specials = None,
        }
    }
}

fn change_term(fields: &mut Fields, place: usize, change: impl Fn(&mut (i32, i32))) {
    change_at(&mut fields.terms, place, change);
}

fn change_special(fields: &mut Fields, place: usize, change: impl Fn(&mut (i32, i32))) {
    if let Some(specials) = &mut fields.specials {
        change_at(&mut specials.slots, place, change);
    }
}

fn change_at(pairs: &mut [(i32, i32)], place: usize, change: impl Fn(&mut (i32, i32))) {
    if !pairs.is_empty() {
        change(&mut pairs[place % pairs.len()]);
    }
}

/// What version 2 has after the terms; fields without it become a version 2 with no special slot.
fn second_part(fields: &mut Fields) -> &mut SpecialFields {
    if fields.specials.is_none() {
        fields.version = 2;
    }
    fields.specials.get_or_insert(SpecialFields { count: 0, slots: Vec::new() })
}

/// One more special slot at the end, counted.
pub fn add_special(fields: &mut Fields, special: (i32, i32)) {
    let specials = second_part(fields);
    specials.slots.push(special);
    specials.count += 1;
}

/// Every slot up to the last special, counted, with bands that are not the common one.
pub fn put_specials(fields: &mut Fields, last: i32) {
    let common = fields.band;
    let band = |slot: i32| if 7 * slot == common { 7 * slot + 1 } else { 7 * slot };
    let slots: Vec<(i32, i32)> = (0..=last.min(1_022)).map(|slot| (slot, band(slot))).collect();
    *second_part(fields) = SpecialFields { count: slots.len() as i32, slots };
}

/// One more term at the end, counted.
pub fn add_term(fields: &mut Fields, term: (i32, i32)) {
    fields.terms.push(term);
    fields.count += 1;
}

/// A term on every node up to the last, counted.
pub fn put_terms(fields: &mut Fields, last: i32) {
    fields.terms = (1..=last.min(1_023)).map(|node| (node, 7 * node)).collect();
    fields.count = fields.terms.len() as i32;
}

/// Changes of every field of a record of so many slots.
pub fn changes(random: &mut Random, slots: usize) -> Vec<Change> {
    let last_node = 2 * padded_length(slots) as i32 - 1;
    let last_slot = slots as i32 - 1;
    let other_slot = random.below(SLOT_LIMIT) as i32;
    let place = random.below(1_023);
    let own = random.between(0, 40_000);
    let values = LIMIT_VALUES.into_iter().chain([-20_001, 20_001, -32_768, 32_767]);
    let nodes = [0, 1, last_node, last_node + 1, 1_023];
    let mut list = vec![Change::TermsReversed];
    list.extend([0, 1, 2, 3, 9, 15].map(Change::Version));
    list.extend([0, 1, (last_slot - 1).max(0), last_slot + 1, other_slot, 511].map(Change::Length));
    list.extend([0, 39_999, 40_000, 40_001, 65_535].map(Change::Band));
    list.extend(values.clone().map(Change::Rest));
    list.extend([-1, 1, 512].map(Change::CountBy));
    list.extend([1, 2, 4, 8, 16, 32, 64, 127].map(Change::Fill));
    list.extend(nodes.map(|node| Change::NodeTo(place, node)));
    list.extend([-1, 1].map(|step| Change::NodeBy(place, step)));
    list.extend(values.map(|value| Change::ValueTo(place, value)));
    list.extend(nodes.map(Change::OneMoreTerm));
    list.extend([last_node, last_node + 1].map(Change::TermsOnNodesTo));
    list.extend([Change::SpecialsReversed, Change::NoSpecials, Change::NoSecondCount]);
    list.extend([-1, 1, 512].map(Change::SecondCountBy));
    list.extend([0, last_slot, last_slot + 1, other_slot, 511].map(|slot| Change::SpecialSlotTo(place, slot)));
    list.extend([-1, 1].map(|step| Change::SpecialSlotBy(place, step)));
    list.extend([0, 39_999, 40_000, 40_001, 65_535].map(|band| Change::SpecialBandTo(place, band)));
    list.push(Change::SpecialBandCommon(place));
    list.extend([0, last_slot, last_slot + 1].map(|slot| Change::OneMoreSpecial(slot, own)));
    list.extend([last_slot, last_slot + 1].map(Change::SpecialsInSlotsTo));
    list
}
