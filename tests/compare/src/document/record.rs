//! Document 01, "The record", with document 02's F-6: what a record holds, its fields, and rows 2, 3, 8 and 11.

use super::bands::{Special, bands};
use super::fields::{Fields, SpecialFields, read_fields};
use super::refusal::Refusal;
use super::synopsis::{Demand, Term, padded_length};
use super::text::Profile;
use super::{BAND_LIMIT, VALUE_LIMIT};

/// What an accepted record holds.
#[derive(Clone, Debug, PartialEq)]
pub struct Record {
    pub slots: usize,
    pub band: i32,
    pub rest: i32,
    pub terms: Vec<Term>,
    pub specials: Vec<Special>,
}

impl Record {
    /// The record for a profile with some terms.
    pub fn of(profile: &Profile, terms: Vec<Term>) -> Record {
        let Profile { rest, band, setpoints, specials } = profile.clone();
        Record { slots: setpoints.len(), band, rest, terms, specials }
    }

    /// A record without special slots.
    pub fn plain(slots: usize, band: i32, rest: i32, terms: Vec<Term>) -> Record {
        Record { slots, band, rest, terms, specials: Vec::new() }
    }

    pub fn bands(&self) -> Vec<i32> {
        bands(self.slots, self.band, &self.specials)
    }

    /// What the check holds the record's terms to: "it uses the record's band and rest value", and "takes bands from the
    /// record".
    pub fn demand_for(&self, setpoints: &[i32]) -> Demand {
        Demand { setpoints: setpoints.to_vec(), bands: self.bands(), rest: self.rest }
    }

    pub fn fields(&self) -> Fields {
        let slots: Vec<(i32, i32)> = self.specials.iter().map(|special| (special.slot as i32, special.band)).collect();
        Fields {
            version: if slots.is_empty() { 1 } else { 2 },
            length: self.slots as i32 - 1,
            band: self.band,
            rest: self.rest,
            count: self.terms.len() as i32,
            terms: self.terms.iter().map(|term| (term.node as i32, term.value)).collect(),
            specials: (!slots.is_empty()).then_some(SpecialFields { count: slots.len() as i32, slots }),
            fill: 0,
        }
    }

    pub fn bytes(&self) -> Vec<u8> {
        self.fields().bytes()
    }
}

impl Fields {
    /// The record where its fields meet nothing of rows 2, 3, 8 and 11.
    fn record(&self) -> Record {
        let term = |&(node, value): &(i32, i32)| Term { node: node as usize, value };
        let special = |&(slot, band): &(i32, i32)| Special { slot: slot as usize, band };
        Record {
            slots: self.slots(),
            band: self.band,
            rest: self.rest,
            terms: self.terms.iter().map(term).collect(),
            specials: self.specials.iter().flat_map(|specials| &specials.slots).map(special).collect(),
        }
    }

    /// What is met of rows 2, 3, 8 and 11, in this order, a case each.
    pub fn faults(&self) -> impl Iterator<Item = Refusal> {
        let rest = (self.rest.abs() > VALUE_LIMIT).then_some(Refusal::RecordRestBeyond);
        let band = (self.band > BAND_LIMIT).then_some(Refusal::RecordBandAbove);
        [rest, band, self.fault_of_terms(), self.fault_of_specials()].into_iter().flatten()
    }

    fn fault_of_terms(&self) -> Option<Refusal> {
        let last_node = 2 * padded_length(self.slots()) as i32 - 1;
        if self.count > last_node {
            return Some(Refusal::CountAbove);
        }
        let mut before = 0;
        for &(node, value) in &self.terms {
            if !(1..=last_node).contains(&node) {
                return Some(Refusal::NodeBeyond);
            }
            if node <= before {
                return Some(Refusal::NodesNotAscending);
            }
            if value.abs() > VALUE_LIMIT {
                return Some(Refusal::TermValueBeyond);
            }
            before = node;
        }
        None
    }

    fn fault_of_specials(&self) -> Option<Refusal> {
        let slots = &self.specials.as_ref()?.slots;
        if slots.is_empty() {
            return Some(Refusal::NoSpecialSlot);
        }
        let mut before = -1;
        for &(slot, band) in slots {
            if slot as usize >= self.slots() {
                return Some(Refusal::SpecialSlotBeyond);
            }
            if slot == before {
                return Some(Refusal::SpecialSlotTwice);
            }
            if slot < before {
                return Some(Refusal::SpecialsDescending);
            }
            if band > BAND_LIMIT {
                return Some(Refusal::SpecialBandAbove);
            }
            if band == self.band {
                return Some(Refusal::SpecialBandCommon);
            }
            before = slot;
        }
        None
    }
}

/// Refusals 7, 2, 3, 8, 11, in this order.
pub fn read_record(record: &[u8]) -> Result<Record, Refusal> {
    let fields = read_fields(record)?;
    let fault = fields.faults().next();
    fault.map_or_else(|| Ok(fields.record()), Err)
}
