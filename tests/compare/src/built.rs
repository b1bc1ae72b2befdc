//! What the library builds of a profile, by its own answers: the number of terms that it reports, the record that it writes, and
//! what it restores from that record in every slot. The terms themselves are read from the record as the documents have it.

use crate::comparison::{Comparison, parts};
use crate::document::fields::LONGEST;
use crate::document::record::read_record;
use crate::document::synopsis::Term;
use crate::document::text::{Profile, write_text};
use crate::library;

/// A profile, and the answer to its text with the record that was written.
pub struct Built {
    pub profile: Profile,
    /// The terms, as the answer counts them.
    pub count: u16,
    pub greatest_error: u16,
    record: Vec<u8>,
}

/// A profile within the limits is built; that it is counts as a comparison.
pub fn build(comparison: &mut Comparison, profile: Profile) -> Built {
    let mut record = vec![0; LONGEST];
    let [refusal, bytes, count, greatest_error] = parts(library::text_to_record(&write_text(&profile), &mut record));
    comparison.same("the refusal of a profile within the limits", &format_args!("{profile:?}"), 0, refusal);
    record.truncate(usize::from(bytes));
    comparison.same("the record can be read", &format_args!("{profile:?}"), true, read_record(&record).is_ok());
    Built { profile, count, greatest_error, record }
}

impl Built {
    /// The least over the slots of the band that the slot goes by, less the distance of its setpoint from what is restored;
    /// that every slot is restored counts as a comparison.
    pub fn least_margin(&self, comparison: &mut Comparison) -> i32 {
        let answers =
            (0..self.profile.setpoints.len() as u64).map(|slot| parts(library::record_slot(&self.record, slot)));
        let (refusals, restored): (Vec<u16>, Vec<i32>) =
            answers.map(|[refusal, setpoint, ..]| (refusal, i32::from(setpoint as i16))).unzip();
        let refused = refusals.iter().position(|&refusal| refusal != 0);
        comparison.same("a slot that is not restored", &format_args!("{:?}", self.profile), None, refused);
        let errors =
            self.profile.setpoints.iter().zip(restored).map(|(setpoint, restored)| (setpoint - restored).abs());
        self.profile.bands().into_iter().zip(errors).map(|(band, error)| band - error).fold(i32::MAX, i32::min)
    }

    /// The terms that the record holds; none where it is no record.
    pub fn terms(&self) -> Vec<Term> {
        read_record(&self.record).map_or_else(|_| Vec::new(), |record| record.terms)
    }
}
