//! One call at a time: the library's answer beside the documents', and the lent memory beside what it must hold.

use crate::coverage::Coverage;
use crate::document::calls::{Answer, Call, Document, packed};
use crate::document::fields::LONGEST;
use crate::document::printed::{firing, refused};
use crate::document::synopsis::{Demand, End, Term};
use crate::document::text::Profile;
use crate::{library, program};
use std::fmt::{Debug, Display};

/// Bytes on either side of a lent destination that are watched too.
const MARGIN: usize = 16;
/// Differences that are printed in full.
const MOST_PRINTED: u64 = 20;

#[derive(Default)]
pub struct Comparison {
    document: Document,
    pub coverage: Coverage,
    pub comparisons: u64,
    pub differences: u64,
}

/// The four parts of the library's answer: the refusal's number first.
pub fn parts(word: u64) -> [u16; 4] {
    [0, 16, 32, 48].map(|shift| (word >> shift) as u16)
}

impl Comparison {
    /// Counts one comparison, and prints the case where the two differ.
    pub fn same<T: PartialEq + Debug>(&mut self, what: &str, case: &dyn Display, expected: T, found: T) {
        self.comparisons += 1;
        if expected == found {
            return;
        }
        self.differences += 1;
        if self.differences <= MOST_PRINTED {
            println!("DIFFERENCE: {what}\n  expected: {expected:?}\n  found:    {found:?}\n  case: {case}");
        }
    }

    pub fn record_slot(&mut self, record: &[u8], slot: u64) -> [u16; 4] {
        self.answered(Call::RecordSlot { record, slot }, library::record_slot(record, slot)).1
    }

    pub fn record_against_text(&mut self, record: &[u8], text: &[u8]) -> [u16; 4] {
        self.answered(Call::RecordAgainstText { record, text }, library::record_against_text(record, text)).1
    }

    pub fn least_band_of_text(&mut self, text: &[u8], budget: u64) -> [u16; 4] {
        self.answered(Call::LeastBandOfText { text, budget }, library::least_band_of_text(text, budget)).1
    }

    pub fn better_offer(&mut self, text: &[u8], first: &[u8], second: &[u8]) -> [u16; 4] {
        let call = Call::BetterOffer { text, first, second };
        self.answered(call, library::better_offer(text, first, second)).1
    }

    pub fn flow_of_step(&mut self, step: u64) -> [u16; 4] {
        self.answered(Call::FlowOfStep { step }, library::flow_of_step(step)).1
    }

    pub fn step_for_flow(&mut self, flow: u64) -> [u16; 4] {
        self.answered(Call::StepForFlow { flow }, library::step_for_flow(flow)).1
    }

    /// The answer, and the record where one was written as it should be.
    pub fn text_to_record(&mut self, text: &[u8], destination: usize) -> ([u16; 4], Option<Vec<u8>>) {
        self.text_to_record_over(text, destination, mark)
    }

    /// The same, by what the destination and its margins hold before the call.
    pub fn text_to_record_over(
        &mut self,
        text: &[u8],
        destination: usize,
        held: fn(usize) -> u8,
    ) -> ([u16; 4], Option<Vec<u8>>) {
        let call = Call::TextToRecord { text, destination };
        let mut memory: Vec<u8> = (0..destination + 2 * MARGIN).map(held).collect();
        let word = library::text_to_record(text, &mut memory[MARGIN..MARGIN + destination]);
        let (answer, parts) = self.answered(call, word);
        let expected = answer.and_then(|_| self.document.built(text)).map(|(record, _)| record.bytes()).ok();
        let record = MARGIN..MARGIN + expected.as_ref().map_or(0, Vec::len);
        let changed = |&place: &usize| !record.contains(&place) && memory[place] != held(place);
        let first_changed = (0..memory.len()).find(changed);
        self.same("no byte changed but the record's, in the destination with its margins", &call, None, first_changed);
        if let Some(expected) = &expected {
            self.same("the record", &call, expected.as_slice(), &memory[record.clone()]);
        }
        (parts, expected.filter(|expected| *expected == memory[record]))
    }

    /// What the program `fire` prints for a text, whole.
    pub fn fire(&mut self, text: &[u8]) -> String {
        let call = Call::TextToRecord { text, destination: LONGEST };
        let printed = String::from_utf8_lossy(&program::fire(text)).into_owned();
        let built = self.document.built(text);
        self.coverage.note_firing(built.as_ref().err().copied());
        let expected = built.map_or_else(refused, |(record, greatest_error)| firing(&record, greatest_error));
        self.same("what fire prints", &call, expected, printed.clone());
        printed
    }

    /// Counts what F-3, F-5 and F-6 change in building a profile.
    pub fn note_profile(&mut self, profile: &Profile) {
        let demand = profile.demand();
        let [first, last] = [End::First, End::Last].map(|end| self.best(&demand, end));
        self.coverage.note_building(profile, &first, &last);
    }

    /// The first or the last of the best synopses, as the documents give them.
    pub fn best(&mut self, demand: &Demand, end: End) -> Vec<Term> {
        self.document.best(demand, end)
    }

    /// Compares the library's answer to a call and counts the outcome.
    fn answered(&mut self, call: Call, word: u64) -> (Answer, [u16; 4]) {
        let answer = self.document.answer(call);
        self.coverage.note(call, answer);
        self.same("the answer", &call, parts(packed(answer)), parts(word));
        (answer, parts(word))
    }
}

/// What a byte of lent memory holds before a call: nothing that is likely to be written there.
fn mark(place: usize) -> u8 {
    (place * 37 % 251) as u8 | 1
}
