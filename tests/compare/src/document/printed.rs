//! Document 01, "One firing in full": what `fire` prints.

use super::number::write_number;
use super::record::Record;
use super::refusal::Refusal;
use super::synopsis::{padded_length, restored};

/// Slots, terms, the common band and the greatest error; then a line a term, then a line a slot below n.
pub fn firing(record: &Record, greatest_error: i32) -> String {
    let Record { slots, band, rest, terms, .. } = record;
    let first_leaf = padded_length(*slots);
    let first = format!("{slots} {} {} {}\n", terms.len(), write_number(*band), write_number(greatest_error));
    let terms_lines = terms.iter().map(|term| format!("term {} {}\n", term.node, write_number(term.value)));
    let slot_line = |slot: usize| format!("slot {slot} {}\n", write_number(restored(terms, *rest, first_leaf + slot)));
    [first].into_iter().chain(terms_lines).chain((0..*slots).map(slot_line)).collect()
}

pub fn refused(refusal: Refusal) -> String {
    format!("refused {}\n", refusal.number())
}
