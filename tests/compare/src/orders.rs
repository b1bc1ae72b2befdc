//! Records that meet two rows of the documents' tables, so that the order of refusals decides which is returned.

use crate::document::calls::Call;
use crate::document::fields::{Fields, read_fields};
use crate::document::refusal::Refusal;
use crate::document::text::read_text;

/// Rows after 7 that one record can meet, the one that is returned first: with one slot and with a text of its length or
/// another.
pub const ORDERS: [(u16, u16); 14] = [
    (2, 3),
    (2, 8),
    (2, 11),
    (3, 8),
    (3, 11),
    (8, 11),
    (2, 9),
    (3, 9),
    (8, 9),
    (11, 9),
    (2, 10),
    (3, 10),
    (8, 10),
    (11, 10),
];

/// The rows after 7 that a call's record meets, in their order; none for calls without a record, and where 7 or the text's
/// refusal goes before.
pub fn rows_met(call: Call) -> Vec<u16> {
    match call {
        Call::RecordSlot { record, slot } => {
            rows_of_record(record, |slots| (slot >= slots as u64).then_some(Refusal::SlotBeyond))
        }
        Call::RecordAgainstText { record, text } => read_text(text).map_or_else(
            |_| Vec::new(),
            |profile| {
                let other_length = |slots| slots != profile.setpoints.len();
                rows_of_record(record, |slots| other_length(slots).then_some(Refusal::LengthNotTheProfiles))
            },
        ),
        _ => Vec::new(),
    }
}

/// The rows after 7 that a record meets, and the last one by its number of slots.
fn rows_of_record(record: &[u8], last: impl Fn(usize) -> Option<Refusal>) -> Vec<u16> {
    let rows = |fields: Fields| fields.faults().chain(last(fields.slots())).map(Refusal::number).collect();
    read_fields(record).map_or_else(|_| Vec::new(), rows)
}
