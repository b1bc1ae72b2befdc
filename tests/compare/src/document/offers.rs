//! Document 02, F-1 with F-6: the better of two offers for one text, each at the front of a buffer of its own.

use super::fields::front_bytes;
use super::record::read_record;
use super::refusal::Refusal;
use super::synopsis::{greatest_error, is_kept, least_margin};
use super::text::{Profile, read_text};
use std::cmp::Ordering;

/// What a buffer lacks that offers no candidate; the first of these in their order.
#[derive(Clone, Copy, Debug, PartialEq, Eq, Hash)]
pub enum Lack {
    Count,
    Version,
    SecondCount,
    End,
    Reading,
    Length,
    Band,
    Rest,
    AnySpecials,
    NoSpecials,
    SameSpecials,
    Keeping,
}

pub const LACKS: [Lack; 12] = [
    Lack::Count,
    Lack::Version,
    Lack::SecondCount,
    Lack::End,
    Lack::Reading,
    Lack::Length,
    Lack::Band,
    Lack::Rest,
    Lack::AnySpecials,
    Lack::NoSpecials,
    Lack::SameSpecials,
    Lack::Keeping,
];

/// A record that may win.
#[derive(Clone, Copy)]
pub struct Candidate {
    terms: usize,
    least_margin: i32,
    pub greatest_error: i32,
    bytes: usize,
}

/// The record at the front of a buffer: its count says where it ends, and "both counts say where a version 2 ends".
fn front(buffer: &[u8]) -> Result<&[u8], Lack> {
    let lack = |refusal| match refusal {
        Refusal::RecordShort => Lack::Count,
        Refusal::SecondCountMissing => Lack::SecondCount,
        _ => Lack::Version,
    };
    let end = front_bytes(buffer).map_err(lack)?;
    buffer.get(..end).ok_or(Lack::End)
}

/// "A candidate reads without refusal, has the text's length, band and rest value, and is 'kept'"; with F-6 it "also has
/// the text's special slots".
pub fn candidate(profile: &Profile, buffer: &[u8]) -> Result<Candidate, Lack> {
    let bytes = front(buffer)?;
    let record = read_record(bytes).map_err(|_| Lack::Reading)?;
    if record.slots != profile.setpoints.len() {
        return Err(Lack::Length);
    }
    if record.band != profile.band {
        return Err(Lack::Band);
    }
    if record.rest != profile.rest {
        return Err(Lack::Rest);
    }
    if record.specials != profile.specials {
        return Err(match (record.specials.is_empty(), profile.specials.is_empty()) {
            (true, _) => Lack::AnySpecials,
            (_, true) => Lack::NoSpecials,
            _ => Lack::SameSpecials,
        });
    }
    let demand = record.demand_for(&profile.setpoints);
    if !is_kept(&record.terms, &demand) {
        return Err(Lack::Keeping);
    }
    Ok(Candidate {
        terms: record.terms.len(),
        least_margin: least_margin(&record.terms, &demand),
        greatest_error: greatest_error(&record.terms, &demand),
        bytes: bytes.len(),
    })
}

/// How the choice ends.
#[derive(Clone, Copy, Debug, PartialEq, Eq, Hash)]
pub enum Ending {
    TextRefused,
    NoCandidate,
    FirstAlone,
    SecondAlone,
    FirstByTerms,
    SecondByTerms,
    FirstByMargin,
    SecondByMargin,
    FirstByOrder,
}

/// The endings where the text is not refused.
pub const ENDINGS: [Ending; 8] = [
    Ending::NoCandidate,
    Ending::FirstAlone,
    Ending::SecondAlone,
    Ending::FirstByTerms,
    Ending::SecondByTerms,
    Ending::FirstByMargin,
    Ending::SecondByMargin,
    Ending::FirstByOrder,
];

/// The ending, with the number of the winning buffer, 0 for none, and the bytes of its record.
pub fn better_offer(text: &[u8], first: &[u8], second: &[u8]) -> (Ending, [u16; 2]) {
    let Ok(profile) = read_text(text) else {
        return (Ending::TextRefused, [0, 0]);
    };
    match (candidate(&profile, first), candidate(&profile, second)) {
        (Err(_), Err(_)) => (Ending::NoCandidate, [0, 0]),
        (Ok(first), Err(_)) => (Ending::FirstAlone, [1, first.bytes as u16]),
        (Err(_), Ok(second)) => (Ending::SecondAlone, [2, second.bytes as u16]),
        (Ok(first), Ok(second)) => better(first, second),
    }
}

/// "Fewer terms wins", then "the greater least margin takes the place of the smaller error", then the first buffer.
fn better(first: Candidate, second: Candidate) -> (Ending, [u16; 2]) {
    let terms = first.terms.cmp(&second.terms);
    let margins = first.least_margin.cmp(&second.least_margin);
    let ending = match (terms, margins) {
        (Ordering::Less, _) => Ending::FirstByTerms,
        (Ordering::Greater, _) => Ending::SecondByTerms,
        (Ordering::Equal, Ordering::Greater) => Ending::FirstByMargin,
        (Ordering::Equal, Ordering::Less) => Ending::SecondByMargin,
        (Ordering::Equal, Ordering::Equal) => Ending::FirstByOrder,
    };
    let second_wins = matches!(ending, Ending::SecondByTerms | Ending::SecondByMargin);
    (ending, if second_wins { [2, second.bytes as u16] } else { [1, first.bytes as u16] })
}
