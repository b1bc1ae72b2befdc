//! The calls of the panel's firmware, and what the documents have each of them answer.

use super::BUDGET_LIMIT;
use super::air::{flow_of_step, step_for_flow};
use super::offers::better_offer;
use super::optimum::Optimum;
use super::record::{Record, read_record};
use super::refusal::Refusal;
use super::synopsis::{Demand, End, Term, Verdict, check, greatest_error, padded_length, restored};
use super::text::read_text;
use std::fmt;

/// A call with all that is handed to it; for text to record the number of bytes lent for the record.
#[derive(Clone, Copy)]
pub enum Call<'a> {
    TextToRecord { text: &'a [u8], destination: usize },
    RecordSlot { record: &'a [u8], slot: u64 },
    RecordAgainstText { record: &'a [u8], text: &'a [u8] },
    LeastBandOfText { text: &'a [u8], budget: u64 },
    BetterOffer { text: &'a [u8], first: &'a [u8], second: &'a [u8] },
    FlowOfStep { step: u64 },
    StepForFlow { flow: u64 },
}

/// The three results beside the refusal's number, or the refusal.
pub type Answer = Result<[u16; 3], Refusal>;

/// The number and the results in one, the number lowest.
pub fn packed(answer: Answer) -> u64 {
    let number = answer.err().map_or(0, Refusal::number);
    let results = answer.unwrap_or([0; 3]);
    [number, results[0], results[1], results[2]].into_iter().rev().fold(0, |word, part| word << 16 | u64::from(part))
}

/// The documents' answers; what was worked out for the last profile is kept for the next call.
#[derive(Default)]
pub struct Document {
    last: Option<Optimum>,
}

impl Document {
    pub fn answer(&mut self, call: Call) -> Answer {
        match call {
            Call::TextToRecord { text, destination } => self.text_to_record(text, destination),
            Call::RecordSlot { record, slot } => record_slot(record, slot),
            Call::RecordAgainstText { record, text } => record_against_text(record, text),
            Call::LeastBandOfText { text, budget } => self.least_band_of_text(text, budget),
            Call::BetterOffer { text, first, second } => {
                let [winner, bytes] = better_offer(text, first, second).1;
                Ok([winner, bytes, 0])
            }
            Call::FlowOfStep { step } => flow_of_step(step).map(|flow| [flow as u16, 0, 0]),
            Call::StepForFlow { flow } => step_for_flow(flow).map(|step| [step as u16, 0, 0]),
        }
    }

    /// The record of the first of the best synopses for a text, and the greatest error.
    pub fn built(&mut self, text: &[u8]) -> Result<(Record, i32), Refusal> {
        let profile = read_text(text)?;
        let demand = profile.demand();
        let terms = self.best(&demand, End::First);
        let greatest_error = greatest_error(&terms, &demand);
        Ok((Record::of(&profile, terms), greatest_error))
    }

    /// The first or the last of the best synopses.
    pub fn best(&mut self, demand: &Demand, end: End) -> Vec<Term> {
        self.optimum(demand).best(0, end)
    }

    /// Bytes written, terms, greatest error.
    fn text_to_record(&mut self, text: &[u8], destination: usize) -> Answer {
        let (record, greatest_error) = self.built(text)?;
        let bytes = record.bytes().len();
        if destination < bytes {
            let version_1 = record.specials.is_empty();
            return Err(if version_1 { Refusal::DestinationShort } else { Refusal::DestinationShortOfSpecials });
        }
        Ok([bytes as u16, record.terms.len() as u16, greatest_error as u16])
    }

    /// The band: with one for all slots it is as much above the text's as the margin is below 0, and below it as the
    /// margin is above 0.
    fn least_band_of_text(&mut self, text: &[u8], budget: u64) -> Answer {
        let profile = read_text(text)?;
        match (profile.specials.is_empty(), budget > BUDGET_LIMIT) {
            (false, false) => Err(Refusal::HasSpecials),
            (false, true) => Err(Refusal::HasSpecialsAndBudgetAbove),
            (true, true) => Err(Refusal::BudgetAbove),
            (true, false) => {
                let greatest_margin = self.optimum(&profile.demand()).greatest_margin(budget as usize);
                Ok([(profile.band - greatest_margin) as u16, 0, 0])
            }
        }
    }

    fn optimum(&mut self, demand: &Demand) -> &mut Optimum {
        let last = self.last.take().filter(|last| last.is_of(demand));
        self.last.insert(last.unwrap_or_else(|| Optimum::new(demand.clone())))
    }
}

/// The setpoint, in two's complement.
fn record_slot(record: &[u8], slot: u64) -> Answer {
    let record = read_record(record)?;
    if slot >= record.slots as u64 {
        return Err(Refusal::SlotBeyond);
    }
    let node = padded_length(record.slots) + slot as usize;
    Ok([restored(&record.terms, record.rest, node) as u16, 0, 0])
}

/// Kept, the greatest error, the lowest slot whose error exceeds its band. The text's bands are read and not used.
fn record_against_text(record: &[u8], text: &[u8]) -> Answer {
    let profile = read_text(text)?;
    let record = read_record(record)?;
    if record.slots != profile.setpoints.len() {
        return Err(Refusal::LengthNotTheProfiles);
    }
    Ok(match check(&record.terms, &record.demand_for(&profile.setpoints)) {
        Verdict::Kept(greatest_error) => [1, greatest_error as u16, 0],
        Verdict::NotKept(slot) => [0, 0, slot as u16],
    })
}

/// The call in full, so that it can be made again.
impl fmt::Display for Call<'_> {
    fn fmt(&self, out: &mut fmt::Formatter) -> fmt::Result {
        match self {
            Call::TextToRecord { text, destination } => {
                write!(out, "text to record, destination of {destination} bytes, text \"{}\"", text.escape_ascii())
            }
            Call::RecordSlot { record, slot } => {
                write!(out, "one slot, slot {slot}, record {}", hexadecimal(record))
            }
            Call::RecordAgainstText { record, text } => {
                write!(out, "record against text, record {}, text \"{}\"", hexadecimal(record), text.escape_ascii())
            }
            Call::LeastBandOfText { text, budget } => {
                write!(out, "least band of a text, budget {budget}, text \"{}\"", text.escape_ascii())
            }
            Call::BetterOffer { text, first, second } => {
                let [first, second] = [first, second].map(|buffer| hexadecimal(buffer));
                write!(out, "better offer, first {first}, second {second}, text \"{}\"", text.escape_ascii())
            }
            Call::FlowOfStep { step } => write!(out, "flow of a step, step {step}"),
            Call::StepForFlow { flow } => write!(out, "step for a flow, flow {flow}"),
        }
    }
}

fn hexadecimal(bytes: &[u8]) -> String {
    bytes.iter().map(|byte| format!("{byte:02X}")).collect::<Vec<_>>().join(" ")
}
