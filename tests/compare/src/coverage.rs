//! Which outcomes each call and the program `fire` have shown, counted by name; a run that misses one that the documents allow has failed.
//! So has one without a profile whose fewest terms F-3 has changed, without profiles that leave F-5 a choice, without a kind
//! that F-6 makes a difference in, without a case that F-8's laws are tried on, or without a record with faults of two rows that
//! have an order.

use crate::choices::ChoicesOfBoth;
use crate::document::calls::{Answer, Call};
use crate::document::offers::{ENDINGS, Ending, LACKS, Lack, better_offer, candidate};
use crate::document::optimum::fewest_terms;
use crate::document::record::read_record;
use crate::document::refusal::{ALL, Calls, Refusal};
use crate::document::synopsis::{Demand, Term, is_kept, padded_length};
use crate::document::text::{Profile, read_text};
use crate::kinds::{KINDS, Kind, of_building, of_check, of_choice, of_text};
use crate::law_cases::LawsMet;
use crate::orders::{ORDERS, rows_met};
use std::collections::HashMap;
use std::fmt::{Debug, Display};
use std::hash::Hash;

const AGAINST_TEXT: Calls = [false, false, true, false, false, false, false];
/// The last column.
const FIRE: usize = 6;
/// The calls, in two lines above their columns.
const HEADINGS: [[&str; 7]; 2] = [
    ["to", "one", "against", "least", "flow of", "step for", ""],
    ["record", "slot", "text", "band", "step", "flow", "fire"],
];

#[derive(Clone, Copy, PartialEq, Eq, Hash)]
enum Outcome {
    Answered,
    Kept,
    KeptDespiteFiller,
    NotKept,
    Refused(Refusal),
}

impl Outcome {
    fn of(call: Call, answer: Answer) -> Outcome {
        match (call, answer) {
            (_, Err(refusal)) => Outcome::Refused(refusal),
            (Call::RecordAgainstText { record, text }, Ok([1, ..])) if kept_despite_filler(record, text) => {
                Outcome::KeptDespiteFiller
            }
            (Call::RecordAgainstText { .. }, Ok([1, ..])) => Outcome::Kept,
            (Call::RecordAgainstText { .. }, Ok(_)) => Outcome::NotKept,
            (_, Ok(_)) => Outcome::Answered,
        }
    }

    fn row(self) -> (u16, Calls, &'static str) {
        match self {
            Outcome::Answered => (0, [true, true, false, true, true, true, true], "answered"),
            Outcome::Kept => (0, AGAINST_TEXT, "kept"),
            Outcome::KeptDespiteFiller => (0, AGAINST_TEXT, "kept, and not with the last setpoint in filler"),
            Outcome::NotKept => (0, AGAINST_TEXT, "not kept"),
            Outcome::Refused(refusal) => refusal.row(),
        }
    }

    fn all() -> impl Iterator<Item = Outcome> {
        let answers = [Outcome::Answered, Outcome::Kept, Outcome::KeptDespiteFiller, Outcome::NotKept];
        answers.into_iter().chain(ALL.into_iter().map(Outcome::Refused))
    }
}

/// Whether a record that is kept would not be, had filler the last setpoint.
fn kept_despite_filler(record: &[u8], text: &[u8]) -> bool {
    let (Ok(record), Ok(profile)) = (read_record(record), read_text(text)) else {
        return false;
    };
    !is_kept(&record.terms, &lengthened(record.demand_for(&profile.setpoints)))
}

/// A demand with the last setpoint, and its band, in filler too, as document 01 had it before F-3: only for showing that F-3
/// makes a difference in the run.
fn lengthened(mut demand: Demand) -> Demand {
    let length = padded_length(demand.setpoints.len());
    for list in [&mut demand.setpoints, &mut demand.bands] {
        list.resize(length, list[list.len() - 1]);
    }
    demand
}

#[derive(Default)]
pub struct Coverage {
    met: HashMap<Outcome, [u64; 7]>,
    orders: HashMap<(u16, u16), u64>,
    texts_refused: u64,
    /// By whether the text has special slots.
    endings: [HashMap<Ending, u64>; 2],
    lacks: HashMap<Lack, u64>,
    kinds: HashMap<Kind, u64>,
    with_filler: u64,
    with_other_fewest: u64,
    /// Profiles all of whose best synopses the second program has tried, with some bands each.
    pub tried: ChoicesOfBoth,
    /// Profiles that the library has built.
    built: ChoicesOfBoth,
    /// Profiles that were joined, moved and turned.
    pub laws: LawsMet,
}

impl Coverage {
    pub fn note(&mut self, call: Call, answer: Answer) {
        let column = match call {
            Call::TextToRecord { .. } => 0,
            Call::RecordSlot { .. } => 1,
            Call::RecordAgainstText { .. } => 2,
            Call::LeastBandOfText { .. } => 3,
            Call::FlowOfStep { .. } => 4,
            Call::StepForFlow { .. } => 5,
            Call::BetterOffer { text, first, second } => return self.note_offers(text, first, second),
        };
        self.met.entry(Outcome::of(call, answer)).or_default()[column] += 1;
        self.note_order(call);
        match (call, answer) {
            (Call::TextToRecord { text, .. }, Ok(_)) => {
                let profile = read_text(text).expect("a text that is accepted");
                self.note_kinds(of_text(text, &profile));
            }
            (Call::RecordAgainstText { record, text }, Ok(_)) => {
                let profile = read_text(text).expect("a text that is accepted");
                self.note_kinds(of_check(&read_record(record).expect("a record that is accepted"), &profile));
            }
            _ => {}
        }
    }

    fn note_kinds(&mut self, kinds: Vec<Kind>) {
        for kind in kinds {
            *self.kinds.entry(kind).or_default() += 1;
        }
    }

    /// The row that is returned, with each that is met after it.
    fn note_order(&mut self, call: Call) {
        if let Some((&returned, others)) = rows_met(call).split_first() {
            for &other in others {
                *self.orders.entry((returned, other)).or_default() += 1;
            }
        }
    }

    /// How a choice between two offers ends, and what each that is no candidate lacks.
    fn note_offers(&mut self, text: &[u8], first: &[u8], second: &[u8]) {
        let Ok(profile) = read_text(text) else {
            self.texts_refused += 1;
            return;
        };
        let ending = better_offer(text, first, second).0;
        *self.endings[usize::from(!profile.specials.is_empty())].entry(ending).or_default() += 1;
        let offers = [first, second].map(|buffer| candidate(&profile, buffer));
        for lack in offers.iter().filter_map(|offer| offer.as_ref().err()) {
            *self.lacks.entry(*lack).or_default() += 1;
        }
        if let [Ok(first), Ok(second)] = &offers {
            self.note_kinds(of_choice(ending, first, second));
        }
    }

    /// What F-3, F-5 and F-6 change in building a profile, by the first and the last of its best synopses.
    pub fn note_building(&mut self, profile: &Profile, first: &[Term], last: &[Term]) {
        self.note_fewest(profile.demand());
        self.built.note(!profile.specials.is_empty(), first, last);
        self.note_kinds(of_building(profile, first, last));
    }

    /// Whether a profile has filler, and then whether its fewest terms are other than with the last setpoint in filler.
    fn note_fewest(&mut self, demand: Demand) {
        let slots = demand.setpoints.len();
        if slots == padded_length(slots) {
            return;
        }
        self.with_filler += 1;
        self.with_other_fewest += u64::from(fewest_terms(&demand, 0) != fewest_terms(&lengthened(demand), 0));
    }

    /// The outcome of a firing.
    pub fn note_firing(&mut self, refusal: Option<Refusal>) {
        self.met.entry(refusal.map_or(Outcome::Answered, Outcome::Refused)).or_default()[FIRE] += 1;
    }

    fn counts(&self, outcome: Outcome) -> [u64; 7] {
        self.met.get(&outcome).copied().unwrap_or_default()
    }

    /// The table of counts; a dash where the documents give the call no such outcome.
    pub fn print(&self) {
        println!("{:50}{}", "", in_columns(HEADINGS[0]));
        println!("{:50}{}", "outcome", in_columns(HEADINGS[1]));
        for outcome in Outcome::all() {
            let (number, calls, words) = outcome.row();
            let cells = calls.iter().zip(self.counts(outcome));
            let cells = cells.map(|(&allowed, count)| if allowed { count.to_string() } else { "-".to_string() });
            println!("{number:>2}  {words:46}{}", in_columns(cells));
        }
        let orders = ORDERS.iter().map(|order| format!("{}-{} {}", order.0, order.1, count(order, &self.orders)));
        println!("records with faults of two rows: {}", orders.collect::<Vec<_>>().join(", "));
        let [plain, special] = self.endings.each_ref().map(|endings| listed(&ENDINGS, endings));
        println!("two offers, by how the choice ends: TextRefused {}, {plain}", self.texts_refused);
        println!("two offers for a text with special slots: {special}");
        println!("two offers, by what one lacks: {}", listed(&LACKS, &self.lacks));
        for kind in KINDS {
            println!("{:56}{:>9}", kind.words(), count(&kind, &self.kinds));
        }
        println!(
            "profiles with filler: {}, of which with other fewest terms than with the last setpoint in filler: {}",
            self.with_filler, self.with_other_fewest
        );
        self.tried.print("profiles of which every best synopsis was tried");
        self.built.print("profiles built");
        self.laws.print();
    }

    /// Whether every call has shown every outcome that it can have, and the run the difference that F-3 makes, each choice
    /// that F-5 has, each kind of F-6, each case of F-8's laws and each order of two rows.
    pub fn complete(&self) -> bool {
        let all_met = |outcome: Outcome| {
            outcome.row().1.iter().zip(self.counts(outcome)).all(|(&allowed, count)| !allowed || count > 0)
        };
        Outcome::all().all(all_met)
            && self.texts_refused > 0
            && self.with_other_fewest > 0
            && self.endings.iter().all(|endings| all_counted(&ENDINGS, endings))
            && all_counted(&ORDERS, &self.orders)
            && all_counted(&LACKS, &self.lacks)
            && all_counted(&KINDS, &self.kinds)
            && self.tried.complete()
            && self.built.complete()
            && self.laws.complete()
    }
}

fn count<T: Eq + Hash>(name: &T, counts: &HashMap<T, u64>) -> u64 {
    counts.get(name).copied().unwrap_or_default()
}

fn all_counted<T: Eq + Hash>(names: &[T], counts: &HashMap<T, u64>) -> bool {
    names.iter().all(|name| count(name, counts) > 0)
}

/// The cells of a line of the table, one a call.
fn in_columns<T: Display>(cells: impl IntoIterator<Item = T>) -> String {
    cells.into_iter().map(|cell| format!("{cell:>10}")).collect()
}

/// Names with their counts.
fn listed<T: Debug + Eq + Hash>(names: &[T], counts: &HashMap<T, u64>) -> String {
    names.iter().map(|name| format!("{name:?} {}", count(name, counts))).collect::<Vec<_>>().join(", ")
}
