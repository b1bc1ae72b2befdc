//! What document 02's F-6 makes a difference in, by name: texts, profiles built, checks and choices that a run has to meet.

use crate::document::number::read_number;
use crate::document::offers::{Candidate, Ending};
use crate::document::optimum::fewest_terms;
use crate::document::record::Record;
use crate::document::synopsis::{Demand, End, Term, greatest_error, is_kept, least_margin};
use crate::document::table::{Table, values_towards};
use crate::document::text::Profile;
use crate::document::{LONGEST_SETPOINT_LINE, LONGEST_TEXT};

#[derive(Clone, Copy, Debug, PartialEq, Eq, Hash)]
pub enum Kind {
    CommonBandTyped,
    CommonBandByRounding,
    LongestLine,
    LongestText,
    SomeSpecial,
    AllSpecial,
    MoreTerms,
    FewerTerms,
    OtherThanByError,
    MarginAboveCommon,
    ErrorAboveCommon,
    UnequalErrors,
    KeptByOwnBand,
    NotKeptByOwnBand,
    KeptNotByText,
    NotKeptByText,
    MarginAgainstError,
}

use Kind::*;

pub const KINDS: [Kind; 17] = [
    CommonBandTyped,
    CommonBandByRounding,
    LongestLine,
    LongestText,
    SomeSpecial,
    AllSpecial,
    MoreTerms,
    FewerTerms,
    OtherThanByError,
    MarginAboveCommon,
    ErrorAboveCommon,
    UnequalErrors,
    KeptByOwnBand,
    NotKeptByOwnBand,
    KeptNotByText,
    NotKeptByText,
    MarginAgainstError,
];

impl Kind {
    pub fn words(self) -> &'static str {
        match self {
            CommonBandTyped => "texts with the common band as an own one",
            CommonBandByRounding => "the same, once the third digit is rounded",
            LongestLine => "texts with a setpoint line of 18 bytes",
            LongestText => "texts of 9,234 bytes that are accepted",
            SomeSpecial => "profiles built with some slots special",
            AllSpecial => "profiles built with all slots special",
            MoreTerms => "more terms than by the common band",
            FewerTerms => "fewer terms than by the common band",
            OtherThanByError => "another synopsis than by the least greatest error",
            MarginAboveCommon => "a least margin above the common band",
            ErrorAboveCommon => "a greatest error above the common band",
            UnequalErrors => "best synopses of unequal greatest error",
            KeptByOwnBand => "records kept, and not by their common band",
            NotKeptByOwnBand => "records not kept, and kept by their common band",
            KeptNotByText => "records kept, and not by the text's bands",
            NotKeptByText => "records not kept, and kept by the text's bands",
            MarginAgainstError => "offers that win by the margin with the greater error",
        }
    }
}

/// Those that are met, of what is named with whether it is.
pub fn met<T: Copy>(named: &[(T, bool)]) -> Vec<T> {
    named.iter().filter(|(_, is_met)| *is_met).map(|(one, _)| *one).collect()
}

/// Of a text that is accepted.
pub fn of_text(text: &[u8], profile: &Profile) -> Vec<Kind> {
    let lines: Vec<&[u8]> = text.split_inclusive(|&byte| byte == 10).skip(2).collect();
    let fields = lines.iter().flat_map(|line| line[..line.len() - 1].split(|&byte| byte == b' ').skip(1));
    let common: Vec<&[u8]> = fields.filter(|field| read_number(field) == Some(profile.band)).collect();
    let rounded =
        |field: &&[u8]| field.iter().rev().position(|&byte| byte == b',') == Some(3) && !field.ends_with(b"0");
    met(&[
        (CommonBandTyped, !common.is_empty()),
        (CommonBandByRounding, common.iter().any(rounded)),
        (LongestLine, lines.iter().any(|line| line.len() == LONGEST_SETPOINT_LINE)),
        (LongestText, text.len() == LONGEST_TEXT),
    ])
}

/// Of a profile that is built, with the first and the last of its best synopses.
pub fn of_building(profile: &Profile, first: &[Term], last: &[Term]) -> Vec<Kind> {
    if profile.specials.is_empty() {
        return Vec::new();
    }
    let demand = profile.demand();
    let by_common = fewest_terms(&Demand::common(&profile.setpoints, profile.rest, profile.band), 0);
    let all = profile.specials.len() == profile.setpoints.len();
    met(&[
        (SomeSpecial, !all),
        (AllSpecial, all),
        (MoreTerms, first.len() > by_common),
        (FewerTerms, first.len() < by_common),
        (OtherThanByError, profile.setpoints.len() <= 16 && first != by_least_error(&demand)),
        (MarginAboveCommon, least_margin(first, &demand) > profile.band),
        (ErrorAboveCommon, greatest_error(first, &demand) > profile.band),
        (UnequalErrors, greatest_error(first, &demand) != greatest_error(last, &demand)),
    ])
}

/// The first of the synopses with the fewest terms that keep the bands and, among these, the least greatest error, as it
/// was before F-6: only for showing that F-6 makes a difference in the run. With so many terms these are all that keep bands
/// cut to that error.
fn by_least_error(demand: &Demand) -> Vec<Term> {
    let cut_to = |error: i32| {
        let bands = demand.bands.iter().map(|&band| band.min(error)).collect();
        Demand { bands, ..demand.clone() }
    };
    let fewest = fewest_terms(demand, 0);
    let greatest_band = demand.bands.iter().copied().fold(0, i32::max);
    let errors: Vec<i32> = (0..=greatest_band).collect();
    let least = errors.partition_point(|&error| fewest_terms(&cut_to(error), 0) > fewest);
    let cut = cut_to(errors[least]);
    Table::new(&cut, 0, values_towards(End::First, &cut, 0)).best(End::First)
}

/// Of a record that is checked against a profile of its length.
pub fn of_check(record: &Record, profile: &Profile) -> Vec<Kind> {
    let kept_by = |bands: Vec<i32>| is_kept(&record.terms, &Demand { bands, ..record.demand_for(&profile.setpoints) });
    let kept = kept_by(record.bands());
    let by_common = kept_by(vec![record.band; record.slots]);
    let by_text = kept_by(profile.bands());
    met(&[
        (KeptByOwnBand, kept && !by_common),
        (NotKeptByOwnBand, !kept && by_common),
        (KeptNotByText, kept && !by_text),
        (NotKeptByText, !kept && by_text),
    ])
}

/// Of two candidates and how the choice between them ends.
pub fn of_choice(ending: Ending, first: &Candidate, second: &Candidate) -> Vec<Kind> {
    let error = first.greatest_error.cmp(&second.greatest_error);
    let against_error = matches!(
        (ending, error.is_gt(), error.is_lt()),
        (Ending::FirstByMargin, true, _) | (Ending::SecondByMargin, _, true)
    );
    met(&[(MarginAgainstError, against_error)])
}
