//! What document 02's F-8 is tried on, by name: joined, moved and turned profiles that a run has to meet.

use crate::built::Built;
use crate::document::laid::turned_terms;
use crate::document::synopsis::Term;
use crate::document::text::Profile;
use crate::document::{SLOT_LIMIT, VALUE_LIMIT};
use crate::kinds::met;
use std::collections::HashMap;

#[derive(Clone, Copy, Debug, PartialEq, Eq, Hash)]
enum LawCase {
    AsMany,
    AsManyOfTwoBands,
    AsManyWithOwnBands,
    OneFewer,
    OneFewerOfTwoBands,
    OneFewerWithOwnBands,
    ThirdBand,
    Moved,
    MovedToUpperLimit,
    MovedToLowerLimit,
    MovedWithFiller,
    MovedSomeSpecial,
    MovedAllSpecial,
    MovedWithMargin,
    MovedToOtherValue,
    Turned,
    TurnedWithFiller,
    TurnedSomeSpecial,
    TurnedAllSpecial,
    TurnedWithMargin,
    TurnedToOtherTerms,
}

use LawCase::*;

const LAW_CASES: [LawCase; 21] = [
    AsMany,
    AsManyOfTwoBands,
    AsManyWithOwnBands,
    OneFewer,
    OneFewerOfTwoBands,
    OneFewerWithOwnBands,
    ThirdBand,
    Moved,
    MovedToUpperLimit,
    MovedToLowerLimit,
    MovedWithFiller,
    MovedSomeSpecial,
    MovedAllSpecial,
    MovedWithMargin,
    MovedToOtherValue,
    Turned,
    TurnedWithFiller,
    TurnedSomeSpecial,
    TurnedAllSpecial,
    TurnedWithMargin,
    TurnedToOtherTerms,
];

impl LawCase {
    fn words(self) -> &'static str {
        match self {
            AsMany => "joined, one common band: as many terms as the two",
            AsManyOfTwoBands => "joined, two common bands: as many",
            AsManyWithOwnBands => "joined, own bands in a part: as many",
            OneFewer => "joined, one common band: one term fewer than the two",
            OneFewerOfTwoBands => "joined, two common bands: one fewer",
            OneFewerWithOwnBands => "joined, own bands in a part: one fewer",
            ThirdBand => "joined, a common band of neither part",
            Moved => "moved",
            MovedToUpperLimit => "moved until a value is 200,00",
            MovedToLowerLimit => "moved until a value is -200,00",
            MovedWithFiller => "moved, the length no power of two",
            MovedSomeSpecial => "moved, some slots special",
            MovedAllSpecial => "moved, all slots special",
            MovedWithMargin => "moved, the least margin above 0",
            MovedToOtherValue => "moved, a term's value not the moved one",
            Turned => "turned",
            TurnedWithFiller => "turned, the length no power of two",
            TurnedSomeSpecial => "turned, some slots special",
            TurnedAllSpecial => "turned, all slots special",
            TurnedWithMargin => "turned, the least margin above 0",
            TurnedToOtherTerms => "turned, the terms not the turned ones",
        }
    }
}

/// The lengths that profiles are joined of: powers of two, up to half of the slots that there can be.
pub fn joined_lengths() -> impl Iterator<Item = usize> {
    (0..).map(|exponent| 1 << exponent).take_while(|length| 2 * length <= SLOT_LIMIT)
}

fn all_special(profile: &Profile) -> bool {
    profile.specials.len() == profile.setpoints.len()
}

fn some_special(profile: &Profile) -> bool {
    !profile.specials.is_empty() && !all_special(profile)
}

/// The cases that were met, counted.
#[derive(Default)]
pub struct LawsMet {
    met: HashMap<LawCase, u64>,
    /// By the length of each part, and whether the joined profile needs a term fewer than the two together.
    joined: HashMap<(usize, bool), u64>,
}

impl LawsMet {
    fn note(&mut self, cases: &[(LawCase, bool)]) {
        for case in met(cases) {
            *self.met.entry(case).or_default() += 1;
        }
    }

    /// Of two profiles and the joined one. A pair of which one needs no term shows little, and is not counted.
    pub fn note_joined(&mut self, [first, second]: [&Built; 2], whole: &Built) {
        if first.count == 0 || second.count == 0 {
            return;
        }
        let one_fewer = whole.count < first.count + second.count;
        let [first, second, whole] = [first, second, whole].map(|built| &built.profile);
        *self.joined.entry((first.setpoints.len(), one_fewer)).or_default() += 1;
        let other_bands = first.band != second.band;
        let own_bands = !first.specials.is_empty() || !second.specials.is_empty();
        let [one_band, of_other_bands, with_own_bands] = if one_fewer {
            [OneFewer, OneFewerOfTwoBands, OneFewerWithOwnBands]
        } else {
            [AsMany, AsManyOfTwoBands, AsManyWithOwnBands]
        };
        self.note(&[
            (one_band, !other_bands && !own_bands),
            (of_other_bands, other_bands),
            (with_own_bands, own_bands),
            (ThirdBand, ![first.band, second.band].contains(&whole.band)),
        ]);
    }

    /// Of a profile and the moved one.
    pub fn note_moved(&mut self, [before, after]: [&Built; 2], by: i32, least_margin: i32) {
        let Profile { rest, setpoints, .. } = &after.profile;
        let has_value = |value: i32| *rest == value || setpoints.contains(&value);
        let terms = after.terms();
        let other_value =
            |term: &Term| terms.iter().any(|after| after.node == term.node && after.value != term.value + by);
        self.note(&[
            (Moved, true),
            (MovedToUpperLimit, has_value(VALUE_LIMIT)),
            (MovedToLowerLimit, has_value(-VALUE_LIMIT)),
            (MovedWithFiller, !setpoints.len().is_power_of_two()),
            (MovedSomeSpecial, some_special(&after.profile)),
            (MovedAllSpecial, all_special(&after.profile)),
            (MovedWithMargin, least_margin > 0),
            (MovedToOtherValue, before.terms().iter().any(other_value)),
        ]);
    }

    /// Of a profile and the turned one.
    pub fn note_turned(&mut self, [before, after]: [&Built; 2], least_margin: i32) {
        self.note(&[
            (Turned, true),
            (TurnedWithFiller, !after.profile.setpoints.len().is_power_of_two()),
            (TurnedSomeSpecial, some_special(&after.profile)),
            (TurnedAllSpecial, all_special(&after.profile)),
            (TurnedWithMargin, least_margin > 0),
            (TurnedToOtherTerms, after.terms() != turned_terms(&before.terms())),
        ]);
    }

    fn count(&self, case: LawCase) -> u64 {
        self.met.get(&case).copied().unwrap_or_default()
    }

    fn joined_of(&self, length: usize) -> [u64; 2] {
        [false, true].map(|one_fewer| self.joined.get(&(length, one_fewer)).copied().unwrap_or_default())
    }

    pub fn print(&self) {
        for case in LAW_CASES {
            println!("{:56}{:>9}", case.words(), self.count(case));
        }
        let of_length = |length: usize| {
            let [as_many, one_fewer] = self.joined_of(length);
            format!("{length} {as_many}-{one_fewer}")
        };
        let lengths: Vec<String> = joined_lengths().map(of_length).collect();
        println!(
            "profiles joined that each need a term, by the length of each, as many terms and one fewer: {}",
            lengths.join(", ")
        );
    }

    pub fn complete(&self) -> bool {
        LAW_CASES.iter().all(|&case| self.count(case) > 0)
            && joined_lengths().all(|length| self.joined_of(length).iter().all(|&count| count > 0))
    }
}
