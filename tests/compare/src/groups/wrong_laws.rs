//! Statements that lie near document 02's F-8 and are wrong, each with the first small profiles, in a fixed order, for which the
//! library's answers refuse it. They are printed, and are those of tests/wrong_laws.txt.

use super::laws::as_many_or_one_fewer;
use crate::built::{Built, build};
use crate::comparison::Comparison;
use crate::document::VALUE_LIMIT;
use crate::document::laid::{joined, moved, moved_terms, turned, turned_terms, with_values};
use crate::document::number::write_number;
use crate::document::synopsis::Term;
use crate::document::text::Profile;
use crate::inputs::small::first;

const STORED: &str = include_str!("../../../wrong_laws.txt");

/// Profiles that refuse a statement, each with its name in the example.
type Example = Vec<(String, Built)>;
type Search = fn(&mut Comparison) -> Option<Example>;

/// What a statement speaks of beside the terms.
#[derive(Clone, Copy)]
enum Beside {
    Nothing,
    Error,
    Margin,
}

use Beside::*;

const WRONG_LAWS: [(&str, Beside, Search); 14] = [
    ("the joined profile needs as many terms as the two together", Nothing, never_fewer),
    ("the joined profile needs one term fewer than the two together, where each needs a term", Nothing, always_fewer),
    (
        "the law of joining holds for different rest values, the joined profile with the first's",
        Nothing,
        two_rest_values,
    ),
    ("the law of joining holds for different lengths", Nothing, two_lengths),
    ("the law of joining holds for equal lengths that are no power of two", Nothing, no_power_of_two),
    ("the law of joining holds where the second's slots go by the first's common band", Nothing, one_band_for_all),
    ("the joined profile's least margin is at least the lesser of the two", Margin, at_least_lesser_margin),
    ("the joined profile's least margin is at most the lesser of the two", Margin, at_most_lesser_margin),
    ("the moved profile's terms are the terms moved", Nothing, terms_moved),
    ("adding one number to the setpoints alone leaves the number of terms", Nothing, rest_not_moved),
    ("moving leaves the greatest error of a profile with special slots", Error, error_moved),
    ("moving leaves the number of terms where the moved values are cut at the limit", Nothing, cut_at_the_limit),
    ("the turned profile's terms are the terms turned", Nothing, terms_are_turned),
    ("turning leaves the greatest error of a profile with special slots", Error, error_turned),
];

pub fn run(comparison: &mut Comparison) {
    let mut stored = STORED.lines();
    for (statement, beside, search) in WRONG_LAWS {
        let example = search(comparison);
        comparison.same("a wrong statement is refused by an example", &statement, true, example.is_some());
        let line = match example {
            Some(profiles) => format!("refused: {statement} | {}", told_all(comparison, &profiles, beside)),
            None => format!("not refused: {statement}"),
        };
        println!("{line}");
        comparison.same("the line of a wrong statement", &statement, stored.next(), Some(&line));
    }
    comparison.same("a line after the last", &"tests/wrong_laws.txt", None, stored.next());
}

fn told_all(comparison: &mut Comparison, profiles: &Example, beside: Beside) -> String {
    let told = profiles
        .iter()
        .map(|(name, built)| format!("{name}: {} gives {}", told(&built.profile), answered(comparison, built, beside)));
    told.collect::<Vec<String>>().join(" | ")
}

/// A profile, with own bands in special slots alone.
fn told(Profile { rest, band, setpoints, specials }: &Profile) -> String {
    let mut slots: Vec<String> = setpoints.iter().copied().map(write_number).collect();
    for special in specials {
        slots[special.slot] += &format!(" with band {}", write_number(special.band));
    }
    format!("{}; rest {}; band {}", slots.join("; "), write_number(*rest), write_number(*band))
}

/// What the library answers for a profile, as far as the statement speaks of it.
fn answered(comparison: &mut Comparison, built: &Built, beside: Beside) -> String {
    let terms = built.terms();
    let term = |term: &Term| format!("term {} {}", term.node, write_number(term.value));
    let terms =
        if terms.is_empty() { "no term".to_string() } else { terms.iter().map(term).collect::<Vec<_>>().join("; ") };
    match beside {
        Nothing => terms,
        Error => format!("{terms}; greatest error {}", write_number(i32::from(built.greatest_error))),
        Margin => format!("{terms}; least margin {}", write_number(built.least_margin(comparison))),
    }
}

/// The profiles with their answers, where these refuse a statement.
fn example<const COUNT: usize>(
    comparison: &mut Comparison,
    profiles: [(&str, Profile); COUNT],
    refuse: impl Fn(&mut Comparison, &[Built; COUNT]) -> bool,
) -> Option<Example> {
    let names = profiles.each_ref().map(|(name, _)| name.to_string());
    let built = profiles.map(|(_, profile)| build(comparison, profile));
    refuse(comparison, &built).then(|| names.into_iter().zip(built).collect())
}

/// Two profiles, and the joined one with the first's common band.
fn end_to_end(parts: [Profile; 2]) -> [(&'static str, Profile); 3] {
    let whole = joined(parts.each_ref(), parts[0].band);
    let [first, second] = parts;
    [("first", first), ("second", second), ("joined", whole)]
}

/// Two profiles of one rest value and one band.
fn alike(rest: i32, band: i32, setpoints: [&[i32]; 2]) -> [(&'static str, Profile); 3] {
    end_to_end(setpoints.map(|setpoints| Profile::plain(rest, band, setpoints.to_vec())))
}

fn against_the_law(_: &mut Comparison, [first, second, whole]: &[Built; 3]) -> bool {
    !as_many_or_one_fewer([first, second], whole)
}

fn never_fewer(comparison: &mut Comparison) -> Option<Example> {
    first(|[band, rest, one, other]| {
        example(comparison, alike(rest, band, [&[one], &[other]]), |_, [first, second, whole]| {
            whole.count != first.count + second.count
        })
    })
}

fn always_fewer(comparison: &mut Comparison) -> Option<Example> {
    first(|[band, rest, one, other]| {
        example(comparison, alike(rest, band, [&[one], &[other]]), |_, [first, second, whole]| {
            first.count > 0 && second.count > 0 && whole.count + 1 != first.count + second.count
        })
    })
}

fn two_rest_values(comparison: &mut Comparison) -> Option<Example> {
    first(|[band, first_rest, second_rest, one, other]| {
        let parts = [Profile::plain(first_rest, band, vec![one]), Profile::plain(second_rest, band, vec![other])];
        example(comparison, end_to_end(parts), against_the_law)
    })
}

fn two_lengths(comparison: &mut Comparison) -> Option<Example> {
    first(|[band, rest, one, two, three]| {
        example(comparison, alike(rest, band, [&[one], &[two, three]]), against_the_law)
    })
}

/// Three slots each: the least length that is no power of two.
fn no_power_of_two(comparison: &mut Comparison) -> Option<Example> {
    first(|[band, rest, one, two, three, four, five, six]| {
        example(comparison, alike(rest, band, [&[one, two, three], &[four, five, six]]), against_the_law)
    })
}

fn one_band_for_all(comparison: &mut Comparison) -> Option<Example> {
    first(|[first_band, second_band, rest, one, other]| {
        let parts = [Profile::plain(rest, first_band, vec![one]), Profile::plain(rest, second_band, vec![other])];
        let [first, second, (name, whole)] = end_to_end(parts);
        let by_one_band = Profile { specials: Vec::new(), ..whole };
        example(comparison, [first, second, (name, by_one_band)], against_the_law)
    })
}

/// One slot each, by the lesser of the two least margins and the joined profile's.
fn by_margins(comparison: &mut Comparison, refuse: fn(i32, i32) -> bool) -> Option<Example> {
    first(|[band, rest, one, other]| {
        example(comparison, alike(rest, band, [&[one], &[other]]), |comparison, profiles| {
            let [first, second, whole] = profiles.each_ref().map(|built| built.least_margin(comparison));
            refuse(first.min(second), whole)
        })
    })
}

fn at_least_lesser_margin(comparison: &mut Comparison) -> Option<Example> {
    by_margins(comparison, |lesser, joined| joined < lesser)
}

fn at_most_lesser_margin(comparison: &mut Comparison) -> Option<Example> {
    by_margins(comparison, |lesser, joined| joined > lesser)
}

/// A profile as far above the lower limit as it is above 0.
fn at_lower_limit(profile: Profile) -> Profile {
    moved(&profile, -VALUE_LIMIT)
}

/// A profile of two slots, each a setpoint and its band; the first's band is the common one.
fn special(rest: i32, slots: [(i32, i32); 2]) -> Profile {
    let [setpoints, bands] = [slots.map(|slot| slot.0), slots.map(|slot| slot.1)];
    Profile::plain(rest, bands[0], setpoints.to_vec()).with_bands(&bands)
}

fn other_error(_: &mut Comparison, [before, after]: &[Built; 2]) -> bool {
    !before.profile.specials.is_empty() && before.greatest_error != after.greatest_error
}

fn terms_moved(comparison: &mut Comparison) -> Option<Example> {
    first(|[by, band, rest, one, other]| {
        let profile = at_lower_limit(Profile::plain(rest, band, vec![one, other]));
        let moved = moved(&profile, by);
        let name = format!("moved by {}", write_number(by));
        example(comparison, [("profile", profile), (&name, moved)], |_, [before, after]| {
            after.terms() != moved_terms(&before.terms(), by)
        })
    })
}

fn rest_not_moved(comparison: &mut Comparison) -> Option<Example> {
    first(|[by, band, rest, one]| {
        let profile = Profile::plain(rest, band, vec![one]);
        let setpoints_moved = Profile { rest, ..moved(&profile, by) };
        let name = format!("setpoints moved by {}", write_number(by));
        example(comparison, [("profile", profile), (&name, setpoints_moved)], |_, [before, after]| {
            before.count != after.count
        })
    })
}

fn error_moved(comparison: &mut Comparison) -> Option<Example> {
    first(|[by, first_band, second_band, rest, one, other]| {
        let profile = at_lower_limit(special(rest, [(one, first_band), (other, second_band)]));
        let moved = moved(&profile, by);
        let name = format!("moved by {}", write_number(by));
        example(comparison, [("profile", profile), (&name, moved)], other_error)
    })
}

fn cut_at_the_limit(comparison: &mut Comparison) -> Option<Example> {
    first(|[by, band, rest, below]| {
        let profile = Profile::plain(VALUE_LIMIT - rest, band, vec![VALUE_LIMIT - below]);
        let cut = with_values(&profile, |value| (value + by).min(VALUE_LIMIT));
        let name = format!("moved by {} and cut", write_number(by));
        example(comparison, [("profile", profile), (&name, cut)], |_, [before, after]| before.count != after.count)
    })
}

fn terms_are_turned(comparison: &mut Comparison) -> Option<Example> {
    first(|[band, rest, one, other]| {
        let profile = Profile::plain(rest, band, vec![one, other]);
        let turned = turned(&profile);
        example(comparison, [("profile", profile), ("turned", turned)], |_, [before, after]| {
            after.terms() != turned_terms(&before.terms())
        })
    })
}

fn error_turned(comparison: &mut Comparison) -> Option<Example> {
    first(|[first_band, second_band, rest, one, other]| {
        let profile = special(rest, [(one, first_band), (other, second_band)]);
        let turned = turned(&profile);
        example(comparison, [("profile", profile), ("turned", turned)], other_error)
    })
}
