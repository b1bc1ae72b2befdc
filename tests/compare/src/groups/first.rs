//! Document 02's F-5, "The first, where several are smallest": profiles with several best synopses, by name with their
//! first and their last as the documents give them, and by chance; and the same bytes whatever the destination held.

use super::firings::{fire, for_all};
use super::instances::term;
use crate::comparison::Comparison;
use crate::document::fields::LONGEST;
use crate::document::optimum::Optimum;
use crate::document::record::Record;
use crate::document::synopsis::{End, Term};
use crate::document::text::{Profile, write_text};
use crate::document::{SLOT_LIMIT, VALUE_LIMIT};
use crate::inputs::profiles::specials;
use crate::inputs::random::Random;

/// 0,96 within 4 hundredths of the rest value 1,00, and -0,01, which all values from -0,05 to 0,03 keep within as many.
pub const FROM_BELOW_ZERO: &[u8] = b"1,00\n0,04\n0,96\n-0,01\n";
pub const FROM_BELOW_ZERO_PRINTED: &str = "2 1 0,04 0,04\nterm 3 -0,05\nslot 0 1,00\nslot 1 -0,05\n";
const FROM_BELOW_ZERO_RECORD: [u8; 11] = [0x10, 0x08, 0x00, 0x20, 0x03, 0x20, 0x02, 0x01, 0xFF, 0xFD, 0x80];

/// 0,30 away from the rest value in slot 0, and -199,90: -200,20 is as near to it, and -200,00 is the lowest value there is.
const FROM_THE_LIMIT: &[u8] = b"0,00\n0,30\n0,30\n-199,90\n";
const FROM_THE_LIMIT_RECORD: [u8; 11] = [0x10, 0x08, 0x00, 0xF0, 0x00, 0x00, 0x02, 0x01, 0xD8, 0xF0, 0x00];

pub fn run(comparison: &mut Comparison) {
    one_best_synopsis(comparison);
    values(comparison);
    nodes(comparison);
    bytes(comparison);
    let mut random = Random::new(9);
    for_all(&[0, 2], 8, |setpoints| {
        for (rest, band) in [(0, 0), (1, 0), (3, 1)] {
            fire(comparison, &Profile::plain(rest, band, setpoints.to_vec()));
        }
    });
    for slots in (1..=66).flat_map(|slots| [slots; 6]).chain([127, 128, 129, 200, 255, 256, 257, 300, 384, 511]) {
        fire(comparison, &on_few_levels(&mut random, slots));
    }
    for _ in 0..20 {
        let profile = on_few_levels(&mut random, SLOT_LIMIT);
        fire(comparison, &profile);
        whatever_was_held(comparison, &write_text(&profile));
    }
}

/// Setpoints on up to five levels around 0 or a limit, and a rest value near one of them, from which their errors
/// differ.
fn on_few_levels(random: &mut Random, slots: usize) -> Profile {
    let middle = *random.pick(&[0, -VALUE_LIMIT, VALUE_LIMIT]);
    let step = *random.pick(&[1, 2, 3, 10, 101, 1_000, 8_000]);
    let mut level = |unrest: i32| {
        let unrest = random.between(-unrest, unrest);
        (middle + step * random.between(-2, 2) + unrest).clamp(-VALUE_LIMIT, VALUE_LIMIT)
    };
    let setpoints = (0..slots).map(|_| level(0)).collect();
    let (rest, band) = (level(step / 2), random.between(0, step));
    Profile { specials: specials(random, slots, band), ..Profile::plain(rest, band, setpoints) }
}

/// A name, a profile's rest value, band and setpoints, and the first and the last of its best synopses.
type Case<'a> = (&'a str, i32, i32, &'a [i32], &'a [Term], &'a [Term]);

fn chosen(comparison: &mut Comparison, cases: &[Case]) {
    for &(name, rest, band, setpoints, first, last) in cases {
        let profile = Profile::plain(rest, band, setpoints.to_vec());
        let record = comparison.text_to_record(&write_text(&profile), LONGEST).1;
        let expected = Record::of(&profile, first.to_vec()).bytes();
        comparison.same("the record of the first, by name", &name, Some(expected), record);
        let found = Optimum::new(profile.demand()).best(0, End::Last);
        comparison.same("the last of the best synopses, by name", &name, last, &found);
    }
}

/// The order decides nothing before the number of terms and the greatest error do.
fn one_best_synopsis(comparison: &mut Comparison) {
    let exact = [term(1, 5)];
    let own = [term(7, 100)];
    let cases: [Case; 2] = [
        ("of 3 to 7 at the root the one with the least greatest error", 500, 7, &[0, 10], &exact, &exact),
        ("no term at a lower node that asks for one more", 0, 0, &[0, 0, 0, 100], &own, &own),
    ];
    chosen(comparison, &cases);
}

/// Several values at one node keep the error: that of another slot is greater than the term's slots ask for, or a
/// midpoint is not whole.
fn values(comparison: &mut Comparison) {
    let four_levels = [0, 10, 100, 100, 200, 200, 10, 0];
    let [lowest, highest] = [[term(5, 90), term(6, 190)], [term(5, 110), term(6, 210)]];
    let far_apart = [5_000, 20_000, -20_000, -20_000];
    let cases: [Case; 8] = [
        ("40 to 60 at node 3, and no 38 for a greater band", 10, 12, &[0, 0, 50, 50], &[term(3, 40)], &[term(3, 60)]),
        ("0 or 1 at the root", 500, 1, &[0, 1], &[term(1, 0)], &[term(1, 1)]),
        ("-1 or 0 at the root", 500, 1, &[-1, 0], &[term(1, -1)], &[term(1, 0)]),
        ("-5 to 3 at node 3", 100, 4, &[96, -1], &[term(3, -5)], &[term(3, 3)]),
        ("values at each of two nodes", 0, 10, &four_levels, &lowest, &highest),
        ("cut at the lower limit", 0, 30, &[30, -19_990], &[term(3, -20_000)], &[term(3, -19_960)]),
        ("cut at the upper limit", 0, 30, &[30, 19_990], &[term(3, 19_960)], &[term(3, 20_000)]),
        ("cut from -35,000", 20_000, 15_000, &far_apart, &[term(3, -20_000)], &[term(3, -5_000)]),
    ];
    chosen(comparison, &cases);
}

/// Terms can stand at several nodes.
fn nodes(comparison: &mut Comparison) {
    let by_turns = [0, 100, 0, 100];
    let [from_0, from_100] = [[term(1, 0), term(5, 100), term(7, 100)], [term(1, 100), term(4, 0), term(6, 0)]];
    let [spread, at_leaves] = [[(1, 1), (3, 3), (5, 2), (7, 4)], [(4, 1), (5, 2), (6, 3), (7, 4)]]
        .map(|terms| terms.map(|(node, value)| term(node, value)));
    let limits = [0, 20_000, -20_000, -20_000];
    let last_slot = [0, 0, 0, 0, 100];
    let [at_3, at_12] = [[term(1, 0), term(3, 100)], [term(2, 0), term(12, 100)]];
    let cases: [Case; 9] = [
        ("node 1 before node 2", 50, 49, &[0, 100], &[term(1, 0), term(3, 100)], &[term(2, 0), term(3, 100)]),
        ("-5 before 3 at node 1", 100, 0, &[-5, 3], &[term(1, -5), term(3, 3)], &[term(2, -5), term(3, 3)]),
        ("the first term's value before the second's node", 50, 0, &by_turns, &from_0, &from_100),
        ("as many terms as slots", 0, 0, &[1, 2, 3, 4], &spread, &at_leaves),
        ("node 1 with 0 before node 3 with -20,000", 20_000, 20_000, &limits, &[term(1, 0)], &[term(3, 0)]),
        ("a term over filler too, of two nodes", 0, 0, &[0, 0, 100], &[term(3, 100)], &[term(6, 100)]),
        ("a term over filler too, of three nodes", 0, 0, &last_slot, &[term(3, 100)], &[term(12, 100)]),
        ("a term over filler too, and its value", 100, 4, &[96, 96, -1], &[term(3, -5)], &[term(6, 3)]),
        ("a term over filler too, below the root's", 50, 0, &last_slot, &at_3, &at_12),
    ];
    chosen(comparison, &cases);
}

/// Two of the records byte by byte.
fn bytes(comparison: &mut Comparison) {
    for (text, expected) in [(FROM_BELOW_ZERO, FROM_BELOW_ZERO_RECORD), (FROM_THE_LIMIT, FROM_THE_LIMIT_RECORD)] {
        let record = comparison.text_to_record(text, expected.len()).1;
        comparison.same("the first's record, to the byte", &text.escape_ascii(), Some(expected.to_vec()), record);
        whatever_was_held(comparison, text);
    }
}

/// "Two panels fed one profile should send identical bytes": each call writes the one record, whatever its destination
/// held.
pub fn whatever_was_held(comparison: &mut Comparison, text: &[u8]) {
    let contents: [fn(usize) -> u8; 3] = [|_| 0, |_| 255, |place| place as u8];
    for held in contents {
        comparison.text_to_record_over(text, LONGEST, held);
    }
}
