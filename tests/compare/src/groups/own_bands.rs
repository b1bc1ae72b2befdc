//! Document 02's F-6, "A band of its own for a slot": lines, building and the least band by name, with what the documents
//! give; small profiles with every own band, and profiles with an own band in every slot or in the first.

use super::firings::{fire, for_all};
use super::first::whatever_was_held;
use super::instances::{Instances, refused, term};
use crate::comparison::Comparison;
use crate::document::bands::Special;
use crate::document::fields::{LONGEST, byte_count};
use crate::document::record::Record;
use crate::document::synopsis::{End, Term, least_margin};
use crate::document::text::{Profile, write_text};
use crate::document::{BAND_LIMIT, SLOT_LIMIT};
use crate::inputs::profiles::{SHAPES, profile};
use crate::inputs::random::Random;

/// Document 01's firing with a band of 0,10 for slot 2, which then has a term of its own. Two terms can leave a margin of 0,10
/// and no more, for that is slot 2's band: 20,00 is exact, 19,50 may be off by 0,15, and the lowest such value comes first.
pub const FIRING: &[u8] = b"14,00\n0,25\n14,10\n13,90\n20,00 0,10\n19,50\n";
pub const FIRING_PRINTED: &str =
    "4 2 0,25 0,15\nterm 3 19,35\nterm 6 20,00\nslot 0 14,00\nslot 1 14,00\nslot 2 20,00\nslot 3 19,35\n";
pub const FIRING_RECORD: [u8; 18] =
    [0x20, 0x18, 0x00, 0xC8, 0x2B, 0xC0, 0x04, 0x01, 0x83, 0xC7, 0x80, 0xC0, 0xFA, 0x00, 0x08, 0x08, 0x00, 0x28];

/// Setpoints 0 and 1 with bands 1 and 0: of two synopses with as many terms and the same least margin the first comes out,
/// which has the greater error.
pub const GREATER_ERROR: &[u8] = b"0\n0,01\n0\n0,01 0\n";
pub const GREATER_ERROR_PRINTED: &str = "2 1 0,01 0,01\nterm 1 0,01\nslot 0 0,01\nslot 1 0,01\n";
const GREATER_ERROR_RECORD: [u8; 15] =
    [0x20, 0x08, 0x00, 0x08, 0x00, 0x00, 0x02, 0x00, 0x80, 0x00, 0x80, 0x20, 0x10, 0x00, 0x00];

pub fn run(comparison: &mut Comparison) {
    let mut instances = Instances(comparison);
    lines_refused(&mut instances);
    lines_accepted(&mut instances);
    ends_of_texts(&mut instances);
    bytes(&mut instances);
    least_bands(&mut instances);
    built(comparison);
    every_small_profile(comparison);
    let mut random = Random::new(10);
    for round in 0..30 * SHAPES.len() {
        let slots = 1 + random.below(if round % 5 == 0 { SLOT_LIMIT } else { 40 });
        let profile = profile(&mut random, SHAPES[round % SHAPES.len()], slots);
        let own = own_bands(&mut random, &profile);
        let profile = profile.with_bands(&own);
        fire(comparison, &profile);
        by_the_margin(comparison, &profile);
    }
}

/// Own bands for all slots or the first 24: any, or near a level that is not the common one.
fn own_bands(random: &mut Random, profile: &Profile) -> Vec<i32> {
    let slots = profile.setpoints.len().min(*random.pick(&[24, SLOT_LIMIT]));
    let level = random.between(0, 1_000);
    let unrest = *random.pick(&[0, 3, 50, BAND_LIMIT]);
    (0..slots).map(|_| (level + random.between(-unrest, unrest)).clamp(0, BAND_LIMIT)).collect()
}

fn lines_refused(instances: &mut Instances) {
    let cases: [(&str, &str, u16); 25] = [
        ("nothing after the space", "14,10 ", 1),
        ("two spaces", "14,10  0,10", 1),
        ("two spaces and nothing after them", "14,10  ", 1),
        ("a tab", "14,10\t0,10", 1),
        ("a space in front", " 14,10", 1),
        ("a space in front of both", " 14,10 0,10", 1),
        ("a space alone", " ", 1),
        ("a space behind", "14,10 0,10 ", 1),
        ("a third field", "14,10 0,10 0,10", 1),
        ("a carriage return", "14,10 0,10\r", 1),
        ("three digits after a point", "14,10 0.105", 1),
        ("an own band that is no number, its setpoint beyond", "300,00 x", 1),
        ("an own band beyond, its setpoint no number", "x 500,00", 1),
        ("both beyond", "300,00 500,00", 2),
        ("both beyond by rounding", "-200,005 -0,005", 2),
        ("a setpoint beyond, with an own band", "300,00 0,10", 2),
        ("a setpoint beyond, its own band the common one", "200,01 0,25", 2),
        ("an own band above", "1,00 500,00", 3),
        ("an own band above by one", "1,00 400,01", 3),
        ("an own band above by rounding", "1,00 400,005", 3),
        ("an own band below", "1,00 -0,01", 3),
        ("an own band below by rounding", "1,00 -0,005", 3),
        ("an own band below, the farthest", "1,00 -999,995", 3),
        ("an own band above, the farthest", "1,00 999,995", 3),
        ("a space between the digits", "1 4,10 0,10", 1),
    ];
    for (name, line, number) in cases {
        for (before, behind) in [("", ""), ("14,10 0,10\n", "x\n"), ("", "500\n14,10 500,00")] {
            instances.refuses(name, format!("14,00\n0,25\n{before}{line}\n{behind}").as_bytes(), number);
        }
        instances.refuses("the same, not ended", format!("14,00\n0,25\n{line}").as_bytes(), 1);
    }
    for first in ["14,00 0,10", "14,00 ", " 14,00", "14,00 x", "300,00 0,10", "14,00 500,00"] {
        instances.refuses("a space in the rest value's line", format!("{first}\n0,25\n14,10\n").as_bytes(), 1);
        instances.refuses("a space in the band's line", format!("14,00\n{first}\n14,10\n").as_bytes(), 1);
    }
}

/// One slot that the rest value serves, with a field as its own band beside the common band 0,25; and slots whose own band is the
/// common one.
fn lines_accepted(instances: &mut Instances) {
    let special = [
        ("0", 0),
        ("-0", 0),
        ("-0,00", 0),
        ("-000,004", 0),
        ("0,004", 0),
        ("0,005", 1),
        ("0,24", 24),
        ("0,244", 24),
        ("0,255", 26),
        ("0.26", 26),
        ("399,995", 40_000),
        ("400", 40_000),
        ("400,004", 40_000),
    ];
    for (field, band) in special {
        let name = format!("`{field}` as an own band");
        let text = format!("1\n0,25\n1 {field}\n");
        let record = instances.builds(&name, text.as_bytes(), [0, 12, 0, 0], &[]);
        let specials = vec![Special { slot: 0, band }];
        let expected = Record { specials, ..Record::plain(1, 25, 100, Vec::new()) }.bytes();
        instances.0.same("the record of an own band", &name, Some(expected), record);
        instances.least_band(&name, text.as_bytes(), 0, refused(12));
    }
    for (common, field) in [("0,25", "0,25"), ("0,25", "0,254"), ("0,25", "000,245"), ("0,2", "0.20"), ("0", "-0,004")]
    {
        let name = format!("`{field}` as an own band beside `{common}`");
        let text = format!("1\n{common}\n1 {field}\n1\n1 {field}\n");
        instances.builds(&name, text.as_bytes(), [0, 7, 0, 0], &[]);
        instances.least_band(&name, text.as_bytes(), 0, [0, 0, 0, 0]);
        instances.least_band(&name, text.as_bytes(), 1_024, refused(5));
    }
}

/// 512 slots with own bands, a line more, and a last line that is not ended.
fn ends_of_texts(instances: &mut Instances) {
    let longest = [b"0\n0,05\n".as_slice(), &b"0,05 0,06\n".repeat(SLOT_LIMIT)].concat();
    let bytes = byte_count(0, SLOT_LIMIT) as u16;
    instances.builds("512 special slots", &longest, [0, bytes, 0, 5], &[]);
    for tail in ["5 5\n", "5 5", "5 ", " ", "x y\n", "1 500\n"] {
        let text = [longest.as_slice(), tail.as_bytes()].concat();
        instances.refuses("a byte after the 514th line", &text, 4);
    }
    instances.refuses("an own band that is not ended", &longest[..longest.len() - 1], 1);
    instances.refuses("two lines, the second with a space", b"0\n0,05 0,06\n", 1);
    instances.refuses("an own band in a third line that is not ended", b"0\n0\n1 1", 1);
    instances.refuses("a space in a third line that is not ended", b"0\n0\n1 ", 1);
}

/// Two records byte by byte.
fn bytes(instances: &mut Instances) {
    let terms = [term(3, 1935), term(6, 2000)];
    let record = instances.builds("the firing with an own band", FIRING, [0, 18, 2, 15], &terms);
    instances.0.same("its record", &"the firing with an own band", Some(FIRING_RECORD.to_vec()), record);
    let record = instances.builds("the first, with the greater error", GREATER_ERROR, [0, 15, 1, 1], &[term(1, 1)]);
    instances.0.same("its record", &"the first, with the greater error", Some(GREATER_ERROR_RECORD.to_vec()), record);
    for (slot, setpoint) in [1400, 1400, 2000, 1935].into_iter().enumerate() {
        instances.restores("a slot of the firing with an own band", &FIRING_RECORD, slot as u64, [0, setpoint, 0, 0]);
    }
    instances.restores("slot 4 of it", &FIRING_RECORD, 4, refused(10));
    instances.checks("its record against its text", &FIRING_RECORD, FIRING, [0, 1, 15, 0]);
    for text in [FIRING, GREATER_ERROR] {
        whatever_was_held(instances.0, text);
    }
    for destination in 0..20 {
        instances.0.text_to_record(FIRING, destination);
    }
}

/// "12 in least band of a text, just ahead of 5: it has special slots."
fn least_bands(instances: &mut Instances) {
    for budget in [0, 1, 1_023, 1_024, u64::MAX] {
        instances.least_band("a text with special slots", FIRING, budget, refused(12));
    }
    for (behind, number) in [("x\n", 1), ("300 1\n", 2), ("1 500\n", 3), ("1", 1)] {
        let text = [FIRING, behind.as_bytes()].concat();
        for budget in [0, 1_024] {
            instances.least_band("special slots, and a line that is refused", &text, budget, refused(number));
        }
    }
    let too_long = [b"0\n0\n".as_slice(), &b"1 1\n".repeat(513)].concat();
    instances.least_band("special slots, and too many", &too_long, 1_024, refused(4));
}

/// A name, a profile's rest value, common band, setpoints and own bands, the terms and the greatest error.
type Case<'a> = (&'a str, i32, i32, &'a [i32], &'a [i32], &'a [Term], u16);

/// Profiles that come out otherwise where the common band, the error or one band for all slots decides.
fn built(comparison: &mut Comparison) {
    let cases: [Case; 10] = [
        ("the greatest least margin, not the least error", 500, 10, &[0, 8], &[10, 1], &[term(1, 8)], 8),
        ("one band, the least error", 500, 10, &[0, 8], &[], &[term(1, 4)], 4),
        ("all slots special: the common band bounds no margin", 500, 5, &[0, 0], &[20, 20], &[term(1, 0)], 0),
        ("one slot not special: it does", 500, 5, &[0, 0], &[20, 5], &[term(1, 0)], 0),
        ("a tighter band asks for a term more", 0, 50, &[0, 40], &[50, 39], &[term(3, 40)], 0),
        ("a wider band saves a term, and its error is reported", 0, 0, &[0, 100], &[0, 100], &[], 100),
        ("the lowest value with the margin of another slot", 0, 30, &[30, 500], &[30, 40], &[term(3, 460)], 40),
        ("cut at the lower limit", 0, 30, &[30, -19_990], &[30, 25], &[term(3, -20_000)], 30),
        ("bands 0 and 40,000", 0, 7, &[20_000, -20_000], &[40_000, 40_000], &[], 20_000),
        ("an own band of 0 in all slots", 7, 40_000, &[1, 2], &[0, 0], &[term(1, 1), term(3, 2)], 0),
    ];
    for (name, rest, band, setpoints, own, terms, greatest_error) in cases {
        let profile = Profile::plain(rest, band, setpoints.to_vec()).with_bands(own);
        let (answer, record) = comparison.text_to_record(&write_text(&profile), LONGEST);
        let expected = Record::of(&profile, terms.to_vec()).bytes();
        let gives = [0, expected.len() as u16, terms.len() as u16, greatest_error];
        comparison.same("built with own bands, by name", &name, gives, answer);
        comparison.same("its record", &name, Some(expected), record);
    }
}

/// Every setpoint of 0 to 2 with every own band of 0 to 2, beside the common bands 0 and 1.
fn every_small_profile(comparison: &mut Comparison) {
    for slots in 1..=3 {
        for_all(&[0, 1, 2], slots, |setpoints| {
            for_all(&[0, 1, 2], slots, |own| {
                for (rest, band) in [(0, 0), (0, 1), (1, 1), (3, 1)] {
                    let profile = Profile::plain(rest, band, setpoints.to_vec()).with_bands(own);
                    fire(comparison, &profile);
                }
            });
        });
    }
}

/// With its least margin taken off every band a profile has the same terms, for then they leave none; with one more taken off
/// it has more terms, where every band has room for it.
fn by_the_margin(comparison: &mut Comparison, profile: &Profile) {
    let demand = profile.demand();
    let terms = comparison.best(&demand, End::First);
    let margin = least_margin(&terms, &demand);
    let tighter = |by: i32| {
        let own: Vec<i32> = demand.bands.iter().map(|band| band - by).collect();
        Profile { band: (profile.band - by).max(0), ..profile.clone() }.with_bands(&own)
    };
    let tightened = tighter(margin);
    let record = comparison.text_to_record(&write_text(&tightened), LONGEST).1;
    let expected = Record::of(&tightened, terms.clone()).bytes();
    comparison.same("the same terms with bands less by the margin", &format!("{profile:?}"), Some(expected), record);
    if margin < demand.least_band() {
        let [_, _, count, _] = comparison.text_to_record(&write_text(&tighter(margin + 1)), LONGEST).0;
        let case = format!("{profile:?}");
        comparison.same("more terms with bands less by one more", &case, true, usize::from(count) > terms.len());
    }
}
