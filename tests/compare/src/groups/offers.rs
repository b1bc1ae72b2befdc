//! Two offers for one text: one, two or no candidates, equal ones, bytes behind them, short buffers, counts that point past the
//! end, records that read and are for another profile or have other special slots, and texts that are refused.

use super::instances::{FIRING, FIRING_RECORD, term, with_filler_term};
use super::own_bands;
use crate::comparison::Comparison;
use crate::document::bands::Special;
use crate::document::fields::LONGEST;
use crate::document::record::Record;
use crate::document::synopsis::{Term, padded_length};
use crate::document::text::{Profile, write_text};
use crate::document::{BAND_LIMIT, VALUE_LIMIT};
use crate::inputs::changes::Change;
use crate::inputs::profiles::{SHAPES, any_profile, away, filler_nodes, profile, record, with_terms_at};
use crate::inputs::random::Random;
use crate::inputs::typed::any_text;

pub fn run(comparison: &mut Comparison) {
    let mut random = Random::new(7);
    by_name(comparison);
    over_filler(comparison);
    by_margin(comparison);
    for shape in SHAPES {
        for slots in [1, 2, 3, 4, 5, 7, 8, 13, 40] {
            let profile = profile(&mut random, shape, slots);
            every_pair(comparison, &mut random, &profile);
        }
    }
    for slots in [257, 300, 512] {
        let profile = any_profile(&mut random, slots);
        every_pair(comparison, &mut random, &profile);
    }
    for _ in 0..30_000 {
        chance_bytes(comparison, &mut random);
    }
}

/// A name, two buffers, and what their choice gives.
type Case<'a> = (&'a str, &'a [u8], &'a [u8], [u16; 4]);

fn chosen(comparison: &mut Comparison, text: &[u8], cases: &[Case]) {
    for &(name, first, second, gives) in cases {
        let answer = comparison.better_offer(text, first, second);
        comparison.same("two offers, by name", &name, gives, answer);
    }
}

fn by_name(comparison: &mut Comparison) {
    let two_terms = Record::plain(4, 25, 1400, vec![term(2, 1400), term(3, 1975)]).bytes();
    let behind = [FIRING_RECORD.as_slice(), &[0x10, 0xFF, 0x00]].concat();
    let cases: [Case; 8] = [
        ("fewer terms, in the first buffer", &FIRING_RECORD, &two_terms, [0, 1, 11, 0]),
        ("fewer terms, in the second buffer", &two_terms, &FIRING_RECORD, [0, 2, 11, 0]),
        ("equal offers", &FIRING_RECORD, &FIRING_RECORD, [0, 1, 11, 0]),
        ("equal offers, bytes behind the first", &behind, &FIRING_RECORD, [0, 1, 11, 0]),
        ("bytes behind the only candidate", &[], &behind, [0, 2, 11, 0]),
        ("a record that its buffer cuts short", &FIRING_RECORD[..10], &two_terms, [0, 2, 14, 0]),
        ("a buffer that ends before its count", &FIRING_RECORD[..6], &FIRING_RECORD[..7], [0, 0, 0, 0]),
        ("no bytes", &[], &[], [0, 0, 0, 0]),
    ];
    chosen(comparison, FIRING, &cases);
    for behind in [b"x\n".as_slice(), b"\n", b"200,01\n"] {
        let answer = comparison.better_offer(&[FIRING, behind].concat(), &FIRING_RECORD, &FIRING_RECORD);
        comparison.same(
            "two offers for document 01's text with a fault behind it",
            &behind.escape_ascii(),
            [0; 4],
            answer,
        );
    }
    for end in 0..FIRING.len() {
        let answer = comparison.better_offer(&FIRING[..end], &FIRING_RECORD, &FIRING_RECORD);
        comparison.same("two offers for a front part of document 01's text", &end, [0; 4], answer);
    }
}

/// Offers with a term over filler alone for F-3's profile, here with band 5: the term counts, and what filler restores does not.
fn over_filler(comparison: &mut Comparison) {
    let one_term = Record::plain(6, 5, 0, vec![term(13, 105)]).bytes();
    let values = [(-20_000, 100), (100, 100), (100, 104), (100, 106)];
    let [far, near, inexact, not_kept] = values.map(|values| with_filler_term(5, values));
    let cases: [Case; 6] = [
        ("a term over filler alone, the only candidate", &[], &far, [0, 2, 14, 0]),
        ("a term over filler alone, beside one that is not kept", &far, &not_kept, [0, 1, 14, 0]),
        ("a term over filler alone is a term more", &far, &one_term, [0, 2, 11, 0]),
        ("the smaller error below n, filler far off, in the first buffer", &far, &inexact, [0, 1, 14, 0]),
        ("the smaller error below n, filler far off, in the second buffer", &inexact, &far, [0, 2, 14, 0]),
        ("equal below n, filler far off in the first buffer", &far, &near, [0, 1, 14, 0]),
    ];
    chosen(comparison, b"0\n0,05\n0\n0\n0\n0\n0\n1\n", &cases);
}

/// Two slots of setpoint 0 with bands 10 and 1, and offers of two terms by their errors in the two: 5 and 0 leave a margin of
/// 1, and 0 and 1 leave none. With one band of 10 the smaller error is the greater margin.
fn by_margin(comparison: &mut Comparison) {
    let profile = Profile::plain(500, 10, vec![0, 0]);
    let special = profile.clone().with_bands(&[10, 1]);
    let offer =
        |profile: &Profile, errors: [i32; 2]| Record::of(profile, vec![term(2, errors[0]), term(3, errors[1])]).bytes();
    let [wide, tight, exact, outside] = [[5, 0], [0, 1], [0, 0], [0, 2]].map(|errors| offer(&special, errors));
    let behind = [tight.as_slice(), &[0xFF]].concat();
    let no_specials = offer(&profile, [0, 0]);
    let other_band = offer(&profile.clone().with_bands(&[10, 2]), [0, 0]);
    let other_slot = offer(&profile.clone().with_bands(&[1, 10]), [0, 0]);
    let one_more = offer(&profile.clone().with_bands(&[11, 1]), [0, 0]);
    let cases: [Case; 14] = [
        ("the greater margin with the greater error, in the first buffer", &wide, &tight, [0, 1, 18, 0]),
        ("the greater margin with the greater error, in the second buffer", &tight, &wide, [0, 2, 18, 0]),
        ("equal margins, the greater error first", &wide, &exact, [0, 1, 18, 0]),
        ("equal margins, the smaller error first", &exact, &wide, [0, 1, 18, 0]),
        ("bytes behind a version 2", &behind, &outside, [0, 1, 18, 0]),
        ("bytes behind it, and the greater margin", &behind, &wide, [0, 2, 18, 0]),
        ("not within the slot's own band", &outside, &[], [0, 0, 0, 0]),
        ("within it, beside one that is not", &outside, &tight, [0, 2, 18, 0]),
        ("no special slots", &no_specials, &tight, [0, 2, 18, 0]),
        ("another band in the special slot", &other_band, &tight, [0, 2, 18, 0]),
        ("another special slot", &other_slot, &tight, [0, 2, 18, 0]),
        ("a special slot more", &one_more, &tight, [0, 2, 18, 0]),
        ("a buffer that ends before the second count", &exact[..14], &tight, [0, 2, 18, 0]),
        ("a buffer that ends after the second count", &exact[..15], &tight, [0, 2, 18, 0]),
    ];
    chosen(comparison, &write_text(&special), &cases);
    let [wide, tight] = [[5, 0], [0, 1]].map(|errors| offer(&profile, errors));
    let cases: [Case; 2] = [
        ("one band, the smaller error first", &tight, &wide, [0, 1, 14, 0]),
        ("one band, the smaller error second", &wide, &tight, [0, 2, 14, 0]),
    ];
    chosen(comparison, &write_text(&profile), &cases);
    let cases: [Case; 1] = [("special slots that the text has not", &exact, &wide, [0, 2, 14, 0])];
    chosen(comparison, b"5\n0,10\n0 0,10\n0 0,104\n", &cases);
}

/// Every two of many buffers, in either order; and each beside the record that is built, for texts that are refused after their last good line.
fn every_pair(comparison: &mut Comparison, random: &mut Random, profile: &Profile) {
    let text = any_text(random, profile);
    let buffers = buffers(comparison, random, profile, &text);
    for first in &buffers {
        for second in &buffers {
            comparison.better_offer(&text, first, second);
        }
        for behind in [b"x".as_slice(), b"\n", b"200,01\n", b"200,005\n", b"14.505\n", b"14,00", b"1 \n", b"1 500\n"] {
            comparison.better_offer(&[text.as_slice(), behind].concat(), first, &buffers[0]);
        }
    }
}

/// Records for a profile, most of them candidates, some with terms over filler alone, each with bytes behind it too; the same
/// damaged; and records for other profiles.
fn buffers(comparison: &mut Comparison, random: &mut Random, profile: &Profile, text: &[u8]) -> Vec<Vec<u8>> {
    let built = comparison.text_to_record(text, LONGEST).1.unwrap_or_default();
    let errors: [fn(i32) -> i32; 5] = [|_| 0, |band| band / 2, |band| (band - 2).max(0), |band| band, |band| band + 1];
    let leaves = errors.map(|error| with_leaves(profile, error));
    let mut buffers = vec![built.clone()];
    buffers.extend(leaves.iter().map(Record::bytes));
    buffers.push(at_the_tightest(profile).bytes());
    buffers.extend(other_specials(profile).into_iter().map(|specials| {
        let exact = with_leaves(profile, |_| 0);
        Record { specials, ..exact }.bytes()
    }));
    buffers.extend(leaves.iter().map(|record| with_root(record).bytes()));
    let filler = filler_nodes(profile.setpoints.len());
    if !filler.is_empty() {
        let far = away(profile.setpoints[profile.setpoints.len() - 1], VALUE_LIMIT);
        buffers.extend(leaves.iter().map(|record| with_terms_at(record, &filler, far).bytes()));
    }
    let behind: Vec<u8> = (0..1 + random.below(9)).map(|_| random.next() as u8).collect();
    let lengthened: Vec<Vec<u8>> = buffers.iter().map(|record| [record.as_slice(), &behind].concat()).collect();
    buffers.extend(lengthened);
    let ends = (0..=8).chain([built.len() / 2, built.len() - 4, built.len() - 1]);
    buffers.extend(ends.map(|end| built[..end.min(built.len())].to_vec()));
    let changes = [
        Change::Version(0),
        Change::Version(1),
        Change::Version(2),
        Change::Version(3),
        Change::Fill(1),
        Change::Length(profile.setpoints.len() as i32 % 512),
        Change::Band(profile.band + 1),
        Change::Band((profile.band - 1).max(0)),
        Change::Rest(away(profile.rest, 1)),
        Change::CountBy(1),
        Change::CountBy(-1),
        Change::NodeTo(0, 0),
        Change::ValueTo(0, 20_001),
        Change::SecondCountBy(1),
        Change::SecondCountBy(-1),
        Change::SpecialBandCommon(0),
        Change::NoSpecials,
        Change::NoSecondCount,
    ];
    buffers.extend(changes.iter().map(|change| {
        let mut fields = with_leaves(profile, |_| 0).fields();
        change.apply(&mut fields);
        [fields.bytes(), behind.clone()].concat()
    }));
    buffers.push(record(random, profile.setpoints.len(), 4).bytes());
    buffers
}

/// A term on the leaf of every slot below n, so far from its setpoint as its band says, where the limits have such a value.
fn with_leaves(profile: &Profile, error: impl Fn(i32) -> i32) -> Record {
    let first_leaf = padded_length(profile.setpoints.len());
    let value = |(setpoint, band)| away(setpoint, error(band));
    let term = |(slot, pair): (usize, (i32, i32))| Term { node: first_leaf + slot, value: value(pair) };
    Record::of(profile, profile.demand().slots().enumerate().map(term).collect())
}

/// The same, exact but in the slots of the least band, which is used up there: a margin of 0 and a small error.
fn at_the_tightest(profile: &Profile) -> Record {
    let least = profile.demand().least_band();
    with_leaves(profile, |band| if band == least { band } else { 0 })
}

/// Lists of special slots that are not the profile's: none or one, one fewer, one more, another slot and another band.
fn other_specials(profile: &Profile) -> Vec<Vec<Special>> {
    let slots = profile.setpoints.len();
    let own = &profile.specials;
    let other_band = |band: i32| {
        let bands = [band + 1, band + 2, band - 1, band - 2];
        bands.into_iter().find(|&other| other != profile.band && (0..=BAND_LIMIT).contains(&other)).expect("a band")
    };
    let is_special = |slot: usize| own.iter().any(|special| special.slot == slot);
    let mut lists = vec![Vec::new(), vec![Special { slot: slots / 2, band: other_band(profile.band) }]];
    if let Some((last, others)) = own.split_last() {
        lists.push(others.to_vec());
        let band = other_band(last.band);
        lists.push([others, &[Special { band, ..*last }]].concat());
        if last.slot + 1 < slots {
            lists.push([others, &[Special { slot: last.slot + 1, ..*last }]].concat());
        }
    }
    if let Some(slot) = (0..slots).find(|&slot| !is_special(slot)) {
        let mut list = [own.as_slice(), &[Special { slot, band: other_band(profile.band) }]].concat();
        list.sort_unstable_by_key(|special| special.slot);
        lists.push(list);
    }
    lists.retain(|list| list != own);
    lists
}

/// The rest value at the root: one term more, except where the root is the only leaf.
fn with_root(record: &Record) -> Record {
    let root = Term { node: 1, value: record.rest };
    let others = record.terms.iter().copied().filter(|term| term.node != root.node);
    Record { terms: [root].into_iter().chain(others).collect(), ..record.clone() }
}

/// Buffers of up to 23 bytes of any content that begin like a record of either version, beside that record and beside
/// themselves.
fn chance_bytes(comparison: &mut Comparison, random: &mut Random) {
    let firings: [(&[u8], &[u8]); 2] = [(FIRING, &FIRING_RECORD), (own_bands::FIRING, &own_bands::FIRING_RECORD)];
    let (text, record) = *random.pick(&firings);
    let mut any: Vec<u8> = (0..random.below(24)).map(|_| random.next() as u8).collect();
    let alike = random.below(any.len() + 1).min(record.len());
    any[..alike].copy_from_slice(&record[..alike]);
    comparison.better_offer(text, &any, record);
    comparison.better_offer(text, record, &any);
    comparison.better_offer(text, &any, &any);
}
