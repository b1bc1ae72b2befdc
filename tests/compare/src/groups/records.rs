//! Records, whole and damaged field by field and bit by bit: one slot, and against texts of their own and of others.

use crate::comparison::Comparison;
use crate::document::SLOT_LIMIT;
use crate::document::fields::Fields;
use crate::document::record::Record;
use crate::document::synopsis::{padded_length, restored};
use crate::document::text::Profile;
use crate::inputs::changes::{add_special, add_term, changes, put_specials, put_terms};
use crate::inputs::profiles::{any_profile, away, band, record, specials, value};
use crate::inputs::random::Random;
use crate::inputs::typed::any_text;

/// Slots beyond every record, also those that end in a small number when cut short.
const FAR_SLOTS: [u64; 8] = [512, 1_023, 65_535, 65_536, 1 << 32, (1 << 32) + 1, 1 << 63, u64::MAX];

pub fn run(comparison: &mut Comparison) {
    let mut random = Random::new(6);
    for slots in (1..=40).chain([63, 64, 65, 255, 256, 257, 511, 512]) {
        for most in [0, 1, 2, 3, 7, slots, 2 * slots] {
            let record = record(&mut random, slots, most);
            every_slot(comparison, &record);
            checked(comparison, &mut random, &record);
            fields_changed(comparison, &mut random, &record);
        }
    }
    every_node_has_a_term(comparison, &mut random);
    for round in 0..200 {
        let slots = 1 + random.below(if round % 4 == 0 { SLOT_LIMIT } else { 16 });
        let record = record(&mut random, slots, round % 10);
        bytes_changed(comparison, &mut random, &record);
    }
    for _ in 0..20_000 {
        chance_fields(comparison, &mut random);
        chance_bytes(comparison, &mut random);
    }
}

pub fn every_slot(comparison: &mut Comparison, record: &Record) {
    let bytes = record.bytes();
    for slot in (0..=record.slots as u64 + 1).chain(FAR_SLOTS) {
        comparison.record_slot(&bytes, slot);
    }
}

/// Bytes through the two calls that read a record; the text is of the length named, or of another.
fn read(comparison: &mut Comparison, random: &mut Random, bytes: &[u8], slots: usize) {
    let near = random.below(slots + 2) as u64;
    let far = *random.pick(&FAR_SLOTS);
    comparison.record_slot(bytes, near);
    comparison.record_slot(bytes, far);
    let profile = any_profile(random, slots);
    comparison.record_against_text(bytes, &any_text(random, &profile));
}

/// A record against the profile it restores, against that with one slot moved to its band and past it, against others.
fn checked(comparison: &mut Comparison, random: &mut Random, record: &Record) {
    let bytes = record.bytes();
    let restored = restored_profile(random, record);
    comparison.record_against_text(&bytes, &any_text(random, &restored));
    let bands = record.bands();
    let special = record.specials.first().map_or(0, |special| special.slot);
    for slot in [0, special, random.below(record.slots), record.slots - 1] {
        for distance in [record.band, bands[slot] - 1, bands[slot], bands[slot] + 1] {
            let mut moved = restored.clone();
            moved.setpoints[slot] = away(moved.setpoints[slot], distance);
            comparison.record_against_text(&bytes, &any_text(random, &moved));
        }
    }
    for slots in [record.slots, record.slots + 1, record.slots - 1, 1, padded_length(record.slots)] {
        let profile = any_profile(random, slots.clamp(1, SLOT_LIMIT));
        let text = any_text(random, &profile);
        comparison.record_against_text(&bytes, &text);
        comparison.record_against_text(&bytes, &text[..text.len() - 1]);
        comparison.record_against_text(&bytes[..bytes.len() - 1], &text);
    }
}

/// What a record restores below n, as a profile; its rest value and bands are not the record's and do not count.
pub fn restored_profile(random: &mut Random, record: &Record) -> Profile {
    let first_leaf = padded_length(record.slots);
    let setpoint = |slot: usize| restored(&record.terms, record.rest, first_leaf + slot);
    let band = band(random);
    let plain = Profile::plain(value(random), band, (0..record.slots).map(setpoint).collect());
    Profile { specials: specials(random, record.slots, band), ..plain }
}

/// One field at a time, and two at a time for the order of refusals.
fn fields_changed(comparison: &mut Comparison, random: &mut Random, record: &Record) {
    let list = changes(random, record.slots);
    for change in &list {
        let mut fields = record.fields();
        change.apply(&mut fields);
        read(comparison, random, &fields.bytes(), record.slots);
        random.pick(&list).apply(&mut fields);
        read(comparison, random, &fields.bytes(), record.slots);
    }
}

/// The longest records of either version, one byte more and one less; the last with a special slot too many, and with as
/// many as there can be.
fn every_node_has_a_term(comparison: &mut Comparison, random: &mut Random) {
    for slots in [257, 400, SLOT_LIMIT] {
        let mut plain = Record { specials: Vec::new(), ..record(random, slots, 0) }.fields();
        put_terms(&mut plain, 1_023);
        let [mut all, mut one_more, mut most] = [plain.clone(), plain.clone(), plain.clone()];
        put_specials(&mut all, slots as i32 - 1);
        put_specials(&mut one_more, slots as i32);
        put_specials(&mut most, 1_022);
        for fields in [plain, all, one_more, most] {
            let mut bytes = fields.bytes();
            for slot in 0..=slots as u64 {
                comparison.record_slot(&bytes, slot);
            }
            read(comparison, random, &bytes, slots);
            read(comparison, random, &bytes[..bytes.len() - 1], slots);
            bytes.push(0);
            read(comparison, random, &bytes, slots);
        }
    }
}

/// Cut at every byte, lengthened, and with every bit turned over; of a long record with a thousand of them.
fn bytes_changed(comparison: &mut Comparison, random: &mut Random, record: &Record) {
    let bytes = record.bytes();
    for end in 0..bytes.len() {
        read(comparison, random, &bytes[..end], record.slots);
    }
    for tail in [[0].as_slice(), &[1], &[255, 255], &[0; 3], &[0; 4], &[0; 65_536]] {
        read(comparison, random, &[bytes.as_slice(), tail].concat(), record.slots);
    }
    let bits = 8 * bytes.len();
    let places: Vec<usize> =
        if bits <= 1_000 { (0..bits).collect() } else { (0..1_000).map(|_| random.below(bits)).collect() };
    for place in places {
        let mut turned = bytes.clone();
        turned[place / 8] ^= 128 >> (place % 8);
        read(comparison, random, &turned, record.slots);
    }
}

/// Fields of any content, with the bytes that their counts ask for.
fn chance_fields(comparison: &mut Comparison, random: &mut Random) {
    let slots = 1 + random.below(16);
    let mut any = |width: u32| (random.next() >> 20) as i32 & ((1 << width) - 1);
    let mut fields = Fields {
        version: 1,
        length: slots as i32 - 1,
        band: any(16),
        rest: any(16),
        count: 0,
        terms: Vec::new(),
        specials: None,
        fill: 0,
    };
    for _ in 0..any(2) {
        let term = (any(6), any(16));
        add_term(&mut fields, term);
    }
    if any(1) == 0 {
        fields.terms.sort_unstable();
    }
    for _ in 0..any(2) {
        let special = (any(4), any(16));
        add_special(&mut fields, special);
    }
    if let Some(specials) = fields.specials.as_mut().filter(|_| any(1) == 0) {
        specials.slots.sort_unstable();
    }
    read(comparison, random, &fields.bytes(), slots);
}

/// Bytes of any content; a third of them start as version 1, a third as version 2.
fn chance_bytes(comparison: &mut Comparison, random: &mut Random) {
    let mut bytes: Vec<u8> = (0..random.below(24)).map(|_| random.next() as u8).collect();
    let version = random.below(3) as u8;
    if let Some(first) = bytes.first_mut().filter(|_| version > 0) {
        *first = *first % 16 + 16 * version;
    }
    let slots = 1 + random.below(16);
    read(comparison, random, &bytes, slots);
}
