//! Numbers as typed, seen through text to record: a rest value and a band in the record's header, a setpoint under band 0
//! as the restored one, and an own band in the record's special slot.

use crate::comparison::Comparison;
use crate::document::fields::{LONGEST, byte_count};
use crate::document::number::{read_number, write_number};
use crate::document::text::{Profile, write_text};
use crate::document::{BAND_LIMIT, SLOT_LIMIT, VALUE_LIMIT};
use crate::inputs::random::Random;
use crate::inputs::typed::{NO_NUMBERS, NUMBER_LIMIT, OUT_OF_RANGE, any_text, number};

pub fn run(comparison: &mut Comparison) {
    let mut random = Random::new(4);
    for field in NO_NUMBERS.iter().chain(&OUT_OF_RANGE) {
        in_all_places(comparison, field);
    }
    for length in 0..=5 {
        every_field(comparison, b"-,.0159 ", length);
    }
    for units in [0, 7, 99, 199, 200, 399, 400, 999] {
        every_thousandth(comparison, units);
    }
    for typed in [b"14,50".as_slice(), b"-199.99", b"-14,505", b"14,50 0,25", b"-200,004 400,004"] {
        one_byte_changed(comparison, typed);
    }
    for length in (3..300).chain(65_536..65_540) {
        many_digits(comparison, length);
    }
    every_value(comparison, &mut random);
}

/// A field as rest value, as band, as setpoint and as own band.
fn in_all_places(comparison: &mut Comparison, field: &[u8]) {
    for place in 0..3 {
        let mut lines: [&[u8]; 3] = [b"1", b"0", b"2"];
        lines[place] = field;
        comparison.text_to_record(&lines.map(|line| [line, b"\n"].concat()).concat(), byte_count(1, 1));
    }
    comparison.text_to_record(&[b"1\n0\n2 ", field, b"\n"].concat(), byte_count(1, 1));
}

/// Every field of so many of the bytes.
fn every_field(comparison: &mut Comparison, bytes: &[u8], length: u32) {
    for number in 0..bytes.len().pow(length) {
        let byte = |place: u32| bytes[number / bytes.len().pow(place) % bytes.len()];
        in_all_places(comparison, &(0..length).map(byte).collect::<Vec<u8>>());
    }
}

/// Every three digits after a comma, and after a point, with a minus and without.
fn every_thousandth(comparison: &mut Comparison, units: u32) {
    for thousandths in 0..1000 {
        for (sign, mark) in [("", ','), ("-", ','), ("", '.'), ("-", '.')] {
            in_all_places(comparison, format!("{sign}{units}{mark}{thousandths:03}").as_bytes());
        }
    }
}

/// Every byte value in every place, in place of a byte and between two.
fn one_byte_changed(comparison: &mut Comparison, typed: &[u8]) {
    for byte in 0..=255 {
        for place in 0..=typed.len() {
            let (before, after) = typed.split_at(place);
            in_all_places(comparison, &[before, &[byte], after].concat());
            in_all_places(comparison, &[before, &[byte], after.get(1..).unwrap_or_default()].concat());
        }
    }
}

/// So many digits before the mark, and after either.
fn many_digits(comparison: &mut Comparison, length: usize) {
    let digits = vec![b'0'; length];
    in_all_places(comparison, &digits);
    in_all_places(comparison, &[b"1,", digits.as_slice()].concat());
    in_all_places(comparison, &[b"1.", digits.as_slice()].concat());
}

/// Every value in range and some beyond, as written out and in another form; every band as an own one.
fn every_value(comparison: &mut Comparison, random: &mut Random) {
    for value in -VALUE_LIMIT - 50..=BAND_LIMIT + 50 {
        in_all_places(comparison, write_number(value).as_bytes());
    }
    for _ in 0..5_000 {
        let value = random.between(-NUMBER_LIMIT, NUMBER_LIMIT);
        let typed = number(random, value);
        comparison.same("a form reads as its value", &typed.escape_ascii(), Some(value), read_number(&typed));
        in_all_places(comparison, &typed);
    }
    let values: Vec<i32> = (-VALUE_LIMIT..=VALUE_LIMIT).collect();
    for setpoints in values.chunks(SLOT_LIMIT) {
        let profile = Profile::plain(random.between(-VALUE_LIMIT, VALUE_LIMIT), 0, setpoints.to_vec());
        comparison.text_to_record(&write_text(&profile), LONGEST);
        comparison.text_to_record(&any_text(random, &profile), LONGEST);
    }
    let bands: Vec<i32> = (0..=BAND_LIMIT).collect();
    for own in bands.chunks(SLOT_LIMIT) {
        let profile = Profile::plain(0, own[0], vec![0; own.len()]).with_bands(own);
        comparison.text_to_record(&write_text(&profile), LONGEST);
        comparison.text_to_record(&any_text(random, &profile), LONGEST);
    }
}
