//! The program `fire` on texts of every kind: refused by each number, and printed in full where they are not.

use super::first::{FROM_BELOW_ZERO, FROM_BELOW_ZERO_PRINTED};
use super::instances::{FIRING, PAST_THE_END};
use super::own_bands;
use crate::comparison::Comparison;
use crate::document::fields::LONGEST;
use crate::document::text::{Profile, write_text};
use crate::document::{LONGEST_TEXT, SLOT_LIMIT};
use crate::inputs::profiles::{LIMIT_VALUES, SHAPES, any_profile, profile};
use crate::inputs::random::Random;
use crate::inputs::typed::{NO_NUMBERS, OUT_OF_RANGE, OWN_BANDS_RIGHT, OWN_BANDS_WRONG, any_text, lines, text};

/// What document 01 has `fire` print for its own text, to the letter.
const FIRING_PRINTED: &str = "4 1 0,25 0,25\nterm 3 19,75\nslot 0 14,00\nslot 1 14,00\nslot 2 19,75\nslot 3 19,75\n";

/// What `fire` prints for F-3's profile.
const PAST_THE_END_PRINTED: &str =
    "6 1 0,00 0,00\nterm 13 1,00\nslot 0 0,00\nslot 1 0,00\nslot 2 0,00\nslot 3 0,00\nslot 4 0,00\nslot 5 1,00\n";

/// The longest text that is accepted: two lines of eight characters and the byte 10, and 512 of two such numbers. The only
/// bands of eight characters are 0, so it has no special slot; with another common band every slot is special.
fn longest(band: &[u8]) -> Vec<u8> {
    [b"-200,004\n".as_slice(), band, b"\n", &b"-200,004 -000,004\n".repeat(SLOT_LIMIT)].concat()
}

pub fn run(comparison: &mut Comparison) {
    let mut random = Random::new(6);
    for (name, text, expected) in [
        ("one firing in full", FIRING, FIRING_PRINTED),
        ("slots past the end", PAST_THE_END, PAST_THE_END_PRINTED),
        ("the first, where several are smallest", FROM_BELOW_ZERO, FROM_BELOW_ZERO_PRINTED),
        ("the firing with an own band", own_bands::FIRING, own_bands::FIRING_PRINTED),
        ("the first, with the greater error", own_bands::GREATER_ERROR, own_bands::GREATER_ERROR_PRINTED),
    ] {
        let printed = comparison.fire(text);
        comparison.same("what fire prints, to the letter", &name, expected.to_string(), printed);
    }
    one_slot(comparison);
    faults(comparison, &mut random);
    long_texts(comparison);
    for slots in 1..=SLOT_LIMIT {
        let shape = SHAPES[slots % SHAPES.len()];
        let profile = profile(&mut random, shape, slots);
        comparison.fire(&any_text(&mut random, &profile));
    }
    for shape in SHAPES {
        comparison.fire(&write_text(&profile(&mut random, shape, SLOT_LIMIT)));
    }
    for _ in 0..200 {
        let slots = 1 + random.below(12);
        comparison.fire(&write_text(&any_profile(&mut random, slots)));
    }
}

/// One slot, with values on both sides of 0 and at the limits.
fn one_slot(comparison: &mut Comparison) {
    for rest in LIMIT_VALUES {
        for setpoint in LIMIT_VALUES {
            for band in [0, 1, 40_000] {
                comparison.fire(&write_text(&Profile::plain(rest, band, vec![setpoint])));
                comparison.fire(&write_text(&Profile::plain(rest, 1, vec![setpoint]).with_bands(&[band])));
            }
        }
    }
}

/// Every fault in each of the first three lines, before more lines and as the last; lines ended as elsewhere, by 13 and 10.
fn faults(comparison: &mut Comparison, random: &mut Random) {
    let profile = any_profile(random, 5);
    let good = lines(random, &profile);
    for place in 0..3 {
        for field in NO_NUMBERS.iter().chain(&OUT_OF_RANGE).chain(&OWN_BANDS_WRONG).chain(&OWN_BANDS_RIGHT) {
            let mut damaged = good.clone();
            damaged[place] = field.to_vec();
            comparison.fire(&text(&damaged));
            comparison.fire(&text(&damaged[..=place]));
        }
        comparison.fire(&text(&good[..place]));
    }
    comparison.fire(&good.join(b"\r\n".as_slice()));
    let whole = text(&good);
    for end in 0..whole.len() {
        comparison.fire(&whole[..end]);
    }
}

/// 514 lines, and bytes after them: one, a line, and so many that the program does not read them all.
fn long_texts(comparison: &mut Comparison) {
    let [plain, special] = [b"-000,004".as_slice(), b"400,004"].map(longest);
    comparison.same("the bytes of the longest text", &"514 lines", LONGEST_TEXT, plain.len());
    for longest in [plain, special] {
        comparison.text_to_record(&longest, LONGEST);
        comparison.fire(&longest);
        comparison.fire(&longest[..longest.len() - 1]);
        for byte in 0..=255 {
            comparison.fire(&[longest.as_slice(), &[byte]].concat());
        }
        comparison.fire(&[longest.as_slice(), b"0\n"].concat());
        comparison.fire(&[longest.as_slice(), b"0 0\n"].concat());
    }
    let lines: [&[u8]; 10] =
        [b"0\n", b"-200,00\n", b"-200,004\n", b"-200,004 -000,004\n", b"0 0\n", b"14,50\r\n", b"0", b" ", b"\n", b"\0"];
    for line in lines {
        let mut many = line.repeat(100_000 / line.len() + 1);
        many.truncate(100_000);
        comparison.fire(&many);
    }
}
