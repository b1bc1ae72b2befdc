//! Document 02's F-6, "Records get version 2": lengths, the order of refusals and the check's bands by name, with what the
//! documents give. The groups of records and of offers have both versions by chance.

use super::instances::{Instances, refused, term};
use crate::comparison::Comparison;
use crate::document::bands::Special;
use crate::document::fields::{Fields, SpecialFields};
use crate::document::record::Record;
use crate::inputs::changes::{put_specials, put_terms};

pub fn run(comparison: &mut Comparison) {
    let mut instances = Instances(comparison);
    lengths_of_records(&mut instances);
    order_in_records(&mut instances);
    cut_before_the_second_count(&mut instances);
    bands_of_the_check(&mut instances);
}

/// 12 bytes for no term and one special slot, 4,933 for 1,023 and 512; what the slot 511 restores, by 7 times the number of the
/// lowest node with a term above it. More special slots than slots fit the byte count, and no more.
fn lengths_of_records(instances: &mut Instances) {
    let lengths = [
        (0, 1, 12, [0, 5, 0, 0]),
        (1, 1, 15, [0, 7, 0, 0]),
        (0, 512, 1_609, [0, 5, 0, 0]),
        (512, 512, 3_273, [0, 7 * 511, 0, 0]),
        (1_023, 512, 4_933, [0, 7 * 1_023, 0, 0]),
        (1_023, 513, 4_936, refused(11)),
        (1_023, 1_023, 6_530, refused(11)),
    ];
    for (terms, specials, length, gives) in lengths {
        let name = format!("{terms} terms and {specials} special slots");
        let mut fields = Record::plain(512, 40_000, 5, Vec::new()).fields();
        put_terms(&mut fields, terms);
        put_specials(&mut fields, specials - 1);
        let mut bytes = fields.bytes();
        instances.0.same("the length of a record", &name, length, bytes.len());
        instances.restores(&name, &bytes, 511, gives);
        instances.restores("a record one byte short", &bytes[..length - 1], 511, refused(7));
        bytes.push(0);
        instances.restores("a record one byte long", &bytes, 511, refused(7));
    }
}

/// Refusals of a record with special slots, and the order of several: 7, 2, 3, 8, 11, then 10 and 9.
fn order_in_records(instances: &mut Instances) {
    let good = Record { specials: vec![Special { slot: 1, band: 1 }], ..Record::plain(2, 10, 0, vec![term(2, 5)]) };
    let with = |specials: &[(i32, i32)]| {
        let specials = Some(SpecialFields { count: specials.len() as i32, slots: specials.to_vec() });
        Fields { version: 2, specials, ..good.fields() }
    };
    let common_band = Fields { terms: vec![(2, 20_001)], ..with(&[(1, 10)]) };
    let cases: [(&str, Fields, u16); 24] = [
        ("a good one", good.fields(), 0),
        ("version 0", Fields { version: 0, ..good.fields() }, 7),
        ("version 1 with special slots", Fields { version: 1, ..good.fields() }, 7),
        ("version 3", Fields { version: 3, ..good.fields() }, 7),
        ("version 15", Fields { version: 15, ..good.fields() }, 7),
        ("fill", Fields { fill: 1, ..good.fields() }, 7),
        ("version 2 without a second count", Fields { specials: None, ..good.fields() }, 7),
        ("a second count too great", with_count(&good, 2), 7),
        ("a second count too small", with_count(&good, 0), 7),
        ("no special slot", with(&[]), 11),
        ("no special slot, and the rest value beyond", Fields { rest: 20_001, ..with(&[]) }, 2),
        ("no special slot, and the band beyond", Fields { band: 40_001, ..with(&[]) }, 3),
        ("no special slot, and a node beyond", Fields { terms: vec![(4, 0)], ..with(&[]) }, 8),
        ("no special slot, and a fill", Fields { fill: 1, ..with(&[]) }, 7),
        ("slot n", with(&[(2, 1)]), 11),
        ("slot 511", with(&[(511, 1)]), 11),
        ("slots that descend", with(&[(1, 1), (0, 1)]), 11),
        ("one slot twice", with(&[(1, 1), (1, 2)]), 11),
        ("more special slots than slots", with(&[(0, 1), (1, 1), (1, 1)]), 11),
        ("its band 40,000", with(&[(0, 0), (1, 40_000)]), 0),
        ("its band 40,001", with(&[(0, 0), (1, 40_001)]), 11),
        ("its band 65,535", with(&[(1, 65_535)]), 11),
        ("its band the common one", with(&[(1, 10)]), 11),
        ("its band the common one, and a term value beyond", common_band, 8),
    ];
    for (name, fields, number) in cases {
        let bytes = fields.bytes();
        let refused_or = |gives: [u16; 4]| if number == 0 { gives } else { refused(number) };
        instances.restores(name, &bytes, 0, refused_or([0, 5, 0, 0]));
        instances.restores("the same, and a slot beyond", &bytes, 2, refused_or(refused(10)));
        let three_slots = b"0\n0,10\n0\n0\n0 0,01\n";
        instances.checks("the same against a text of three slots", &bytes, three_slots, refused_or(refused(9)));
    }
}

fn with_count(record: &Record, count: i32) -> Fields {
    let mut fields = record.fields();
    fields.specials.iter_mut().for_each(|specials| specials.count = count);
    fields
}

/// Version 2 has its second count at bits 55 to 64 where it has no term: 9 bytes, and with no special slot they are all.
fn cut_before_the_second_count(instances: &mut Instances) {
    let mut bytes = vec![0x20, 0x08, 0x00, 0x50, 0x00, 0x00, 0x00];
    for number in [7, 7, 11, 7] {
        instances.restores("version 2, no term, of 7 to 10 bytes", &bytes, 0, refused(number));
        bytes.push(0);
    }
}

/// "The check takes bands from the record": 10 in slot 0 and 1 in slot 1, whatever the text's are.
fn bands_of_the_check(instances: &mut Instances) {
    let record = Record { specials: vec![Special { slot: 1, band: 1 }], ..Record::plain(2, 10, 0, Vec::new()) }.bytes();
    let cases: [(&str, &[u8], [u16; 4]); 8] = [
        ("both within, and in no band of the text's", b"5\n0\n0,10 0,01\n-0,01\n", [0, 1, 10, 0]),
        ("slot 1 at its band", b"5\n0\n0\n0,01\n", [0, 1, 1, 0]),
        ("slot 1 past it, and within the common band", b"5\n0\n0\n0,02\n", [0, 0, 0, 1]),
        ("slot 1 past it, and within the text's", b"0\n1\n0 2\n-0,02 3\n", [0, 0, 0, 1]),
        ("slot 0 past its band", b"5\n4\n0,11\n0\n", [0, 0, 0, 0]),
        ("both past", b"5\n4\n0,11\n0,02\n", [0, 0, 0, 0]),
        ("an own band of the text's that is refused", b"5\n4\n0 500\n0\n", refused(3)),
        ("another length", b"5\n4\n0 1\n", refused(9)),
    ];
    for (name, text, gives) in cases {
        instances.checks(name, &record, text, gives);
    }
}
