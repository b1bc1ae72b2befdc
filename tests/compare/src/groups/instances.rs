//! The documents' instances, each by name, with what the documents themselves say they give, and readings of them.

use crate::comparison::Comparison;
use crate::document::fields::{Fields, LONGEST};
use crate::document::record::Record;
use crate::document::synopsis::Term;
use crate::document::text::{Profile, read_text, write_text};

/// "One firing in full", and its record.
pub const FIRING: &[u8] = b"14,00\n0,25\n14,10\n13,90\n20,00\n19,50\n";
pub const FIRING_RECORD: [u8; 11] = [0x10, 0x18, 0x00, 0xC8, 0x2B, 0xC0, 0x02, 0x01, 0x83, 0xDB, 0x80];

/// Document 02's F-3: 0, 0, 0, 0, 0, 100 with rest 0 and band 0, and the record of its one term, 100 at node 13.
pub const PAST_THE_END: &[u8] = b"0,00\n0,00\n0,00\n0,00\n0,00\n0,00\n0,00\n1,00\n";
pub const PAST_THE_END_RECORD: [u8; 11] = [0x10, 0x28, 0x00, 0x00, 0x00, 0x00, 0x02, 0x06, 0x80, 0x32, 0x00];

pub fn run(comparison: &mut Comparison) {
    let mut instances = Instances(comparison);
    one_firing(&mut instances);
    numbers(&mut instances);
    thousandths(&mut instances);
    lengths_of_texts(&mut instances);
    small_profiles(&mut instances);
    wrong_turnings(&mut instances);
    lengths_of_records(&mut instances);
    slots_past_the_end(&mut instances);
    primary_air(&mut instances);
    readings(&mut instances);
}

pub struct Instances<'a>(pub &'a mut Comparison);

/// A refusal: its number, and 0 for all other results.
pub fn refused(number: u16) -> [u16; 4] {
    [number, 0, 0, 0]
}

impl Instances<'_> {
    pub fn builds(&mut self, name: &str, text: &[u8], gives: [u16; 4], terms: &[Term]) -> Option<Vec<u8>> {
        let (answer, record) = self.0.text_to_record(text, LONGEST);
        self.0.same("an instance of the documents", &name, gives, answer);
        let expected = read_text(text).map(|profile| Record::of(&profile, terms.to_vec()).bytes()).ok();
        self.0.same("the record of an instance", &name, &expected, &record);
        record
    }

    pub fn restores(&mut self, name: &str, record: &[u8], slot: u64, gives: [u16; 4]) {
        let answer = self.0.record_slot(record, slot);
        self.0.same("an instance of the documents", &name, gives, answer);
    }

    pub fn checks(&mut self, name: &str, record: &[u8], text: &[u8], gives: [u16; 4]) {
        let answer = self.0.record_against_text(record, text);
        self.0.same("an instance of the documents", &name, gives, answer);
    }

    pub fn least_band(&mut self, name: &str, text: &[u8], budget: u64, gives: [u16; 4]) {
        let answer = self.0.least_band_of_text(text, budget);
        self.0.same("an instance of the documents", &name, gives, answer);
    }

    fn flow(&mut self, name: &str, step: u64, gives: [u16; 4]) {
        let answer = self.0.flow_of_step(step);
        self.0.same("an instance of the documents", &name, gives, answer);
    }

    fn lowest_step(&mut self, name: &str, flow: u64, gives: [u16; 4]) {
        let answer = self.0.step_for_flow(flow);
        self.0.same("an instance of the documents", &name, gives, answer);
    }

    /// A field as a setpoint under band 0: the restored setpoint is the number read, or building refuses.
    fn reads(&mut self, field: &str, gives: Result<i16, u16>) {
        let name = format!("`{field}` as a setpoint");
        let text = format!("-199,99\n0\n{field}\n");
        match gives {
            Ok(value) => {
                let terms = [term(1, value.into())];
                let record = self.builds(&name, text.as_bytes(), [0, 11, 1, 0], &terms).unwrap_or_default();
                self.restores(&name, &record, 0, [0, value as u16, 0, 0]);
            }
            Err(number) => self.refuses(&name, text.as_bytes(), number),
        }
    }

    /// A text that every call on text turns away.
    pub fn refuses(&mut self, name: &str, text: &[u8], number: u16) {
        let answer = self.0.text_to_record(text, LONGEST).0;
        self.0.same("an instance of the documents", &name, refused(number), answer);
        self.least_band(name, text, 0, refused(number));
        self.checks(name, &FIRING_RECORD, text, refused(number));
    }
}

pub fn term(node: usize, value: i32) -> Term {
    Term { node, value }
}

fn profile_text(setpoints: &[i32], rest: i32, band: i32) -> Vec<u8> {
    write_text(&Profile::plain(rest, band, setpoints.to_vec()))
}

fn one_firing(instances: &mut Instances) {
    let record = instances.builds("one firing in full", FIRING, [0, 11, 1, 25], &[term(3, 1975)]);
    instances.0.same("the firing's record", &"one firing in full", Some(FIRING_RECORD.to_vec()), record);
    for (slot, setpoint) in [1400, 1400, 1975, 1975].into_iter().enumerate() {
        instances.restores("a slot of the firing", &FIRING_RECORD, slot as u64, [0, setpoint, 0, 0]);
    }
    instances.restores("slot 4 of the firing", &FIRING_RECORD, 4, refused(10));
    instances.checks("the firing's record against its text", &FIRING_RECORD, FIRING, [0, 1, 25, 0]);
    instances.restores("the record above without its last byte, one slot", &FIRING_RECORD[..10], 0, refused(7));
    instances.checks(
        "the record above without its last byte, against its text",
        &FIRING_RECORD[..10],
        FIRING,
        refused(7),
    );
}

fn numbers(instances: &mut Instances) {
    for (field, value) in [("14,50", 1450), ("14,5", 1450), ("14", 1400), ("-0,05", -5), ("200,00", 20_000)] {
        instances.reads(field, Ok(value));
    }
    for field in ["14,", "", "1.450", "+3", "1234"] {
        instances.reads(field, Err(1));
        instances.refuses("no number as the rest value", format!("{field}\n0\n14\n").as_bytes(), 1);
        instances.refuses("no number as the band", format!("14\n{field}\n14\n").as_bytes(), 1);
    }
    instances.reads("200,01", Err(2));
}

/// Document 02's F-2: its instances, and others that its rule gives.
fn thousandths(instances: &mut Instances) {
    let read = [
        ("14,505", 1451),
        ("14,504", 1450),
        ("-14,505", -1451),
        ("-0,005", -1),
        ("0,004", 0),
        ("-0,004", 0),
        ("0,995", 100),
        ("199,995", 20_000),
        ("200,004", 20_000),
        ("-200,004", -20_000),
    ];
    for (field, value) in read {
        instances.reads(field, Ok(value));
    }
    for (field, number) in [("14.505", 1), ("14,5050", 1), ("200,005", 2), ("-200,005", 2), ("999,995", 2)] {
        instances.reads(field, Err(number));
    }
    for (band, header) in [("400,004", 40_000), ("399,995", 40_000), ("0,005", 1), ("0,004", 0), ("-0,004", 0)] {
        let name = format!("`{band}` as a band");
        let record = instances.builds(&name, format!("0\n{band}\n0\n").as_bytes(), [0, 7, 0, 0], &[]);
        let expected = Record::plain(1, header, 0, Vec::new()).bytes();
        instances.0.same("the record of a band in thousandths", &name, Some(expected), record);
    }
    for (band, number) in [("400,005", 3), ("-0,005", 3), ("0.004", 1)] {
        instances.refuses("a band in thousandths", format!("0\n{band}\n0\n").as_bytes(), number);
    }
}

fn lengths_of_texts(instances: &mut Instances) {
    instances.refuses("a text of no bytes", b"", 4);
    instances.refuses("a text of two good lines", b"14,00\n0,25\n", 4);
    instances.builds("512 slots", &profile_text(&[5; 512], 0, 5), [0, 7, 0, 5], &[]);
    instances.refuses("513 slots", &profile_text(&[5; 513], 0, 5), 4);
}

fn small_profiles(instances: &mut Instances) {
    instances.builds("one slot 5, rest 0, band 5", &profile_text(&[5], 0, 5), [0, 7, 0, 5], &[]);
    instances.builds("one slot 5, rest 0, band 4", &profile_text(&[5], 0, 4), [0, 11, 1, 0], &[term(1, 5)]);
    let four = |band| profile_text(&[0, 100, 0, 100], 0, band);
    instances.builds("0, 100, 0, 100, rest 0, band 50", &four(50), [0, 11, 1, 50], &[term(1, 50)]);
    let two = [term(5, 100), term(7, 100)];
    instances.builds("0, 100, 0, 100, rest 0, band 49", &four(49), [0, 14, 2, 0], &two);
    for (budget, band) in [(0, 100), (1, 50), (2, 0)] {
        instances.least_band("0, 100, 0, 100, rest 0, a budget", &four(0), budget, [0, band, 0, 0]);
    }
}

fn wrong_turnings(instances: &mut Instances) {
    let four = |rest| profile_text(&[0, 100, 0, 100], rest, 0);
    let two = [term(4, 0), term(6, 0)];
    instances.builds("both 0 and 100 fit below the root, rest 100", &four(100), [0, 14, 2, 0], &two);
    let three = [term(1, 0), term(5, 100), term(7, 100)];
    instances.builds("nothing between 0 and 100 fits, rest 50", &four(50), [0, 17, 3, 0], &three);
    instances.builds("0 and 1 under one term", &profile_text(&[0, 1], 500, 1), [0, 11, 1, 1], &[term(1, 0)]);
    instances.builds("no root term where the rest value serves", &profile_text(&[7; 8], 7, 0), [0, 7, 0, 0], &[]);
    let record = Record::plain(2, 0, 50, vec![term(1, 100), term(2, 0)]).bytes();
    instances.restores("a term of value 0 under another, its slot", &record, 0, [0, 0, 0, 0]);
    instances.restores("a term of value 0 under another, the other slot", &record, 1, [0, 100, 0, 0]);
}

/// 7 bytes for no term, 11 for one, 3,332 for 1,023.
fn lengths_of_records(instances: &mut Instances) {
    for (last_node, length) in [(0, 7), (1, 11), (1_023, 3_332)] {
        let terms = (1..=last_node).map(|node| term(node, 5)).collect();
        let mut bytes = Record::plain(512, 0, 5, terms).bytes();
        instances.0.same("the length of a record", &last_node, length, bytes.len());
        instances.restores("a record of this length", &bytes, 511, [0, 5, 0, 0]);
        instances.restores("a record one byte short", &bytes[..length - 1], 511, refused(7));
        bytes.push(0);
        instances.restores("a record one byte long", &bytes, 511, refused(7));
    }
}

/// "The profile 0, 0, 0, 0, 0, 100 with rest 0 and band 0 drops from two terms to one." Its slots 6 and 7 are filler, below node 7.
fn slots_past_the_end(instances: &mut Instances) {
    let name = "0, 0, 0, 0, 0, 100, rest 0, band 0";
    let record = instances.builds(name, PAST_THE_END, [0, 11, 1, 0], &[term(13, 100)]);
    instances.0.same("the record of F-3's profile", &name, Some(PAST_THE_END_RECORD.to_vec()), record);
    for (budget, band) in [(0, 100), (1, 0)] {
        instances.least_band("F-3's profile, a budget", PAST_THE_END, budget, [0, band, 0, 0]);
    }
    let [as_before, far, slot_5_too] =
        [(100, 100), (-20_000, 100), (-20_000, 99)].map(|values| with_filler_term(0, values));
    let kept = [0, 1, 0, 0];
    instances.checks("F-3's profile, the one term", &PAST_THE_END_RECORD, PAST_THE_END, kept);
    instances.checks("F-3's profile, the two terms it had before", &as_before, PAST_THE_END, kept);
    instances.checks("F-3's profile, filler outside the band", &far, PAST_THE_END, kept);
    instances.checks("F-3's profile, slot 5 outside it too", &slot_5_too, PAST_THE_END, [0, 0, 0, 5]);
    instances.restores("the last slot before filler", &far, 5, [0, 100, 0, 0]);
    instances.restores("the first filler slot", &far, 6, refused(10));
    let record = Record::plain(3, 0, 0, vec![term(7, 100)]).bytes();
    instances.checks("a filler slot outside the band, the last one's neighbour", &record, b"0\n0\n0\n0\n0\n", kept);
}

/// A record of two terms for F-3's profile: one over filler alone, at node 7, and slot 5's own.
pub fn with_filler_term(band: i32, (filler, slot_5): (i32, i32)) -> Vec<u8> {
    Record::plain(6, band, 0, vec![term(7, filler), term(13, slot_5)]).bytes()
}

/// Document 02's F-7: "1 gives 50, 2 gives 70, 400 gives 1,000", and others that its rule gives.
fn primary_air(instances: &mut Instances) {
    for (step, flow) in [(1, 50), (2, 70), (400, 1_000), (0, 0), (3, 86), (4, 100), (399, 998)] {
        instances.flow(&format!("the flow of step {step}"), step, [0, flow, 0, 0]);
    }
    instances.flow("a step above 400", 401, refused(13));
    for (flow, step) in [(0, 0), (1, 1), (50, 1), (51, 2), (70, 2), (71, 3), (998, 399), (999, 400), (1_000, 400)] {
        instances.lowest_step(&format!("the lowest step for flow {flow}"), flow, [0, step, 0, 0]);
    }
    instances.lowest_step("a flow above 1,000", 1_001, refused(13));
}

/// Places that are open or easily misread, as docs/DECISIONS.md reads them.
fn readings(instances: &mut Instances) {
    let longest = profile_text(&[5; 512], 0, 5);
    for tail in ["5\n", "5", "x\n", "x", "\n", "999\n"] {
        let text = [longest.as_slice(), tail.as_bytes()].concat();
        instances.refuses("a byte after the 514th line", &text, 4);
    }
    instances.refuses("a last line that is not ended", b"0\n0\n0\n14", 1);
    instances.refuses("a third line that is not ended", b"0\n0\n14", 1);
    instances.refuses("a last line out of range that is not ended", b"0\n0\n999", 1);
    instances.refuses("a rest value out of range, and nothing more", b"999,01\n", 2);
    instances.refuses("a band out of range, and nothing more", b"0\n400,01\n", 3);
    instances.builds("`-0` as a band", b"0\n-0\n0\n", [0, 7, 0, 0], &[]);
    instances.builds("`-0,00` as a band", b"0\n-0,00\n0\n", [0, 7, 0, 0], &[]);
    let record =
        Fields { count: 2, terms: vec![(1, 0), (1, 0)], ..Record::plain(1, 0, 0, Vec::new()).fields() }.bytes();
    instances.restores("a count above 2m-1 that fits the bytes", &record, 0, refused(8));
    instances.restores("a count above 2m-1 that does not", &record[..record.len() - 1], 0, refused(7));
}
