//! Document 01, "The record", with document 02's F-6: the table of fields, packed most significant bit first, and row 7.

use super::SLOT_LIMIT;
use super::refusal::Refusal;

/// Bits before the first term, of a term, of version 2's count of special slots, and of a special slot.
const HEADER_BITS: usize = 55;
const TERM_BITS: usize = 26;
const SECOND_COUNT_BITS: usize = 10;
const SPECIAL_BITS: usize = 25;

/// The bytes of the longest record that is read: 1,023 terms and 512 special slots.
pub const LONGEST: usize = byte_count(1_023, SLOT_LIMIT);

/// The table's fields as they stand, whether they make a record or not. Each is cut to its width when packed.
#[derive(Clone)]
pub struct Fields {
    pub version: i32,
    pub length: i32,
    pub band: i32,
    pub rest: i32,
    pub count: i32,
    pub terms: Vec<(i32, i32)>,
    /// What version 2 has after the terms.
    pub specials: Option<SpecialFields>,
    pub fill: i32,
}

/// The second count, and the special slots: 9 bits of slot and 16 of band.
#[derive(Clone)]
pub struct SpecialFields {
    pub count: i32,
    pub slots: Vec<(i32, i32)>,
}

/// The bytes of the record of so many terms and special slots; "a profile without special slots is still written as
/// version 1".
pub const fn byte_count(terms: usize, specials: usize) -> usize {
    Counts { terms, specials: if specials == 0 { None } else { Some(specials) } }.bytes()
}

/// A record's counts: of its terms, and in version 2 of its special slots.
struct Counts {
    terms: usize,
    specials: Option<usize>,
}

impl Counts {
    /// Bits up to the end of the last term, and of the last special slot.
    const fn bits(&self) -> usize {
        let terms = HEADER_BITS + TERM_BITS * self.terms;
        match self.specials {
            None => terms,
            Some(specials) => terms + SECOND_COUNT_BITS + SPECIAL_BITS * specials,
        }
    }

    const fn bytes(&self) -> usize {
        self.bits().div_ceil(8)
    }
}

impl Fields {
    pub fn slots(&self) -> usize {
        self.length as usize + 1
    }

    pub fn bytes(&self) -> Vec<u8> {
        let header = [(self.version, 4), (self.length, 9), (self.band, 16), (self.rest, 16), (self.count, 10)];
        let terms = self.terms.iter().flat_map(|&(node, value)| [(node, 10), (value, 16)]);
        let second_count = self.specials.iter().map(|specials| (specials.count, 10));
        let slots = self.specials.iter().flat_map(|specials| &specials.slots);
        let specials = second_count.chain(slots.flat_map(|&(slot, band)| [(slot, 9), (band, 16)]));
        let mut bits: Vec<bool> = header.into_iter().chain(terms).chain(specials).flat_map(bits_of).collect();
        let fill_width = bits.len().next_multiple_of(8) - bits.len();
        bits.extend(bits_of((self.fill, fill_width)));
        bits.chunks(8).map(|byte| byte.iter().fold(0, |number, &bit| 2 * number + u8::from(bit))).collect()
    }
}

/// The lowest bits of a number, two's complement, most significant first.
fn bits_of((number, width): (i32, usize)) -> impl Iterator<Item = bool> {
    (0..width).rev().map(move |place| number >> place & 1 == 1)
}

/// The unsigned number in a field that starts at a bit.
fn field(record: &[u8], start: usize, width: usize) -> i32 {
    let bit = |place: usize| i32::from(record[place / 8] >> (7 - place % 8) & 1);
    (start..start + width).fold(0, |number, place| 2 * number + bit(place))
}

/// The two's complement number in a field of 16 bits.
fn signed_field(record: &[u8], start: usize) -> i32 {
    i32::from(field(record, start, 16) as u16 as i16)
}

/// The counts in bytes that begin as a record of version 1 or 2 does and do not end before them.
fn counts(bytes: &[u8]) -> Result<Counts, Refusal> {
    if 8 * bytes.len() < HEADER_BITS {
        return Err(Refusal::RecordShort);
    }
    let version_1 = Counts { terms: field(bytes, 45, 10) as usize, specials: None };
    match field(bytes, 0, 4) {
        0 => Err(Refusal::VersionBelow),
        1 => Ok(version_1),
        2 if 8 * bytes.len() < version_1.bits() + SECOND_COUNT_BITS => Err(Refusal::SecondCountMissing),
        2 => {
            let specials = field(bytes, version_1.bits(), SECOND_COUNT_BITS) as usize;
            Ok(Counts { specials: Some(specials), ..version_1 })
        }
        _ => Err(Refusal::VersionAbove),
    }
}

/// The bytes of the record at the front of a buffer, as its version and counts say.
pub fn front_bytes(buffer: &[u8]) -> Result<usize, Refusal> {
    counts(buffer).map(|counts| counts.bytes())
}

/// All of row 7; the fields where nothing of it is met.
pub fn read_fields(record: &[u8]) -> Result<Fields, Refusal> {
    let counts = counts(record)?;
    let version_2 = counts.specials.is_some();
    if record.len() != counts.bytes() {
        return Err(if version_2 { Refusal::WrongByteCountOfTwo } else { Refusal::WrongByteCount });
    }
    let fill = field(record, counts.bits(), 8 * record.len() - counts.bits());
    if fill != 0 {
        return Err(if version_2 { Refusal::FillOfTwoNotZero } else { Refusal::FillNotZero });
    }
    let term = |start| (field(record, start, 10), signed_field(record, start + 10));
    let special = |start| (field(record, start, 9), field(record, start + 9, 16));
    let after_terms = HEADER_BITS + TERM_BITS * counts.terms;
    let places = |start: usize, bits: usize, count: usize| (0..count).map(move |place| start + bits * place);
    let specials = counts.specials.map(|count| SpecialFields {
        count: count as i32,
        slots: places(after_terms + SECOND_COUNT_BITS, SPECIAL_BITS, count).map(special).collect(),
    });
    Ok(Fields {
        version: field(record, 0, 4),
        length: field(record, 4, 9),
        band: field(record, 13, 16),
        rest: signed_field(record, 29),
        count: counts.terms as i32,
        terms: places(HEADER_BITS, TERM_BITS, counts.terms).map(term).collect(),
        specials,
        fill,
    })
}
