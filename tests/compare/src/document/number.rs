//! Document 01, "Setpoints as typed", with document 02's F-2: a number read from its field, and a value written out.

/// The hundredths that all bytes of a field make; none where they are not a number.
pub fn read_number(field: &[u8]) -> Option<i32> {
    let unsigned = field.strip_prefix(b"-").unwrap_or(field);
    let (units, thousandths) = match unsigned.iter().position(|byte| b",.".contains(byte)) {
        Some(mark) => (&unsigned[..mark], after_mark(unsigned[mark], &unsigned[mark + 1..])?),
        None => (unsigned, 0),
    };
    let size = 1000 * digits(units, 3)? + thousandths;
    Some(half_away_from_zero(if field.starts_with(b"-") { -size } else { size }))
}

/// The digits after a mark in thousandths: three at the most after a comma, two after a point. One digit is tenths, two are hundredths.
fn after_mark(mark: u8, bytes: &[u8]) -> Option<i32> {
    let number = digits(bytes, if mark == b',' { 3 } else { 2 })?;
    Some(number * [100, 10, 1][bytes.len() - 1])
}

/// Thousandths as hundredths: the nearest, and of two as near the one farther from zero.
fn half_away_from_zero(thousandths: i32) -> i32 {
    let nearer_zero = thousandths / 10;
    let cut_off = thousandths % 10;
    if cut_off.abs() < 5 { nearer_zero } else { nearer_zero + cut_off.signum() }
}

/// The number that one to `most` digits make.
fn digits(bytes: &[u8], most: usize) -> Option<i32> {
    let well_formed = (1..=most).contains(&bytes.len()) && bytes.iter().all(u8::is_ascii_digit);
    well_formed.then(|| bytes.iter().fold(0, |number, digit| 10 * number + i32::from(digit - b'0')))
}

/// No leading zero before the units digit, a comma and two digits; minus only below zero.
pub fn write_number(value: i32) -> String {
    let sign = if value < 0 { "-" } else { "" };
    let size = value.abs();
    format!("{sign}{},{:02}", size / 100, size % 100)
}
