//! Fields and lines as they may be typed: every form of a number, and what is no number or out of range.

use super::random::Random;
use crate::document::text::Profile;

/// Fields that are no numbers.
pub const NO_NUMBERS: [&[u8]; 35] = [
    b"",
    b"-",
    b"+3",
    b"14,",
    b"14.",
    b",5",
    b".5",
    b"-,5",
    b"1.450",
    b"1234",
    b"-1234",
    b"0000",
    b"1,2,3",
    b"1,.5",
    b" 14",
    b"14 ",
    b"14\r",
    b"14\t",
    b"--1",
    b"1-",
    b"14,5a",
    b"0x1",
    b"14\0",
    b"1e2",
    b",",
    b"14,-5",
    b"1 0",
    b"14;50",
    b"\xEF\xBC\x91",
    b"14.505",
    b"-0.005",
    b"14,5050",
    b"-0,0005",
    b"14,50.5",
    b"14.50,5",
];

/// Numbers that are out of range as a rest value or setpoint, or as a band.
pub const OUT_OF_RANGE: [&[u8]; 16] = [
    b"200,01",
    b"-200,01",
    b"200.1",
    b"-201",
    b"400,01",
    b"400.1",
    b"-0,01",
    b"-0.1",
    b"999,99",
    b"-999,99",
    b"200,005",
    b"-200,005",
    b"400,005",
    b"-0,005",
    b"999,995",
    b"-999,995",
];

/// Setpoint lines with an own band that are refused, and their own bands: with 1 for a field that is no number, wherever it
/// stands and whatever the other is; with 2; with 3.
pub const OWN_BANDS_WRONG: [&[u8]; 40] = [
    b"14,10 ",
    b" ",
    b"  ",
    b" 0,25",
    b"14,10  0,25",
    b"14,10\t0,25",
    b"14,10\xC2\xA00,25",
    b" 14,10 0,25",
    b"14,10 0,25 ",
    b"14,10 0,25 0,25",
    b"14,10 0,25 x",
    b"14,10 0,25\t",
    b"14,10 0,25\r",
    b"14,10 0,25\0",
    b"14,10 0.255",
    b"14,10 0,2555",
    b"14,10 +1",
    b"14,10 1234",
    b"14,10 ,25",
    b"14,10 0,",
    b"14,10 --0",
    b"14,10 x",
    b"14, 0,25",
    b"x 0,25",
    b"14.505 0,25",
    b"1234 0,25",
    b"300,00 x",
    b"300,00 ",
    b"-200,01  0",
    b"300,00 500,00",
    b"200,005 400,005",
    b"-200,01 -0,01",
    b"200,01 0,25",
    b"-200,005 0,25",
    b"1,00 500,00",
    b"1,00 400,01",
    b"1,00 400,005",
    b"1,00 -0,01",
    b"1,00 -0,005",
    b"1,00 -999,995",
];

/// Setpoint lines with an own band that are accepted, at limits and in forms that round.
pub const OWN_BANDS_RIGHT: [&[u8]; 14] = [
    b"1,00 0",
    b"1,00 -0",
    b"1,00 -0,00",
    b"1,00 -000,004",
    b"1,00 0,004",
    b"1,00 0,005",
    b"1,00 400",
    b"1,00 400,004",
    b"1,00 399,995",
    b"1 1",
    b"-200,004 -000,004",
    b"200,004 400,004",
    b"0.5 0.5",
    b"-0,005 0,254",
];

/// The greatest number that a field reads as, only by three digits after a comma; the least is its negative.
pub const NUMBER_LIMIT: i32 = 100_000;

/// A value in one of the forms that are read as it.
pub fn number(random: &mut Random, value: i32) -> Vec<u8> {
    let minus = value < 0 || (value == 0 && random.below(4) == 0);
    let sign = if minus { "-" } else { "" };
    let width = random.between(1, 3) as usize;
    let size = value.abs();
    let (units, hundredths) = (size / 100, size % 100);
    let mark = *random.pick(&[',', '.']);
    let shortest = if size == NUMBER_LIMIT {
        3
    } else if hundredths == 0 {
        0
    } else if hundredths % 10 == 0 {
        1
    } else {
        2
    };
    match random.between(shortest, 3) {
        0 => format!("{sign}{units:0width$}"),
        1 => format!("{sign}{units:0width$}{mark}{}", hundredths / 10),
        2 => format!("{sign}{units:0width$}{mark}{hundredths:02}"),
        _ => {
            let thousandths = random.between((10 * size - 5).max(0), (10 * size + 4).min(10 * NUMBER_LIMIT - 1));
            format!("{sign}{:0width$},{:03}", thousandths / 1000, thousandths % 1000)
        }
    }
    .into_bytes()
}

/// A profile's lines, each number in some form; some slots that are not special have the common band as their own.
pub fn lines(random: &mut Random, profile: &Profile) -> Vec<Vec<u8>> {
    let mut lines = vec![number(random, profile.rest), number(random, profile.band)];
    for (&setpoint, band) in profile.setpoints.iter().zip(profile.bands()) {
        let mut line = number(random, setpoint);
        if band != profile.band || random.below(20) == 0 {
            line.push(b' ');
            line.extend(number(random, band));
        }
        lines.push(line);
    }
    lines
}

/// A profile's text, each number in some form.
pub fn any_text(random: &mut Random, profile: &Profile) -> Vec<u8> {
    text(&lines(random, profile))
}

/// Lines as a text: each ends in the byte 10.
pub fn text(lines: &[Vec<u8>]) -> Vec<u8> {
    lines.iter().flat_map(|line| [line.as_slice(), b"\n"].concat()).collect()
}
