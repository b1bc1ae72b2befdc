//! Document 01, "Setpoints as typed", with document 02's F-6: profile text, with its refusals in order, line by line.

use super::bands::{Special, bands};
use super::number::{read_number, write_number};
use super::refusal::Refusal;
use super::synopsis::Demand;
use super::{BAND_LIMIT, SLOT_LIMIT, VALUE_LIMIT};

/// What a profile text holds.
#[derive(Clone, Debug, PartialEq)]
pub struct Profile {
    pub rest: i32,
    pub band: i32,
    pub setpoints: Vec<i32>,
    pub specials: Vec<Special>,
}

impl Profile {
    /// A profile without special slots.
    pub fn plain(rest: i32, band: i32, setpoints: Vec<i32>) -> Profile {
        Profile { rest, band, setpoints, specials: Vec::new() }
    }

    /// The profile with these own bands in its first slots; one that is the common band makes no special slot.
    pub fn with_bands(self, own: &[i32]) -> Profile {
        let common = self.band;
        let special = |(slot, &band): (usize, &i32)| (band != common).then_some(Special { slot, band });
        Profile { specials: own.iter().enumerate().filter_map(special).collect(), ..self }
    }

    pub fn bands(&self) -> Vec<i32> {
        bands(self.setpoints.len(), self.band, &self.specials)
    }

    pub fn demand(&self) -> Demand {
        Demand { setpoints: self.setpoints.clone(), bands: self.bands(), rest: self.rest }
    }
}

/// Rest value, band, then a setpoint a line, perhaps with the slot's own band; 4 where a first setpoint is missing or a
/// byte follows the 512th. "An own band equal to the common one makes no special slot."
pub fn read_text(text: &[u8]) -> Result<Profile, Refusal> {
    let mut unread = text;
    let rest = limited(read_number_alone(first_line(&mut unread)?)?, Refusal::RestBeyond)?;
    let band = read_band(read_number_alone(first_line(&mut unread)?)?, Refusal::BandBelow, Refusal::BandAbove)?;
    let mut profile = Profile::plain(rest, band, Vec::new());
    let mut line_of_slot = first_line(&mut unread)?;
    loop {
        let (setpoint, own) = read_setpoint_line(line_of_slot)?;
        let special = own.filter(|&own| own != band).map(|band| Special { slot: profile.setpoints.len(), band });
        profile.specials.extend(special);
        profile.setpoints.push(setpoint);
        if unread.is_empty() {
            return Ok(profile);
        }
        if profile.setpoints.len() == SLOT_LIMIT {
            return Err(Refusal::TooManySetpoints);
        }
        line_of_slot = line(&mut unread)?;
    }
}

/// One of the three lines that every profile has.
fn first_line<'a>(unread: &mut &'a [u8]) -> Result<&'a [u8], Refusal> {
    if unread.is_empty() { Err(Refusal::NoSetpoint) } else { line(unread) }
}

/// What stands before the next byte 10; what is unread then starts after that byte.
fn line<'a>(unread: &mut &'a [u8]) -> Result<&'a [u8], Refusal> {
    let end = unread.iter().position(|&byte| byte == 10).ok_or(Refusal::LastLineNotEnded)?;
    let line = &unread[..end];
    *unread = &unread[end + 1..];
    Ok(line)
}

/// A line with a number and nothing more.
fn read_number_alone(line: &[u8]) -> Result<i32, Refusal> {
    let fault = if parted(line).is_some() { Refusal::SpaceInFirstLines } else { Refusal::LineNotANumber };
    read_number(line).ok_or(fault)
}

/// A setpoint, and an own band where the line has a space: "In a line 1, then 2 or 3", and "the setpoint's 2 goes before
/// the band's 3".
fn read_setpoint_line(line: &[u8]) -> Result<(i32, Option<i32>), Refusal> {
    let Some((before, after)) = parted(line) else {
        let setpoint = read_number(line).ok_or(Refusal::LineNotANumber)?;
        return Ok((limited(setpoint, Refusal::SetpointBeyond)?, None));
    };
    let setpoint = read_number(before).ok_or(no_setpoint(before))?;
    let own = read_number(after).ok_or(no_own_band(setpoint, after))?;
    let beyond_too = !(0..=BAND_LIMIT).contains(&own);
    let setpoint = limited(setpoint, if beyond_too { Refusal::BothBeyond } else { Refusal::SetpointWithBandBeyond })?;
    Ok((setpoint, Some(read_band(own, Refusal::OwnBandBelow, Refusal::OwnBandAbove)?)))
}

/// What stands before the first space of a line, and what stands after it.
fn parted(line: &[u8]) -> Option<(&[u8], &[u8])> {
    let space = line.iter().position(|&byte| byte == b' ')?;
    Some((&line[..space], &line[space + 1..]))
}

/// The case of row 1 for what stands before a space and is no number.
fn no_setpoint(before: &[u8]) -> Refusal {
    if before.is_empty() { Refusal::SpaceInFront } else { Refusal::NoNumberBeforeSpace }
}

/// The case of row 1 for what stands after a space and is no number.
fn no_own_band(setpoint: i32, after: &[u8]) -> Refusal {
    match after.iter().position(|&byte| byte == b' ') {
        _ if after.is_empty() => Refusal::NothingAfterSpace,
        Some(0) => Refusal::TwoSpaces,
        Some(_) => Refusal::ThirdField,
        None if setpoint.abs() > VALUE_LIMIT => Refusal::NoOwnBandAndSetpointBeyond,
        None => Refusal::OwnBandNotANumber,
    }
}

fn limited(value: i32, refusal: Refusal) -> Result<i32, Refusal> {
    if value.abs() <= VALUE_LIMIT { Ok(value) } else { Err(refusal) }
}

fn read_band(value: i32, below: Refusal, above: Refusal) -> Result<i32, Refusal> {
    match value {
        ..0 => Err(below),
        0..=BAND_LIMIT => Ok(value),
        _ => Err(above),
    }
}

/// The profile text with every number as it is written out, and own bands in special slots alone.
pub fn write_text(profile: &Profile) -> Vec<u8> {
    let mut lines: Vec<String> = [profile.rest, profile.band].into_iter().map(write_number).collect();
    lines.extend(profile.setpoints.iter().copied().map(write_number));
    for special in &profile.specials {
        lines[2 + special.slot] += &format!(" {}", write_number(special.band));
    }
    lines.into_iter().map(|line| line + "\n").collect::<String>().into_bytes()
}
