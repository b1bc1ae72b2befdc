//! Document 02's F-8, "Profiles laid end to end": profiles joined, moved and turned. "Each slot brings along the band it goes
//! by, own or common."

use super::VALUE_LIMIT;
use super::synopsis::Term;
use super::text::Profile;

/// The second profile laid behind the first, with the first's rest value and a common band that need be neither's: a slot
/// whose band is another has it as its own.
pub fn joined([first, second]: [&Profile; 2], common: i32) -> Profile {
    let setpoints = [first.setpoints.as_slice(), &second.setpoints].concat();
    let bands = [first.bands(), second.bands()].concat();
    Profile::plain(first.rest, common, setpoints).with_bands(&bands)
}

/// One number added to all setpoints and the rest value.
pub fn moved(profile: &Profile, by: i32) -> Profile {
    with_values(profile, |value| value + by)
}

/// All signs turned; bands have none.
pub fn turned(profile: &Profile) -> Profile {
    with_values(profile, |value| -value)
}

/// The profile with all setpoints and the rest value changed, and every slot's band as it was.
pub fn with_values(profile: &Profile, change: impl Fn(i32) -> i32) -> Profile {
    let setpoints = profile.setpoints.iter().map(|&setpoint| change(setpoint)).collect();
    Profile { rest: change(profile.rest), setpoints, ..profile.clone() }
}

/// The least and the greatest number that can be added: one brings a value to the lower limit, the other to the upper, and all
/// stay in range.
pub fn farthest_moves(profile: &Profile) -> [i32; 2] {
    let values = || profile.setpoints.iter().copied().chain([profile.rest]);
    [-VALUE_LIMIT - values().fold(VALUE_LIMIT, i32::min), VALUE_LIMIT - values().fold(-VALUE_LIMIT, i32::max)]
}

/// The terms with one number added to their values. They need not be the moved profile's.
pub fn moved_terms(terms: &[Term], by: i32) -> Vec<Term> {
    terms.iter().map(|term| Term { value: term.value + by, ..*term }).collect()
}

/// The terms with their signs turned. They need not be the turned profile's.
pub fn turned_terms(terms: &[Term]) -> Vec<Term> {
    terms.iter().map(|term| Term { value: -term.value, ..*term }).collect()
}
