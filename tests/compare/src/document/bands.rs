//! Document 02's F-6, "A band of its own for a slot": special slots, and the band that each slot goes by.

/// A slot and its own band, which is not the common one. Lists of them ascend strictly by slot.
#[derive(Clone, Copy, Debug, PartialEq, Eq)]
pub struct Special {
    pub slot: usize,
    pub band: i32,
}

/// By slot below n the band that it goes by: its own, or the common one.
pub fn bands(slots: usize, common: i32, specials: &[Special]) -> Vec<i32> {
    let mut bands = vec![common; slots];
    for special in specials {
        bands[special.slot] = special.band;
    }
    bands
}
