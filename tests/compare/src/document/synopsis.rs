//! Document 01, "The setpoint in a slot", with document 02's F-3 to F-6: nodes, levels, terms, the restored setpoint, its error and
//! its margin; and the check's verdict. "From now on filler carries no setpoint": what looks at errors looks at slots below n alone.

/// A node number and a value. Lists of terms are ordered as F-5 has it: "compare term by term, lower node first, then
/// lower value".
#[derive(Clone, Copy, Debug, PartialEq, Eq, PartialOrd, Ord)]
pub struct Term {
    pub node: usize,
    pub value: i32,
}

/// What a synopsis is held to: by slot below n the setpoint and the band that the slot goes by, its own or the common one;
/// and the rest value.
#[derive(Clone, Debug, PartialEq)]
pub struct Demand {
    pub setpoints: Vec<i32>,
    pub bands: Vec<i32>,
    pub rest: i32,
}

impl Demand {
    /// One band for all slots.
    pub fn common(setpoints: &[i32], rest: i32, band: i32) -> Demand {
        Demand { setpoints: setpoints.to_vec(), bands: vec![band; setpoints.len()], rest }
    }

    /// The setpoint and the band of each slot below n.
    pub fn slots(&self) -> impl Iterator<Item = (i32, i32)> {
        self.setpoints.iter().copied().zip(self.bands.iter().copied())
    }

    /// The least band that a slot goes by. No margin is greater.
    pub fn least_band(&self) -> i32 {
        self.bands.iter().copied().fold(i32::MAX, i32::min)
    }
}

/// An end of the best synopses in that order.
#[derive(Clone, Copy, PartialEq, Eq, Hash)]
pub enum End {
    First,
    Last,
}

impl End {
    pub fn of<T: Ord>(self, list: impl Iterator<Item = T>) -> Option<T> {
        match self {
            End::First => list.min(),
            End::Last => list.max(),
        }
    }
}

/// m: the smallest power of two that is n or more. Slots n to m-1 are filler.
pub fn padded_length(slots: usize) -> usize {
    let mut length = 1;
    while length < slots {
        length *= 2;
    }
    length
}

/// The number e with 2^e <= i < 2^(e+1). "Node 0 and numbers above 1,023 still give 0."
pub fn level(number: u16) -> u8 {
    (0..=9).find(|&e| 1_u16 << e <= number && number < 1_u16 << (e + 1)).unwrap_or(0)
}

/// The value of the lowest term on the path from a node up to the root; with none, the rest value. Terms ascend by node.
pub fn restored(terms: &[Term], rest: i32, mut node: usize) -> i32 {
    while node >= 1 {
        if let Ok(place) = terms.binary_search_by_key(&node, |term| term.node) {
            return terms[place].value;
        }
        node /= 2;
    }
    rest
}

/// The errors of the slots below n.
fn errors(terms: &[Term], demand: &Demand) -> impl Iterator<Item = i32> {
    let first_leaf = padded_length(demand.setpoints.len());
    let error =
        move |(slot, setpoint): (usize, &i32)| (setpoint - restored(terms, demand.rest, first_leaf + slot)).abs();
    demand.setpoints.iter().enumerate().map(error)
}

pub fn greatest_error(terms: &[Term], demand: &Demand) -> i32 {
    errors(terms, demand).fold(0, i32::max)
}

/// By slot below n "band minus error"; below 0 where the error exceeds the band.
fn margins(terms: &[Term], demand: &Demand) -> impl Iterator<Item = i32> {
    demand.bands.iter().zip(errors(terms, demand)).map(|(band, error)| band - error)
}

/// The least margin; below 0 where the synopsis does not keep the bands.
pub fn least_margin(terms: &[Term], demand: &Demand) -> i32 {
    margins(terms, demand).fold(i32::MAX, i32::min)
}

/// What the check says of a synopsis: the greatest error, or the lowest slot whose error exceeds its band.
pub enum Verdict {
    Kept(i32),
    NotKept(usize),
}

pub fn check(terms: &[Term], demand: &Demand) -> Verdict {
    match margins(terms, demand).position(|margin| margin < 0) {
        Some(slot) => Verdict::NotKept(slot),
        None => Verdict::Kept(greatest_error(terms, demand)),
    }
}

pub fn is_kept(terms: &[Term], demand: &Demand) -> bool {
    matches!(check(terms, demand), Verdict::Kept(_))
}
