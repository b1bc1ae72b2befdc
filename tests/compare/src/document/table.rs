//! Demand 3 and document 02's F-5 and F-6 for profiles of any length, by a table over nodes and values: the fewest terms
//! that leave a margin in every slot, and the first and the last of the synopses with so many.
//!
//! The table holds for every node the fewest terms below it, by the value that the node hands down: its own term's, or
//! the one from above. From one value to the next such a number falls only where the next is the lowest value that leaves
//! the margin in some slot below n. So the lowest value with so few terms is one of these, or the lowest of all; likewise
//! the highest, with the highest values that leave the margin. These and the rest value are all the values that have to be
//! looked at.

use super::VALUE_LIMIT;
use super::synopsis::{Demand, End, Term, padded_length};

/// The values to be looked at for an end.
pub fn values_towards(end: End, demand: &Demand, margin: i32) -> Vec<i32> {
    let (sign, limit) = if end == End::First { (-1, -VALUE_LIMIT) } else { (1, VALUE_LIMIT) };
    let farthest = |(setpoint, band): (i32, i32)| (setpoint + sign * (band - margin)).clamp(-VALUE_LIMIT, VALUE_LIMIT);
    demand.slots().map(farthest).chain([limit]).collect()
}

pub struct Table {
    /// Ascending, with the rest value.
    values: Vec<i32>,
    /// The rest value's place among them.
    rest: usize,
    /// By node, and by the place of the value that it hands down.
    below: Vec<Vec<u16>>,
}

impl Table {
    /// For a margin that every slot's band has room for.
    pub fn new(demand: &Demand, margin: i32, mut values: Vec<i32>) -> Table {
        values.push(demand.rest);
        values.sort_unstable();
        values.dedup();
        let first_leaf = padded_length(demand.setpoints.len());
        let slots: Vec<(i32, i32)> = demand.slots().collect();
        let mut below = vec![Vec::new(); 2 * first_leaf];
        for node in (1..2 * first_leaf).rev() {
            below[node] = match node.checked_sub(first_leaf) {
                Some(slot) => below_leaf(slots.get(slot), &values, margin),
                None => sums(at_and_below(&below[2 * node]), at_and_below(&below[2 * node + 1])),
            };
        }
        Table { rest: values.partition_point(|&value| value < demand.rest), values, below }
    }

    /// The fewest terms that leave the margin.
    pub fn fewest(&self) -> usize {
        self.at_and_below(1, self.rest)
    }

    /// The first or the last synopsis of the fewest terms. The nodes are gone through in ascending order, and at each
    /// the first option is taken, or the last, with which the fewest terms still suffice. The fewest of the nodes that
    /// are to come add up: below two of them, neither of which is below the other, they depend only on what these are
    /// handed.
    pub fn best(&self, end: End) -> Vec<Term> {
        let fewest = self.fewest();
        let mut needed = fewest;
        let mut handed_down = vec![self.rest; self.below.len()];
        let mut terms = Vec::new();
        for node in 1..self.below.len() {
            let incoming = handed_down[node / 2];
            let elsewhere = needed - self.at_and_below(node, incoming);
            let option = self.option(end, node, incoming, fewest - elsewhere);
            needed = elsewhere + self.with_option(node, incoming, option);
            handed_down[node] = option.unwrap_or(incoming);
            terms.extend(option.map(|place| Term { node, value: self.values[place] }));
        }
        terms
    }

    /// The first or the last option at a node with at most so many terms at and below it. The options stand in F-5's
    /// order: a term, lower values first; then none, for the next term has a higher node then.
    fn option(&self, end: End, node: usize, incoming: usize, most: usize) -> Option<usize> {
        let open = |option: &Option<usize>| self.with_option(node, incoming, *option) <= most;
        let mut options = (0..self.values.len()).map(Some).chain([None]);
        let found = if end == End::First { options.find(open) } else { options.rfind(open) };
        found.expect("an option of no more terms than the fewest")
    }

    /// The fewest terms at and below a node with a term of the value in this place, or without a term.
    fn with_option(&self, node: usize, incoming: usize, option: Option<usize>) -> usize {
        usize::from(option.is_some()) + usize::from(self.below[node][option.unwrap_or(incoming)])
    }

    /// The fewest terms at and below a node by the value that comes in.
    fn at_and_below(&self, node: usize, incoming: usize) -> usize {
        usize::from(self.below[node][incoming].min(with_own_term(&self.below[node])))
    }
}

/// Nothing where the value leaves the margin or the slot is filler; elsewhere more than any number of terms.
fn below_leaf(slot: Option<&(i32, i32)>, values: &[i32], margin: i32) -> Vec<u16> {
    let leaves_less = |value: &i32| slot.is_some_and(|(setpoint, band)| band - (setpoint - value).abs() < margin);
    values.iter().map(|value| if leaves_less(value) { u16::MAX } else { 0 }).collect()
}

/// The fewest terms at and below a node that has a term.
fn with_own_term(below: &[u16]) -> u16 {
    below.iter().fold(u16::MAX - 1, |least, &count| least.min(count)) + 1
}

/// By incoming value the fewest terms at and below a node: without a term at it or with one.
fn at_and_below(below: &[u16]) -> impl Iterator<Item = u16> {
    let with_own_term = with_own_term(below);
    below.iter().map(move |&count| count.min(with_own_term))
}

fn sums(left: impl Iterator<Item = u16>, right: impl Iterator<Item = u16>) -> Vec<u16> {
    left.zip(right).map(|(left, right)| left + right).collect()
}
