//! Demand 3 and document 02's F-5 and F-6 by trying every synopsis: the greatest least margin of at most 0, 1, 2, ... terms,
//! and the first and the last of the best synopses. For small profiles.

use super::VALUE_LIMIT;
use super::synopsis::{Demand, End, Term, least_margin, padded_length};
use std::ops::RangeInclusive;

/// The longest profile for which all sets of nodes are tried.
pub const MOST_SLOTS: usize = 8;

/// The lowest and the highest value within the bands of no slots: far beyond the limits.
const ANY_VALUE: (i32, i32) = (-1_000_000, 1_000_000);

/// Every set of nodes, with the best values on it. A slot is fed by exactly one term or by the rest value, so the values
/// can be chosen one by one. With filler alone below it, a term feeds no slot that is looked at.
pub fn every_node_set(demand: &Demand) -> Vec<i32> {
    let nodes = 2 * padded_length(demand.setpoints.len()) - 1;
    let mut greatest = vec![i32::MIN; nodes + 1];
    for set in 0..1u32 << nodes {
        let terms = set.count_ones() as usize;
        greatest[terms] = greatest[terms].max(best_margin(demand, set));
    }
    at_most(greatest)
}

/// The first or the last of the synopses of so many terms that have a least margin of so much: of every set of so many
/// nodes that can have it, the synopsis with the lowest value at each node, or with the highest.
pub fn end_of_node_sets(demand: &Demand, terms: usize, margin: i32, end: End) -> Vec<Term> {
    let nodes = 2 * padded_length(demand.setpoints.len()) - 1;
    let has_margin = |set: &u32| set.count_ones() as usize == terms && best_margin(demand, *set) >= margin;
    let synopses = (0..1u32 << nodes).filter(has_margin).map(|set| with_end_values(demand, set, margin, end));
    end.of(synopses).expect("a set of so many nodes that has the margin")
}

/// Terms at exactly the nodes of a set, each with the lowest value, or the highest, that leaves a margin in the slots it
/// feeds.
fn with_end_values(demand: &Demand, set: u32, margin: i32, end: End) -> Vec<Term> {
    let within_bands = within_bands(demand, set);
    let value = |node: usize| match end {
        End::First => (within_bands[node].0 + margin).max(-VALUE_LIMIT),
        End::Last => (within_bands[node].1 - margin).min(VALUE_LIMIT),
    };
    let nodes = (1..within_bands.len()).filter(|&node| set >> (node - 1) & 1 == 1);
    nodes.map(|node| Term { node, value: value(node) }).collect()
}

/// The greatest least margin of synopses with a term at exactly the nodes of a set: node i is bit i-1.
///
/// A value v leaves the margins v - (d - b) and (d + b) - v in a slot with setpoint d and band b; so the least of the slots
/// that a term feeds is that to the greater of their lower ends or to the lesser of their upper ends, and no value leaves
/// more than half of what is between the two, rounded down. The midpoint rounded down leaves that, and it lies between two
/// setpoints, so within the limits: the slot with that lower end has its setpoint at the midpoint or above, since its upper
/// end is no lower than the other; and the other way round.
fn best_margin(demand: &Demand, set: u32) -> i32 {
    let within_bands = within_bands(demand, set);
    let (lowest, highest) = within_bands[0];
    let from_rest = (demand.rest - lowest).min(highest - demand.rest);
    let from_midpoint = within_bands[1..].iter().map(|(lowest, highest)| (highest - lowest).div_euclid(2));
    from_midpoint.fold(from_rest, i32::min)
}

/// By node of a set the lowest and the highest value within the bands of all slots that its term feeds, and by 0 those for
/// the slots that the rest value feeds; where no value is within all bands the lowest is above the highest.
fn within_bands(demand: &Demand, set: u32) -> [(i32, i32); 2 * MOST_SLOTS] {
    let first_leaf = padded_length(demand.setpoints.len());
    let mut ends = [ANY_VALUE; 2 * MOST_SLOTS];
    for (slot, (setpoint, band)) in demand.slots().enumerate() {
        let (lowest, highest) = &mut ends[feeding_node(set, first_leaf + slot)];
        *lowest = (setpoint - band).max(*lowest);
        *highest = (setpoint + band).min(*highest);
    }
    ends
}

/// The lowest node of the set on the path from a node up to the root; 0 with none.
fn feeding_node(set: u32, mut node: usize) -> usize {
    while node >= 1 && set >> (node - 1) & 1 == 0 {
        node /= 2;
    }
    node
}

/// Every synopsis of at most so many terms whose values lie between the least and the greatest setpoint: to move a value
/// there raises no error.
pub fn every_synopsis(demand: &Demand, most_terms: usize) -> Vec<i32> {
    let mut greatest = vec![i32::MIN; most_terms + 1];
    for_every_synopsis(demand, most_terms, 0, |terms| {
        let count = terms.len();
        greatest[count] = greatest[count].max(least_margin(terms, demand));
    });
    at_most(greatest)
}

/// Every synopsis of the fewest terms that has a least margin of so much. Each of its terms feeds a slot, or it would be
/// one too many; so its value is no farther from that slot's setpoint than its band less the margin.
pub fn every_best_synopsis(demand: &Demand, fewest: usize, margin: i32) -> Vec<Vec<Term>> {
    let mut best = Vec::new();
    let greatest_band = demand.bands.iter().copied().fold(0, i32::max);
    for_every_synopsis(demand, fewest, greatest_band - margin, |terms| {
        if terms.len() == fewest && least_margin(terms, demand) >= margin {
            best.push(terms.to_vec());
        }
    });
    best
}

/// Every synopsis of at most so many terms whose values are within the limits, and at most so far below the least
/// setpoint or above the greatest.
fn for_every_synopsis(demand: &Demand, most_terms: usize, distance: i32, mut each: impl FnMut(&[Term])) {
    let least = demand.setpoints.iter().copied().fold(i32::MAX, i32::min);
    let greatest = demand.setpoints.iter().copied().fold(i32::MIN, i32::max);
    let values = (least - distance).max(-VALUE_LIMIT)..=(greatest + distance).min(VALUE_LIMIT);
    let last_node = 2 * padded_length(demand.setpoints.len()) - 1;
    for_every_longer(&mut Vec::new(), most_terms, last_node, &values, &mut each);
}

/// A synopsis and every longer one that begins with its terms.
fn for_every_longer(
    terms: &mut Vec<Term>,
    most_terms: usize,
    last_node: usize,
    values: &RangeInclusive<i32>,
    each: &mut impl FnMut(&[Term]),
) {
    each(terms);
    if terms.len() == most_terms {
        return;
    }
    for node in terms.last().map_or(1, |term| term.node + 1)..=last_node {
        for value in values.clone() {
            terms.push(Term { node, value });
            for_every_longer(terms, most_terms, last_node, values, each);
            terms.pop();
        }
    }
}

/// From the greatest for exactly t terms to the greatest for at most t.
fn at_most(mut greatest: Vec<i32>) -> Vec<i32> {
    for terms in 1..greatest.len() {
        greatest[terms] = greatest[terms].max(greatest[terms - 1]);
    }
    greatest
}
