//! Demand 3 and document 02's F-5 and F-6: the fewest terms that keep the bands, the greatest least margin of a number of
//! terms, and the first and the last of the best synopses; for small profiles by every set of nodes, for profiles of any
//! length by the table.
//!
//! With the table the greatest margin is sought among those that can be the least of a best synopsis: a term's value can be
//! the midpoint of the values within the bands of the slots it feeds, so the margin is half of what is between the lower end
//! of one slot's band and the upper end of another's or its own, rounded down; or it is what the rest value leaves in a slot.

use super::every::{end_of_node_sets, every_node_set};
use super::synopsis::{Demand, End, Term};
use super::table::{Table, values_towards};
use super::{BAND_LIMIT, VALUE_LIMIT};
use std::collections::HashMap;

/// The least margin that can be: that of band 0 and an error from one limit to the other.
const LEAST_MARGIN: i32 = -2 * VALUE_LIMIT;

/// The table over the values for one end.
fn table(demand: &Demand, margin: i32, end: End) -> Table {
    Table::new(demand, margin, values_towards(end, demand, margin))
}

/// The fewest terms that leave a margin in every slot.
pub fn fewest_terms(demand: &Demand, margin: i32) -> usize {
    table(demand, margin, End::First).fewest()
}

/// All margins that can be the least of a best synopsis, descending.
fn possible_margins(demand: &Demand) -> Vec<i32> {
    let most = demand.least_band();
    let mut possible = vec![false; (BAND_LIMIT - LEAST_MARGIN) as usize + 1];
    let mut note = |margin: i32| {
        if margin <= most {
            possible[(margin - LEAST_MARGIN) as usize] = true;
        }
    };
    let [lower_ends, upper_ends] = [-1, 1].map(|sign| distinct(demand.slots().map(|slot| slot.0 + sign * slot.1)));
    for (setpoint, band) in demand.slots() {
        note(band - (setpoint - demand.rest).abs());
    }
    for upper in &upper_ends {
        lower_ends.iter().for_each(|lower| note((upper - lower).div_euclid(2)));
    }
    (LEAST_MARGIN..=most).rev().filter(|margin| possible[(margin - LEAST_MARGIN) as usize]).collect()
}

fn distinct(numbers: impl Iterator<Item = i32>) -> Vec<i32> {
    let mut numbers: Vec<i32> = numbers.collect();
    numbers.sort_unstable();
    numbers.dedup();
    numbers
}

/// The best that can be had for one demand.
pub struct Optimum {
    demand: Demand,
    way: Way,
    /// The best synopses asked for so far, by their least margin and end.
    found: HashMap<(i32, End), Vec<Term>>,
}

enum Way {
    /// A small profile: the greatest least margin of at most 0, 1, 2, ... terms.
    Listed(Vec<i32>),
    /// Any profile: the margins that can be the least, and the fewest terms for the margins asked for so far.
    Sought { margins: Vec<i32>, known: HashMap<i32, usize> },
}

impl Optimum {
    pub fn new(demand: Demand) -> Optimum {
        if demand.setpoints.len() <= 4 { Optimum::listed(demand) } else { Optimum::sought(demand) }
    }

    pub fn listed(demand: Demand) -> Optimum {
        let greatest = every_node_set(&demand);
        Optimum::by(demand, Way::Listed(greatest))
    }

    pub fn sought(demand: Demand) -> Optimum {
        let margins = possible_margins(&demand);
        Optimum::by(demand, Way::Sought { margins, known: HashMap::new() })
    }

    fn by(demand: Demand, way: Way) -> Optimum {
        Optimum { demand, way, found: HashMap::new() }
    }

    pub fn is_of(&self, demand: &Demand) -> bool {
        self.demand == *demand
    }

    /// The fewest terms that leave a margin in every slot; with 0 the fewest that keep the bands.
    pub fn fewest(&mut self, margin: i32) -> usize {
        match &mut self.way {
            Way::Listed(greatest) => greatest.iter().take_while(|&&most| most < margin).count(),
            Way::Sought { known, .. } => recalled(known, &self.demand, margin),
        }
    }

    /// The greatest least margin that so many terms can leave; below 0 where they cannot keep the bands.
    pub fn greatest_margin(&mut self, budget: usize) -> i32 {
        match &mut self.way {
            Way::Listed(greatest) => greatest[budget.min(greatest.len() - 1)],
            Way::Sought { margins, known } => {
                let asks_more = |&margin: &i32| recalled(known, &self.demand, margin) > budget;
                margins[margins.partition_point(asks_more)]
            }
        }
    }

    /// The first or the last of the synopses with the fewest terms that leave a margin and, among these, the greatest
    /// least margin: with so many terms these are all that leave that margin. With 0 they are the best that keep the bands.
    pub fn best(&mut self, margin: i32, end: End) -> Vec<Term> {
        let fewest = self.fewest(margin);
        let greatest = self.greatest_margin(fewest);
        let find = || match self.way {
            Way::Listed(_) => end_of_node_sets(&self.demand, fewest, greatest, end),
            Way::Sought { .. } => table(&self.demand, greatest, end).best(end),
        };
        self.found.entry((greatest, end)).or_insert_with(find).clone()
    }
}

/// The fewest terms that leave a margin, worked out once.
fn recalled(known: &mut HashMap<i32, usize>, demand: &Demand, margin: i32) -> usize {
    *known.entry(margin).or_insert_with(|| fewest_terms(demand, margin))
}
