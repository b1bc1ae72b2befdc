//! The second program's ways to the optimum against each other: every synopsis, every set of nodes, the table over nodes and
//! values, for some of the values and for all; with one band for all slots and with a band for each. And the flows of
//! primary air against what makes a whole part of a square root. What the library is compared with rests on them.

use super::firings::for_all;
use crate::comparison::Comparison;
use crate::document::air::{flow, lowest_step};
use crate::document::every::{MOST_SLOTS, every_best_synopsis, every_node_set, every_synopsis};
use crate::document::optimum::{Optimum, fewest_terms};
use crate::document::synopsis::{Demand, End};
use crate::document::table::Table;
use crate::document::{BAND_LIMIT, FLOW_LIMIT, STEP_LIMIT, VALUE_LIMIT};
use crate::inputs::profiles::{SHAPES, any_profile, band, rest};
use crate::inputs::random::Random;

/// All lengths up to eight; six more often, since of these it alone could need a term more for a setpoint in filler.
const LENGTHS: [usize; 11] = [1, 2, 3, 4, 5, 6, 6, 6, 6, 7, 8];

/// What setpoints lie around: 0, and the limits, which cut off values.
const MIDDLES: [i32; 3] = [0, -VALUE_LIMIT, VALUE_LIMIT];

/// The most terms of the synopses that are all tried: a term at every node for up to four slots; for more slots four terms,
/// since with each the synopses are some ten times as many.
fn most_terms(nodes: usize) -> usize {
    if nodes < 8 { nodes } else { 4 }
}

pub fn run(comparison: &mut Comparison) {
    let mut random = Random::new(1);
    for slots in 1..=4 {
        for_all(&[-1, 0, 1], slots, |setpoints| {
            for rest in -2..=2 {
                synopses_and_node_sets(comparison, &Demand::common(setpoints, rest, 0));
                small_bands(comparison, &mut random, setpoints, rest);
            }
        });
    }
    for round in 0..30 * LENGTHS.len() {
        let slots = LENGTHS[round % LENGTHS.len()];
        let middle = MIDDLES[round % MIDDLES.len()];
        let mut near = |least, greatest| (middle + random.between(least, greatest)).clamp(-VALUE_LIMIT, VALUE_LIMIT);
        let setpoints: Vec<i32> = (0..slots).map(|_| near(-1, 1 + i32::from(slots < 3))).collect();
        let rest = near(-3, 3);
        synopses_and_node_sets(comparison, &Demand::common(&setpoints, rest, 0));
        let bands = (0..slots).map(|_| random.between(0, 1)).collect();
        synopses_and_node_sets(comparison, &Demand { setpoints, bands, rest });
    }
    for round in 0..4_000 {
        let slots = 1 + random.below(if round % 10 == 0 { MOST_SLOTS } else { MOST_SLOTS / 2 });
        let setpoints = SHAPES[round % SHAPES.len()](&mut random, slots);
        let rest = rest(&mut random, &setpoints);
        node_sets_and_table(comparison, &mut random, Demand::common(&setpoints, rest, 0));
        let bands = (0..slots).map(|_| band(&mut random)).collect();
        node_sets_and_table(comparison, &mut random, Demand { setpoints, bands, rest });
    }
    for shape in SHAPES {
        for slots in [6, 16, 33, 64, 200] {
            let setpoints = shape(&mut random, slots);
            let rest = rest(&mut random, &setpoints);
            some_and_all_values(comparison, Demand::common(&setpoints, rest, band(&mut random)));
            let bands = (0..slots).map(|_| band(&mut random)).collect();
            some_and_all_values(comparison, Demand { setpoints, bands, rest });
        }
    }
    for _ in 0..300 {
        let slots = 1 + random.below(100);
        no_greater_margin(comparison, any_profile(&mut random, slots).demand());
    }
    flows(comparison);
    lowest_steps(comparison);
}

/// Bands of 0 to 2 in each slot: all of them for up to two slots, one chosen by chance for more.
fn small_bands(comparison: &mut Comparison, random: &mut Random, setpoints: &[i32], rest: i32) {
    let demand = |bands: &[i32]| Demand { setpoints: setpoints.to_vec(), bands: bands.to_vec(), rest };
    if setpoints.len() <= 2 {
        for_all(&[0, 1, 2], setpoints.len(), |bands| synopses_and_node_sets(comparison, &demand(bands)));
    } else {
        let bands: Vec<i32> = setpoints.iter().map(|_| random.between(0, 2)).collect();
        synopses_and_node_sets(comparison, &demand(&bands));
    }
}

fn synopses_and_node_sets(comparison: &mut Comparison, demand: &Demand) {
    let by_node_sets = every_node_set(demand);
    let most_terms = most_terms(by_node_sets.len() - 1);
    let by_synopses = every_synopsis(demand, most_terms);
    comparison.same(
        "every synopsis and every set of nodes",
        &format!("{demand:?}"),
        by_synopses.as_slice(),
        &by_node_sets[..=most_terms],
    );
    for fewest in 0..=most_terms {
        let margin = by_synopses[fewest];
        if fewest == 0 || margin > by_synopses[fewest - 1] {
            ends_of_the_best(comparison, demand, fewest, margin);
        }
    }
}

/// The first and the last of all best synopses, and by each of the other ways.
fn ends_of_the_best(comparison: &mut Comparison, demand: &Demand, fewest: usize, margin: i32) {
    let case = format!("{demand:?}, margin {margin}");
    let best = every_best_synopsis(demand, fewest, margin);
    let ends = [End::First, End::Last];
    let [first, last] = ends.map(|end| end.of(best.iter()).expect("a best synopsis"));
    for mut way in [Optimum::listed(demand.clone()), Optimum::sought(demand.clone())] {
        let found = ends.map(|end| way.best(margin, end));
        comparison.same("the first and the last of the best synopses", &case, [first, last], found.each_ref());
    }
    let own_bands = demand.bands.iter().any(|&band| band != demand.bands[0]);
    comparison.coverage.tried.note(own_bands, first, last);
}

fn node_sets_and_table(comparison: &mut Comparison, random: &mut Random, demand: Demand) {
    let case = format!("{demand:?}");
    let least_band = demand.least_band();
    let (mut listed, mut sought) = (Optimum::listed(demand.clone()), Optimum::sought(demand));
    for wider in [band(random), band(random), band(random), least_band, 19_999, 20_000, BAND_LIMIT] {
        let margin = least_band - wider;
        comparison.same("terms for a margin", &case, listed.fewest(margin), sought.fewest(margin));
        same_ends(comparison, &case, [&mut listed, &mut sought], margin);
    }
    for budget in 0..2 * MOST_SLOTS {
        let greatest = listed.greatest_margin(budget);
        comparison.same("greatest margins of the two ways", &case, greatest, sought.greatest_margin(budget));
        comparison.same("terms for the greatest margin", &case, listed.fewest(greatest), sought.fewest(greatest));
        same_ends(comparison, &case, [&mut listed, &mut sought], greatest);
    }
}

fn same_ends(comparison: &mut Comparison, case: &str, ways: [&mut Optimum; 2], margin: i32) {
    let [listed, sought] = ways.map(|way| [End::First, End::Last].map(|end| way.best(margin, end)));
    comparison.same("the first and the last of the best synopses for a margin", &case, listed, sought);
}

/// The table for the values of each end, and for every value within the limits.
fn some_and_all_values(comparison: &mut Comparison, demand: Demand) {
    let case = format!("{demand:?}");
    let mut sought = Optimum::sought(demand.clone());
    let fewest = sought.fewest(0);
    let margin = sought.greatest_margin(fewest);
    let all = Table::new(&demand, margin, (-VALUE_LIMIT..=VALUE_LIMIT).collect());
    comparison.same("terms by some values and by all", &case, fewest, all.fewest());
    for end in [End::First, End::Last] {
        comparison.same("an end by some values and by all", &case, sought.best(0, end), all.best(end));
    }
}

/// A margin that is one greater than the greatest asks for more terms, or a slot's band has no room for it.
fn no_greater_margin(comparison: &mut Comparison, demand: Demand) {
    let mut sought = Optimum::sought(demand.clone());
    let fewest = sought.fewest(0);
    let greatest = sought.greatest_margin(fewest);
    let is_greatest = greatest == demand.least_band() || fewest_terms(&demand, greatest + 1) > fewest;
    comparison.same("the greatest margin of as many terms", &format!("{demand:?}"), true, is_greatest);
}

/// The square of each flow is at most 2,500 times its step, and that of the next number is more. The flows start at 0,
/// end at 1,000 and never fall.
fn flows(comparison: &mut Comparison) {
    let flows: Vec<u64> = (0..=STEP_LIMIT).map(flow).collect();
    for (step, root) in (0..).zip(&flows) {
        let is_whole_part = root * root <= 2_500 * step && 2_500 * step < (root + 1) * (root + 1);
        comparison.same("a flow is the whole part of a square root", &step, true, is_whole_part);
    }
    let ends = [flows.first(), flows.last()];
    comparison.same("the first and the last flow", &"all steps", [Some(&0), Some(&FLOW_LIMIT)], ends);
    comparison.same("flows never fall", &"all steps", true, flows.is_sorted());
}

/// A flow reaches another exactly where 2,500 times its step reaches the other's square; so the lowest step is that
/// square divided by 2,500, rounded up.
fn lowest_steps(comparison: &mut Comparison) {
    for given in 0..=FLOW_LIMIT {
        let rounded_up = (given * given).div_ceil(2_500);
        comparison.same("the lowest step for a flow", &given, Some(rounded_up), lowest_step(flow, given));
    }
}
