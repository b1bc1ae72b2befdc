//! Primary air: the flow of a step and the lowest step for a flow, through the library and as the programs `flows` and
//! `steps` print them.

use crate::comparison::Comparison;
use crate::document::air::{flow, lowest_step};
use crate::document::{FLOW_LIMIT, STEP_LIMIT};
use crate::inputs::random::Random;
use crate::program;

/// The tables that the program `steps` goes through, in its order.
const TABLES: [(&str, fn(u64) -> u64); 2] =
    [("by the square root", flow), ("by a table with one flow for a hundred steps at a time", by_hundreds)];

fn by_hundreds(step: u64) -> u64 {
    250 * (step / 100)
}

pub fn run(comparison: &mut Comparison) {
    let mut random = Random::new(11);
    for number in 0..=70_000 {
        both(comparison, number);
    }
    around_powers(comparison);
    for _ in 0..4_000 {
        any_numbers(comparison, &mut random);
    }
    flows_printed(comparison);
    steps_printed(comparison);
}

/// A number as a step and as a flow.
fn both(comparison: &mut Comparison, number: u64) {
    comparison.flow_of_step(number);
    comparison.step_for_flow(number);
}

/// Every power of two of 64 bits, one less and one more; and the greatest number, one less than the power after them.
fn around_powers(comparison: &mut Comparison) {
    for exponent in 0..u64::BITS {
        let power = 1 << exponent;
        for number in [power - 1, power, power + 1] {
            both(comparison, number);
        }
    }
    both(comparison, u64::MAX);
}

/// A number of 64 bits and one of fewer; one around the limits, and one that ends in such a number when cut short.
fn any_numbers(comparison: &mut Comparison, random: &mut Random) {
    both(comparison, random.next());
    both(comparison, random.next() >> random.below(64));
    let small = random.below(2 * FLOW_LIMIT as usize) as u64;
    both(comparison, small);
    both(comparison, random.next() << *random.pick(&[16, 32, 48]) | small);
}

/// A line a step.
fn flows_printed(comparison: &mut Comparison) {
    let printed = program::flows();
    let mut found = printed.split_inclusive('\n');
    for step in 0..=STEP_LIMIT {
        let line = format!("{}\n", flow(step));
        comparison.same("the line of a step", &step, Some(line.as_str()), found.next());
    }
    comparison.same("a line after the last", &STEP_LIMIT, None, found.next());
}

/// Every flow once by the one table, then by the other.
fn steps_printed(comparison: &mut Comparison) {
    let mut found = program::steps().into_iter();
    for (name, table) in TABLES {
        for flow in 0..=FLOW_LIMIT {
            let expected = lowest_step(table, flow).map(|step| (flow as u16, step as u16));
            comparison.same("a flow and its lowest step", &format!("flow {flow}, {name}"), expected, found.next());
        }
    }
    comparison.same("a flow after the last", &FLOW_LIMIT, None, found.next());
}
