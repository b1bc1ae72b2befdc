//! Document 02's F-7, "Primary air": the flow of a step, and "the lowest step whose flow reaches a given flow".

use super::refusal::Refusal;
use super::{FLOW_LIMIT, STEP_LIMIT};

/// "The whole part of the square root of 2,500 times the step": the greatest number whose square is no more than that.
pub fn flow(step: u64) -> u64 {
    let mut root = 0;
    while (root + 1) * (root + 1) <= 2_500 * step {
        root += 1;
    }
    root
}

/// The first step, tried in order, whose flow by a table is the given flow or more.
pub fn lowest_step(table: fn(u64) -> u64, flow: u64) -> Option<u64> {
    (0..=STEP_LIMIT).find(|&step| table(step) >= flow)
}

pub fn flow_of_step(step: u64) -> Result<u64, Refusal> {
    if step > STEP_LIMIT { Err(Refusal::StepAbove) } else { Ok(flow(step)) }
}

/// A flow is refused where it is above 1,000; up to there some step reaches it.
pub fn step_for_flow(given: u64) -> Result<u64, Refusal> {
    if given > FLOW_LIMIT {
        return Err(Refusal::FlowAbove);
    }
    Ok(lowest_step(flow, given).expect("a step whose flow reaches the given one"))
}
