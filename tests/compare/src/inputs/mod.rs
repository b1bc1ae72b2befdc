//! Inputs for the comparison: from a generator with a fixed seed, and small ones in a fixed order.

pub mod changes;
pub mod profiles;
pub mod random;
pub mod small;
pub mod typed;
