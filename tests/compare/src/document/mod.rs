//! Document 01 written a second time, from the paper alone, as document 02's requests have changed it so far: a module a section.
//! Readings of its open places are those of docs/DECISIONS.md.

pub mod air;
pub mod bands;
pub mod calls;
pub mod every;
pub mod fields;
pub mod laid;
pub mod number;
pub mod offers;
pub mod optimum;
pub mod printed;
pub mod record;
pub mod refusal;
pub mod synopsis;
pub mod table;
pub mod text;

/// The greatest setpoint, rest value and term value; the least is its negative.
pub const VALUE_LIMIT: i32 = 20_000;
/// The greatest band.
pub const BAND_LIMIT: i32 = 40_000;
/// The greatest number of slots.
pub const SLOT_LIMIT: usize = 512;
/// The greatest budget.
pub const BUDGET_LIMIT: u64 = 1_023;
/// The greatest step of the air duct, and the greatest flow.
pub const STEP_LIMIT: u64 = 400;
pub const FLOW_LIMIT: u64 = 1_000;
/// The bytes of the longest line of the first two, as `-200,004`, and of the longest setpoint line, with an own band, each
/// with its end.
pub const LONGEST_FIRST_LINE: usize = 8 + 1;
pub const LONGEST_SETPOINT_LINE: usize = 8 + 1 + 8 + 1;
/// The bytes of the longest text that is accepted.
pub const LONGEST_TEXT: usize = 2 * LONGEST_FIRST_LINE + SLOT_LIMIT * LONGEST_SETPOINT_LINE;
