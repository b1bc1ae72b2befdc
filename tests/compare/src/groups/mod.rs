//! The groups of comparisons, in the order they are run.

mod air;
mod budgets;
mod filler;
mod firings;
mod first;
mod instances;
mod laws;
mod levels;
mod numbers;
mod offers;
mod own_bands;
mod program;
mod records;
mod self_check;
mod texts;
mod version_2;
mod wrong_laws;

use crate::comparison::Comparison;

pub type Group = fn(&mut Comparison);

pub const ALL: [(&str, Group); 17] = [
    ("the second program against itself", self_check::run),
    ("the documents' instances", instances::run),
    ("levels of all numbers of 16 bits", levels::run),
    ("numbers as typed", numbers::run),
    ("texts, good and damaged", texts::run),
    ("firings: built, restored, checked", firings::run),
    ("slots past the end", filler::run),
    ("the first, where several are smallest", first::run),
    ("a band of its own for a slot", own_bands::run),
    ("budgets", budgets::run),
    ("records, good and damaged", records::run),
    ("records of version 2, by name", version_2::run),
    ("the better of two offers", offers::run),
    ("primary air", air::run),
    ("profiles joined, moved and turned", laws::run),
    ("wrong laws, refused by example", wrong_laws::run),
    ("the program fire", program::run),
];
