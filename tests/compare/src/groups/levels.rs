//! The level of every number of 16 bits, as the program `levels` prints it.

use crate::comparison::Comparison;
use crate::document::synopsis::level;
use crate::program;

pub fn run(comparison: &mut Comparison) {
    let mut found = program::levels().into_iter();
    for number in 0..=u16::MAX {
        comparison.same("a number and its level", &number, Some((number, level(number).into())), found.next());
    }
    comparison.same("a number after the last", &u16::MAX, None, found.next());
}
