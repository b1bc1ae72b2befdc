//! The second program: the documents written anew from the paper alone, and compared with the library for C and with the
//! programs `fire`, `levels`, `flows` and `steps` on many inputs. Where the documents state a law, the library's answers are
//! compared with each other; statements near it that are wrong are refused by the library's answers.

mod built;
mod choices;
mod comparison;
mod coverage;
mod document;
mod groups;
mod inputs;
mod kinds;
mod law_cases;
mod library;
mod orders;
mod program;

use comparison::Comparison;
use std::process::ExitCode;

fn main() -> ExitCode {
    let mut comparison = Comparison::default();
    for (name, group) in groups::ALL {
        let before = comparison.comparisons;
        group(&mut comparison);
        println!("{name:42} {:>9} comparisons", comparison.comparisons - before);
    }
    comparison.coverage.print();
    let complete = comparison.coverage.complete();
    if !complete {
        println!("compare: a 0 above is an outcome that no case has reached");
    }
    println!("compare: {} comparisons, {} differences", comparison.comparisons, comparison.differences);
    if complete && comparison.differences == 0 { ExitCode::SUCCESS } else { ExitCode::FAILURE }
}
