//! The programs `fire`, `levels`, `flows` and `steps`, as `rt ci` or tools/build has proved and built them.

use std::io::{ErrorKind, Write};
use std::process::{Command, Stdio};

const FIRE: &str = concat!(env!("CARGO_MANIFEST_DIR"), "/../../crates/fire/out/fire");
const LEVELS: &str = concat!(env!("CARGO_MANIFEST_DIR"), "/../../crates/levels/out/levels");
const FLOWS: &str = concat!(env!("CARGO_MANIFEST_DIR"), "/../../crates/flows/out/flows");
const STEPS: &str = concat!(env!("CARGO_MANIFEST_DIR"), "/../../crates/steps/out/steps");

/// What the program `fire` prints for a text on its standard input. It need not read all of a long one.
pub fn fire(text: &[u8]) -> Vec<u8> {
    let mut running = Command::new(FIRE).stdin(Stdio::piped()).stdout(Stdio::piped()).spawn().expect(FIRE);
    let mut input = running.stdin.take().expect("the program's standard input");
    match input.write_all(text) {
        Err(error) if error.kind() != ErrorKind::BrokenPipe => panic!("{FIRE}: {error}"),
        _ => drop(input),
    }
    running.wait_with_output().expect(FIRE).stdout
}

/// Each number with its level, as the program `levels` prints them.
pub fn levels() -> Vec<(u16, u16)> {
    numbers_of(&printed(LEVELS))
}

/// What the program `flows` prints.
pub fn flows() -> String {
    printed(FLOWS)
}

/// Each flow with its lowest step, as the program `steps` prints them.
pub fn steps() -> Vec<(u16, u16)> {
    numbers_of(&printed(STEPS))
}

/// What a program without input prints, if it ends well.
fn printed(program: &str) -> String {
    let ended = Command::new(program).output().expect(program);
    assert!(ended.status.success(), "{program}");
    String::from_utf8_lossy(&ended.stdout).into_owned()
}

/// Each number of every line, with what the line gives for it.
fn numbers_of(printed: &str) -> Vec<(u16, u16)> {
    printed.split_inclusive('\n').flat_map(|line| numbers_of_line(line).expect(line)).collect()
}

/// Each number of a line `first to last: result`, with the result.
fn numbers_of_line(line: &str) -> Option<impl Iterator<Item = (u16, u16)>> {
    let (numbers, result) = line.strip_suffix('\n')?.split_once(": ")?;
    let (first, last) = numbers.split_once(" to ")?;
    let (first, last, result): (u16, u16, u16) = (first.parse().ok()?, last.parse().ok()?, result.parse().ok()?);
    (first <= last).then(|| (first..=last).map(move |number| (number, result)))
}
