//! What document 02's F-5 chooses from, counted.

use crate::document::synopsis::Term;

/// Profiles, counted by what F-5 chooses from: the first and the last of the best synopses are one, have terms at the
/// same nodes, or at others.
#[derive(Default)]
pub struct Choices {
    none: u64,
    of_values: u64,
    of_nodes: u64,
}

impl Choices {
    pub fn note(&mut self, first: &[Term], last: &[Term]) {
        let nodes = |terms: &[Term]| terms.iter().map(|term| term.node).collect::<Vec<usize>>();
        if first == last {
            self.none += 1;
        } else if nodes(first) == nodes(last) {
            self.of_values += 1;
        } else {
            self.of_nodes += 1;
        }
    }

    pub fn print(&self, profiles: &str) {
        let several = self.of_values + self.of_nodes;
        println!(
            "{profiles}: {}, of which with several best synopses: {several}, the last with terms at other nodes than the first: {}",
            self.none + several,
            self.of_nodes
        );
    }

    pub fn complete(&self) -> bool {
        self.none > 0 && self.of_values > 0 && self.of_nodes > 0
    }
}

/// The choices of profiles without special slots and with them.
#[derive(Default)]
pub struct ChoicesOfBoth {
    plain: Choices,
    special: Choices,
}

impl ChoicesOfBoth {
    pub fn note(&mut self, has_specials: bool, first: &[Term], last: &[Term]) {
        let choices = if has_specials { &mut self.special } else { &mut self.plain };
        choices.note(first, last);
    }

    pub fn print(&self, profiles: &str) {
        self.plain.print(profiles);
        self.special.print(&format!("{profiles}, with special slots"));
    }

    pub fn complete(&self) -> bool {
        self.plain.complete() && self.special.complete()
    }
}
