//! Pairs of valid plans of which the other would win if fewer steps did, or if guards cost nothing.
use super::files::Files;
use crate::records::{links, word};
use std::cmp::Ordering;

pub const KINDS: [&str; 5] = [
    "FIRST at equal cost with more steps",
    "FIRST cheaper with more steps",
    "SECOND cheaper with more steps",
    "FIRST by guards",
    "SECOND by guards",
];

/// A valid plan: its cost, and what could be taken for it.
#[derive(Clone, Copy)]
pub struct Entry {
    pub cost: u64,
    pub steps: usize,
    /// what its steps cost without guards
    pub own: u64,
}

impl Entry {
    /// Of a network file and a plan file of that cost.
    pub fn of(network: &[u8], plan: &[u8], cost: u64) -> Entry {
        let links = links(network);
        let own = |step: &[u8]| word(network, links[word(step, 4) as usize].start + 10) as u64;
        let steps = plan[6..plan.len() - 4].chunks_exact(8);
        Entry { cost, steps: steps.len(), own: steps.map(own).sum() }
    }
}

/// The kinds of such a pair.
pub fn kinds([first, second]: [Entry; 2]) -> Vec<&'static str> {
    let by_steps = match (first.cost.cmp(&second.cost), first.steps.cmp(&second.steps)) {
        (Ordering::Equal, Ordering::Greater) => Some(KINDS[0]),
        (Ordering::Less, Ordering::Greater) => Some(KINDS[1]),
        (Ordering::Greater, Ordering::Less) => Some(KINDS[2]),
        _ => None,
    };
    let by_guards = match (second.cost < first.cost, second.own < first.own) {
        (false, true) => Some(KINDS[3]),
        (true, false) => Some(KINDS[4]),
        _ => None,
    };
    by_steps.into_iter().chain(by_guards).collect()
}

/// The kinds of the plans of files that are accepted, which have these costs where they are valid.
pub fn kinds_of(files: &Files, costs: [Option<u64>; 2]) -> Vec<&'static str> {
    let [Some(first), Some(second)] = costs else { return vec![] };
    let [one, other] = files.plans();
    kinds([Entry::of(&files.network, one, first), Entry::of(&files.network, other, second)])
}
