//! Every configuration that operable switches can make, each tested once.
use super::safety::is_safe;
use super::start::Start;

/// A configuration by the set of operable switches that aren't as at the start. The lowest link number has the highest
/// bit: of two sets, the larger number comes first in the set order of document 01.
pub type Set = usize;

/// An operable switch: its link number, and its bit in a set.
#[derive(Clone, Copy)]
pub struct Switch {
    pub link: usize,
    pub bit: Set,
}

pub struct Table {
    pub switches: Vec<Switch>,
    pub safe: Vec<bool>,
    /// safe, and every restorable element is live
    pub restored: Vec<bool>,
}

impl Table {
    pub fn of(start: &Start) -> Table {
        let bits = (0..start.operable.len()).rev().map(|place| 1 << place);
        let switches = start.operable.iter().zip(bits).map(|(&link, bit)| Switch { link, bit }).collect();
        let mut table = Table { switches, safe: vec![], restored: vec![] };
        for set in 0..1 << start.operable.len() {
            let mut configuration = start.configuration.clone();
            table.members(set).for_each(|switch| configuration.operate(switch.link));
            table.safe.push(is_safe(&start.network, &configuration));
            table.restored.push(table.safe[set] && start.lowest_dark(&configuration).is_none());
        }
        table
    }

    /// The switches of a set, by rising link number.
    pub fn members(&self, set: Set) -> impl Iterator<Item = Switch> + '_ {
        self.switches.iter().copied().filter(move |switch| set & switch.bit != 0)
    }

    /// All sets, in the set order.
    pub fn sets(&self) -> impl Iterator<Item = Set> {
        (0..self.safe.len()).rev()
    }
}
