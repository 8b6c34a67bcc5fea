//! The start of an accepted network: rules 14 to 18, and what planner and judge ask about it.
use super::configuration::{live, Configuration};
use super::network::Network;
use super::refusal::Refusal;
use super::restoration::{operable, restorable};
use super::safety::broken_rule;

const MOST_OPERABLE: usize = 12;

pub struct Start {
    pub network: Network,
    pub configuration: Configuration,
    pub restorable: Vec<bool>,
    pub operable: Vec<usize>,
}

impl Start {
    pub fn of(network: Network) -> Result<Start, Refusal> {
        let configuration = Configuration::at_start(&network);
        if let Some(refusal) = broken_rule(&network, &configuration) {
            return Err(refusal);
        }
        let restorable = restorable(&network);
        let operable = operable(&network, &live(&network, &configuration), &restorable);
        if MOST_OPERABLE < operable.len() {
            return Err(Refusal { rule: 18, place: operable.len() });
        }
        Ok(Start { network, configuration, restorable, operable })
    }

    /// The lowest restorable element that is dark in a configuration.
    pub fn lowest_dark(&self, configuration: &Configuration) -> Option<usize> {
        let live = live(&self.network, configuration);
        (0..live.len()).find(|&element| self.restorable[element] && !live[element])
    }
}
