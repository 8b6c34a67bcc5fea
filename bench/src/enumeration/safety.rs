//! Which of rules 14 to 17 a configuration breaks first; it is safe if it breaks none.
use super::configuration::{parts, sound_sources, Configuration, Part};
use super::flood::{flood, Reached};
use super::network::Network;
use super::refusal::Refusal;

pub fn is_safe(network: &Network, configuration: &Configuration) -> bool {
    broken_rule(network, configuration).is_none()
}

/// The first rule broken, with the lowest element that it names.
pub fn broken_rule(network: &Network, configuration: &Configuration) -> Option<Refusal> {
    let parts = parts(network, configuration);
    let broken = |rule: u64, named: fn(&Network, &Configuration, &Part) -> Vec<usize>| {
        let place = parts.iter().flat_map(|part| named(network, configuration, part)).min()?;
        Some(Refusal { rule, place })
    };
    broken(14, lowest_unless_tree)
        .or_else(|| broken(15, sources_if_two))
        .or_else(|| broken(16, faulty_if_fed))
        .or_else(|| broken(17, overloaded))
}

fn lowest_unless_tree(network: &Network, configuration: &Configuration, part: &Part) -> Vec<usize> {
    let is_closed = |&&link: &&usize| configuration.is_closed(link);
    let closed_at = |&element: &usize| network.links_at(element).iter().filter(is_closed).count();
    // each closed link of the part is counted at both its ends
    let ends: usize = part.iter().map(closed_at).sum();
    if ends == 2 * (part.len() - 1) {
        return vec![];
    }
    vec![part[0]]
}

fn sources_if_two(network: &Network, _: &Configuration, part: &Part) -> Vec<usize> {
    let sources = sound_sources(network, part);
    if sources.len() < 2 {
        return vec![];
    }
    sources
}

fn faulty_if_fed(network: &Network, _: &Configuration, part: &Part) -> Vec<usize> {
    if sound_sources(network, part).is_empty() {
        return vec![];
    }
    part.iter().copied().filter(|&element| network.elements[element].faulty).collect()
}

/// Asked only of trees with at most one sound source.
fn overloaded(network: &Network, configuration: &Configuration, part: &Part) -> Vec<usize> {
    let sources = sound_sources(network, part);
    if sources.is_empty() {
        return vec![];
    }
    let loads = loads(network, configuration, sources[0]);
    part.iter().copied().filter(|&element| network.elements[element].capacity < loads[element]).collect()
}

/// The load at each element of a source's part: every element's own load is added along its way to the source.
fn loads(network: &Network, configuration: &Configuration, source: usize) -> Vec<u64> {
    let reached = flood(network, source, |link, _| configuration.is_closed(link));
    let mut before = vec![source; network.elements.len()];
    reached.iter().for_each(|&Reached { element, before: near }| before[element] = near);
    let mut loads = vec![0; network.elements.len()];
    for Reached { element, .. } in reached {
        let mut on_the_way = element;
        loads[on_the_way] += network.elements[element].load;
        while on_the_way != source {
            on_the_way = before[on_the_way];
            loads[on_the_way] += network.elements[element].load;
        }
    }
    loads
}
