//! Which elements are spoiled, which restorable, and which switches are operable.
use super::flood::flood;
use super::network::{Form, Network};

/// Faulty, or joined to a faulty element by fixed links alone.
fn spoiled(network: &Network) -> Vec<bool> {
    let mut spoiled = vec![false; network.elements.len()];
    for faulty in network.elements_where(|element| element.faulty) {
        let reached = flood(network, faulty, |link, _| network.links[link].form == Form::Fixed);
        reached.iter().for_each(|reached| spoiled[reached.element] = true);
    }
    spoiled
}

/// Reached from an unspoiled source over links of any form, through unspoiled elements only.
pub fn restorable(network: &Network) -> Vec<bool> {
    let spoiled = spoiled(network);
    let mut restorable = vec![false; network.elements.len()];
    for source in network.elements_where(|element| element.source) {
        if !spoiled[source] {
            let reached = flood(network, source, |_, far| !spoiled[far]);
            reached.iter().for_each(|reached| restorable[reached.element] = true);
        }
    }
    restorable
}

/// The switches of which one end is dark and restorable, by rising link number.
pub fn operable(network: &Network, live: &[bool], restorable: &[bool]) -> Vec<usize> {
    let waits = |&end: &usize| !live[end] && restorable[end];
    let is_operable = |&link: &usize| network.links[link].is_switch() && network.links[link].ends.iter().any(waits);
    (0..network.links.len()).filter(is_operable).collect()
}
