//! Which elements a walk over links reaches.
use super::network::Network;

/// An element that was reached, and the one before it on the way; where the walk begins, that is the element itself.
#[derive(Clone, Copy)]
pub struct Reached {
    pub element: usize,
    pub before: usize,
}

/// All that is reached from an element; `leads` says of a link and its far end whether the walk goes there.
pub fn flood(network: &Network, from: usize, leads: impl Fn(usize, usize) -> bool) -> Vec<Reached> {
    let mut seen = vec![false; network.elements.len()];
    seen[from] = true;
    let mut reached = vec![Reached { element: from, before: from }];
    let mut next = 0;
    while next < reached.len() {
        let near = reached[next].element;
        for &link in network.links_at(near) {
            let far = network.links[link].far_end(near);
            if !seen[far] && leads(link, far) {
                seen[far] = true;
                reached.push(Reached { element: far, before: near });
            }
        }
        next += 1;
    }
    reached
}
