//! A configuration, its parts, and what is live in it.
use super::flood::flood;
use super::network::{Form, Network};

/// For each link, whether it is closed.
#[derive(Clone)]
pub struct Configuration(Vec<bool>);

impl Configuration {
    pub fn at_start(network: &Network) -> Configuration {
        Configuration(network.links.iter().map(|link| link.form != Form::Open).collect())
    }

    pub fn is_closed(&self, link: usize) -> bool {
        self.0[link]
    }

    /// Opens a closed switch, closes an open one.
    pub fn operate(&mut self, switch: usize) {
        self.0[switch] = !self.0[switch];
    }
}

/// The elements of a part, by rising number.
pub type Part = Vec<usize>;

/// All parts, by their lowest elements.
pub fn parts(network: &Network, configuration: &Configuration) -> Vec<Part> {
    let mut placed = vec![false; network.elements.len()];
    let mut parts = vec![];
    for lowest in 0..network.elements.len() {
        if placed[lowest] {
            continue;
        }
        let reached = flood(network, lowest, |link, _| configuration.is_closed(link));
        let mut part: Part = reached.iter().map(|reached| reached.element).collect();
        part.sort();
        part.iter().for_each(|&element| placed[element] = true);
        parts.push(part);
    }
    parts
}

/// The sound sources of a part.
pub fn sound_sources(network: &Network, part: &Part) -> Vec<usize> {
    part.iter().copied().filter(|&element| network.elements[element].is_sound_source()).collect()
}

/// For each element, whether its part has a sound source.
pub fn live(network: &Network, configuration: &Configuration) -> Vec<bool> {
    let mut live = vec![false; network.elements.len()];
    for part in parts(network, configuration) {
        let fed = !sound_sources(network, &part).is_empty();
        part.iter().for_each(|&element| live[element] = fed);
    }
    live
}
