//! Loads with spurs lumped: what hangs behind an element without a switch on its way never changes, so it counts as
//! the element's own load.
use super::accepted::Accepted;
use super::bits;
use super::network::{Network, ELEMENTS};
use super::nodes::{Nodes, NODES};
use super::walk::Walk;

pub struct Lumped {
    pub load: [i64; ELEMENTS],
    /// the elements that are no part of a spur
    pub kept: u64,
    /// of each waiting node the load of all its elements
    pub total: [i64; NODES],
    /// the elements that are too small for their own load and the spurs behind them, which none in a live part is
    pub too_small: u64,
}

impl Lumped {
    pub fn of(accepted: &Accepted, nodes: &Nodes) -> Lumped {
        let network = &accepted.network;
        let load = std::array::from_fn(|e| network.ratings[e].load as i64);
        let kept = (0..ELEMENTS).fold(network.sound, |set, e| set | ((nodes.ports[e] != 0) as u64) << e);
        let mut lumped = Lumped { load, kept, total: [0; NODES], too_small: 0 };
        lumped.lump(network, &accepted.live);
        lumped.lump(network, &nodes.walk);
        bits(nodes.waiting as u128).for_each(|node| lumped.total[node] = network.load_of(nodes.parts[node]) as i64);
        lumped
    }

    fn lump(&mut self, network: &Network, walk: &Walk) {
        for element in walk.inwards() {
            let from = walk.from[element] as usize;
            self.too_small |= ((self.load[element] > network.ratings[element].capacity as i64) as u64) << element;
            if self.kept >> element & 1 == 1 {
                self.kept |= 1 << from;
            } else {
                self.load[from] += self.load[element];
            }
        }
    }
}
