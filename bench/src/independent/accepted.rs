//! A network that keeps rules 14 to 18, with what planner and judge need of it.
use super::bits;
use super::network::{Network, ELEMENTS};
use super::reader::Refusal;
use super::start::{refuse_lowest, Start};
use super::walk::Walk;

pub const SWITCHES: usize = 12;

pub struct Accepted {
    pub network: Box<Network>,
    pub start: Start,
    /// its live parts, from their sources
    pub live: Walk,
}

impl Accepted {
    pub fn from(mut network: Box<Network>) -> Result<Accepted, Refusal> {
        let (start, live) = Start::of(&network)?;
        refuse_lowest(17, overloaded(&network, &live))?;
        let count = start.operable.count_ones() as usize;
        if count > SWITCHES {
            return Err(Refusal { rule: 18, place: count as u64 });
        }
        for link in bits(start.operable & network.closed) {
            let ends = network.ends(link);
            network.neighbours.open(ends);
        }
        Ok(Accepted { network, start, live })
    }
}

fn overloaded(network: &Network, live: &Walk) -> u64 {
    let mut behind = [0u64; ELEMENTS];
    let mut over = 0;
    for element in live.inwards() {
        let ratings = network.ratings[element];
        let load = behind[element] + ratings.load as u64;
        over |= ((load > ratings.capacity as u64) as u64) << element;
        behind[live.from[element] as usize] += load;
    }
    over
}
