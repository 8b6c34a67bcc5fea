//! The cost of a set of operated switches and its place among the sets of that cost, in one number.
//!
//! A switch operated weighs its cost times 4,096 less a bit of its own, and the lower its link number, the higher
//! that bit. So of two sets the cheaper one weighs less, and of two equally dear ones the one that comes first; and
//! no two sets weigh the same. Guards weigh twice their costs times 4,096.
use super::accepted::{Accepted, SWITCHES};
use super::bits;
use super::guards::{self, Shared};

pub struct Weights {
    /// the operable links, those first that weigh least when they are closed in the end
    pub links: [u8; SWITCHES],
    pub count: usize,
    /// what each of them weighs more when it is closed in the end than when it is open
    pub closed: [i64; SWITCHES],
    /// what they weigh when all are open in the end
    pub all_open: i64,
    /// the guards that these weights are without
    pub shared: Shared,
}

pub const BITS: usize = SWITCHES;

impl Weights {
    pub fn of(accepted: &Accepted) -> Weights {
        let network = &accepted.network;
        let (mut sorted, mut count, mut all_open) = ([(0, 0); SWITCHES], 0, 0);
        let alone = guards::alone(network, accepted.start.operable);
        for link in bits(accepted.start.operable) {
            let mut operated = ((network.cost[link] as i64) << BITS) - (1 << (BITS - 1 - count));
            operated += if alone >> link & 1 == 1 { guards::weight(network, link) } else { 0 };
            let closed = network.closed >> link & 1 == 1;
            all_open += if closed { operated } else { 0 };
            sorted[count] = (if closed { -operated } else { operated }, link as u8);
            count += 1;
        }
        sorted[..count].sort_unstable();
        let (links, closed) = (sorted.map(|(_, link)| link), sorted.map(|(weight, _)| weight));
        let shared = Shared::of(network, &links[..count], !alone);
        Weights { links, count, closed, all_open, shared }
    }

    pub fn links(&self) -> &[u8] {
        &self.links[..self.count]
    }
}

/// The cost of a set of that weight.
pub fn cost(weight: i64) -> u64 {
    ((weight + (1 << BITS) - 1) >> BITS) as u64
}

/// The links of the set of that weight.
pub fn set(accepted: &Accepted, weight: i64) -> u128 {
    let own = ((cost(weight) as i64) << BITS) - weight;
    let operated = bits(accepted.start.operable).enumerate().filter(|&(i, _)| own >> (BITS - 1 - i) & 1 == 1);
    operated.fold(0, |links, (_, link)| links | 1 << link)
}
