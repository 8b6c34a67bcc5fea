//! What guards cost and weigh.
//!
//! The guard of a single operable switch is paid when that one is operated, so it adds to the weight of the switch. One
//! that several of them share is paid with the first of these that is operated.
use super::accepted::SWITCHES;
use super::bits;
use super::network::Network;
use super::weights::BITS;

/// The cost of an operation where some guards are paid, which its own one then is too.
pub fn cost(network: &Network, link: usize, paid: &mut u128) -> u64 {
    let guard = if network.guarded >> link & 1 == 1 { 1 << network.guard[link] } else { 0 };
    let unpaid = guard & !*paid;
    *paid |= guard;
    let doubled: u64 = bits(unpaid).map(|guard| 2 * network.cost[guard] as u64).sum();
    network.cost[link] as u64 + doubled
}

/// What the guard of a switch weighs.
pub fn weight(network: &Network, link: usize) -> i64 {
    2 * (network.cost[network.guard[link] as usize] as i64) << BITS
}

/// The links of these whose guard is no other one's of them.
pub fn alone(network: &Network, links: u128) -> u128 {
    let guarded = links & network.guarded;
    let (mut guards, mut shared) = (0u128, 0u128);
    for link in bits(guarded) {
        let guard = 1 << network.guard[link];
        shared |= guards & guard;
        guards |= guard;
    }
    bits(guarded).filter(|&link| shared >> network.guard[link] & 1 == 0).fold(0, |set, link| set | 1 << link)
}

/// The guards that several switches share.
pub struct Shared {
    /// these switches, and of each the weight of its guard and all those that share it
    pub switches: u16,
    weight: [i64; SWITCHES],
    sharing: [u16; SWITCHES],
}

impl Shared {
    /// By these links as switches, in that order, as far as they are among some others.
    pub fn of(network: &Network, links: &[u8], among: u128) -> Shared {
        let mut shared = Shared { switches: 0, weight: [0; SWITCHES], sharing: [0; SWITCHES] };
        let shares = |link: u8| (network.guarded & among) >> link & 1 == 1;
        let guard = |link: u8| network.guard[link as usize];
        for (i, &link) in links.iter().enumerate().filter(|&(_, &link)| shares(link)) {
            let same = |other: u8| shares(other) && guard(other) == guard(link);
            shared.switches |= 1 << i;
            shared.weight[i] = weight(network, link as usize);
            shared.sharing[i] = (0..links.len()).fold(0, |set, j| set | (same(links[j]) as u16) << j);
        }
        shared
    }

    /// What the guards of the switches operated weigh, as far as they are owed, which they then no longer are.
    pub fn pay(&self, operated: u16, owing: &mut u16) -> i64 {
        let mut sum = 0;
        while operated & *owing != 0 {
            let switch = (operated & *owing).trailing_zeros() as usize;
            sum += self.weight[switch];
            *owing &= !self.sharing[switch];
        }
        sum
    }
}
