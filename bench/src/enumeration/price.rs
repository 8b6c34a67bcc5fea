//! What operations cost.
use super::network::Network;

/// Operations cost what their switches do, again at each one; then each link that is the guard of one of these switches
/// costs twice its own cost, once.
pub fn price(network: &Network, operated: impl Iterator<Item = usize>) -> u64 {
    let operated: Vec<usize> = operated.collect();
    let steps: u64 = operated.iter().map(|&link| network.links[link].cost).sum();
    let guards_one = |guard: &usize| operated.iter().any(|&link| network.links[link].guard == Some(*guard));
    let guards = (0..network.links.len()).filter(guards_one);
    steps + guards.map(|guard| 2 * network.links[guard].cost).sum::<u64>()
}
