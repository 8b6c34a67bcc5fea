//! The cheapest set of switches whose operation ends in a safe configuration that feeds every restorable element, the
//! first of several.
//!
//! Only the last configuration needs a look. Openings come first and are in the dark; and a safe configuration stays
//! safe with closed links left out, so each one on the way, which has fewer links closed than the last, is safe too.
//!
//! With all live nodes taken as one, the switches closed in the last configuration make a spanning tree of the nodes.
//! The search grows it from the live nodes, always over the lightest switch that leads on: if nothing is overloaded
//! on the way, that makes the lightest tree there is, unless guards that several switches share decide otherwise.
use super::accepted::SWITCHES;
use super::bits;
use super::feeding::{Feed, Feeding};
use super::guards::Shared;
use super::supply::Supply;
use super::weights::Weights;

/// The least weight of such a set. The feeding has its switches in the order of their weights, and feeds live nodes
/// alone.
pub fn lightest(feeding: &mut Feeding, weights: &Weights) -> Option<i64> {
    let (stage, supply) = (Stage::first(feeding, weights), Supply::of(feeding));
    if feeding.lumped.too_small != 0 || supply.falls_short(feeding, stage.leading(), stage.load) {
        return None;
    }
    let mut search = Search { feeding, supply, weight: weights.closed, shared: &weights.shared, best: i64::MAX };
    search.grow(stage);
    (search.best < i64::MAX).then_some(search.best)
}

struct Search<'a, 'b> {
    feeding: &'a mut Feeding<'b>,
    supply: Supply,
    /// what each switch weighs when it is closed
    weight: [i64; SWITCHES],
    shared: &'a Shared,
    best: i64,
}

/// A tree grown so far.
#[derive(Clone, Copy)]
struct Stage {
    /// the switches that aren't excluded
    free: u16,
    /// the switches with one end in the tree
    cut: u16,
    /// the nodes outside, and their load
    waiting: u32,
    load: i64,
    /// no tree grown from this one weighs less: each node outside is joined over one of its switches
    least: i64,
    /// the switches that share a guard which isn't paid yet
    owing: u16,
}

impl Stage {
    fn first(feeding: &Feeding, weights: &Weights) -> Stage {
        let nodes = &feeding.nodes;
        let free = nodes.usable;
        let cut = bits(nodes.live as u128).fold(0, |cut, node| cut ^ nodes.at[node]);
        let lightest = |node: usize| weights.closed[(nodes.at[node] & free).trailing_zeros() as usize];
        let least = bits(nodes.waiting as u128).map(lightest).sum::<i64>();
        let load = feeding.lumped.total.iter().sum();
        let (least, owing) = (weights.all_open + least, weights.shared.switches);
        let stage = Stage { free, cut, waiting: nodes.waiting, load, least, owing };
        stage.operated(&weights.shared, nodes.closed & !free)
    }

    /// With the guards of these switches paid.
    fn operated(mut self, shared: &Shared, switches: u16) -> Stage {
        if switches & self.owing != 0 {
            self.least += shared.pay(switches, &mut self.owing);
        }
        self
    }

    /// The switches that lead from the tree to a node outside.
    fn leading(&self) -> u16 {
        self.free & self.cut
    }
}

impl Search<'_, '_> {
    /// Looks for a lighter tree; hands back whether none is lighter than the best one now even if nothing were
    /// overloaded.
    fn grow(&mut self, mut stage: Stage) -> bool {
        if stage.least >= self.best {
            return true;
        }
        if stage.waiting == 0 {
            self.best = stage.least;
            return true;
        }
        let mut all = true;
        loop {
            let feed = self.feed_over(stage.leading().trailing_zeros() as usize, &stage);
            if self.feeding.feed(feed) {
                self.supply.hang(self.feeding, feed);
                let done = self.grow(self.joined(&stage, feed));
                self.supply.unhang(self.feeding, feed);
                self.feeding.part(feed);
                if done && self.is_first(&stage, feed.switch) {
                    return all;
                }
            }
            all = false;
            if !self.exclude(&mut stage, feed) {
                return false;
            }
        }
    }

    /// The feed of the waiting node at this switch from the other one.
    fn feed_over(&self, switch: usize, stage: &Stage) -> Feed {
        let [a, b] = self.feeding.nodes.switches[switch].nodes.map(usize::from);
        if stage.waiting >> a & 1 == 1 {
            Feed { from: b, to: a, switch }
        } else {
            Feed { from: a, to: b, switch }
        }
    }

    fn joined(&self, stage: &Stage, feed: Feed) -> Stage {
        let at = self.feeding.nodes.at[feed.to];
        let lightest = (at & stage.free).trailing_zeros() as usize;
        let joined = Stage {
            free: stage.free,
            cut: stage.cut ^ at,
            waiting: stage.waiting & !(1 << feed.to),
            load: stage.load - self.feeding.lumped.total[feed.to],
            least: stage.least + self.weight[feed.switch] - self.weight[lightest],
            owing: stage.owing,
        };
        joined.operated(self.shared, self.unlike(at & stage.leading(), feed.switch))
    }

    /// Of these switches, those that aren't as at the start once this one is closed and the others are open.
    fn unlike(&self, switches: u16, closed: usize) -> u16 {
        switches & self.feeding.nodes.closed ^ 1 << closed
    }

    /// Whether every tree grown without this lightest switch that leads on weighs more than one with it, which has it
    /// in the place of another one that leads on: so it is if no guard is to be paid for the exchange.
    fn is_first(&self, stage: &Stage, switch: usize) -> bool {
        stage.owing & self.unlike(stage.leading(), switch) == 0
    }

    /// Goes without a switch; hands back whether a lighter tree is still possible.
    fn exclude(&self, stage: &mut Stage, feed: Feed) -> bool {
        let nodes = &self.feeding.nodes;
        let at = nodes.at[feed.to];
        let before = (at & stage.free).trailing_zeros() as usize;
        stage.free &= !(1 << feed.switch);
        if self.cut_off(stage, feed.to) {
            return false;
        }
        let after = (at & stage.free).trailing_zeros() as usize;
        stage.least += self.weight[after] - self.weight[before];
        *stage = stage.operated(self.shared, 1 << feed.switch & nodes.closed);
        stage.least < self.best && !self.supply.falls_short(self.feeding, stage.leading(), stage.load)
    }

    /// Whether no free switches join a node to the tree.
    fn cut_off(&self, stage: &Stage, node: usize) -> bool {
        let nodes = &self.feeding.nodes;
        let (mut met, mut leading) = (1u32 << node, nodes.at[node] & stage.free);
        while leading & stage.cut == 0 {
            if leading == 0 {
                return true;
            }
            let [a, b] = nodes.switches[leading.trailing_zeros() as usize].nodes;
            let next = if met >> a & 1 == 1 { b } else { a };
            met |= 1 << next;
            leading ^= nodes.at[next as usize] & stage.free;
        }
        false
    }
}
