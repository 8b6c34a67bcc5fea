//! Steps taken one by one from the starting configuration.
use super::accepted::Accepted;
use super::bits;
use super::feeding::{Feed, Feeding};
use super::guards;
use super::nodes::NODES;
use super::search::lightest;
use super::weights::{self, Weights};

/// A safe configuration that steps have led to, and their cost.
pub struct Trial<'a> {
    accepted: &'a Accepted,
    weights: Weights,
    feeding: Feeding<'a>,
    /// the switches that are closed
    closed: u16,
    /// the nodes that are live
    live: u32,
    /// of each node the feed that makes it live
    feeds: [Feed; NODES],
    /// the guards of the switches operated
    paid: u128,
    pub cost: u64,
}

impl<'a> Trial<'a> {
    pub fn new(accepted: &'a Accepted) -> Self {
        let weights = Weights::of(accepted);
        let feeding = Feeding::new(accepted, weights.links());
        let (closed, live) = (feeding.nodes.closed, feeding.nodes.live);
        Trial { accepted, weights, feeding, closed, live, feeds: [Feed::default(); NODES], paid: 0, cost: 0 }
    }

    /// Takes a step, or says by its reason why it is bad and takes none.
    pub fn operate(&mut self, link: usize, state: u16) -> Result<(), u64> {
        let Some(switch) = self.weights.links().iter().position(|&l| l as usize == link) else { return Err(1) };
        if self.closed >> switch & 1 == state {
            return Err(2);
        }
        if state == 0 {
            self.open(switch);
        } else if !self.close(switch) {
            return Err(3);
        }
        self.closed ^= 1 << switch;
        self.cost += guards::cost(&self.accepted.network, link, &mut self.paid);
        Ok(())
    }

    /// Whether the configuration with this switch closed is safe: only the part that it makes can be unsafe.
    fn close(&mut self, switch: usize) -> bool {
        let [a, b] = self.feeding.nodes.switches[switch].nodes.map(usize::from);
        match [a, b].map(|node| self.live >> node & 1 == 1) {
            // a loop or two sources
            [true, true] => false,
            [true, false] => self.feed_part(Feed { from: a, to: b, switch }),
            [false, true] => self.feed_part(Feed { from: b, to: a, switch }),
            // a loop or nothing that matters in the dark
            [false, false] => self.part(a) >> b & 1 == 0,
        }
    }

    /// Opens a switch, which is always safe: it leaves two trees with no more sources, faults and loads than the one
    /// before.
    fn open(&mut self, switch: usize) {
        let [a, b] = self.feeding.nodes.switches[switch].nodes.map(usize::from);
        if (self.live >> a & self.live >> b) & 1 == 1 {
            let far = if self.feeds[a].switch == switch && self.feeding.nodes.live >> a & 1 == 0 { a } else { b };
            self.closed ^= 1 << switch;
            let part = self.part(far);
            self.closed ^= 1 << switch;
            self.darken(part);
        }
    }

    /// The nodes that closed switches join to one.
    fn part(&self, node: usize) -> u32 {
        let (mut met, mut left) = (1u32 << node, 1u32 << node);
        while left != 0 {
            let node = left.trailing_zeros() as usize;
            left &= left - 1;
            for switch in bits((self.feeding.nodes.at[node] & self.closed) as u128) {
                let [a, b] = self.feeding.nodes.switches[switch].nodes;
                let new = (1 << a | 1 << b) & !met;
                met |= new;
                left |= new;
            }
        }
        met
    }

    /// Feeds a dark part, node by node, unless it has a fault or something would be overloaded.
    fn feed_part(&mut self, first: Feed) -> bool {
        let part = self.part(first.to);
        if part & self.feeding.nodes.faulty != 0 {
            return false;
        }
        let mut fed = 0;
        let mut left = [first; NODES];
        let mut count = 1;
        while count > 0 {
            count -= 1;
            let feed = left[count];
            if !self.feeding.feed(feed) {
                self.darken(fed);
                return false;
            }
            self.feeds[feed.to] = feed;
            fed |= 1 << feed.to;
            let leading = self.feeding.nodes.at[feed.to] & self.closed & !(1 << feed.switch);
            for switch in bits(leading as u128) {
                let [a, b] = self.feeding.nodes.switches[switch].nodes.map(usize::from);
                left[count] = Feed { from: feed.to, to: if a == feed.to { b } else { a }, switch };
                count += 1;
            }
        }
        self.live |= fed;
        true
    }

    /// Takes the feeds of these nodes back.
    fn darken(&mut self, nodes: u32) {
        bits(nodes as u128).for_each(|node| self.feeding.part(self.feeds[node]));
        self.live &= !nodes;
    }

    /// The restorable elements that are dark now.
    pub fn dark(&self) -> u64 {
        let nodes = &self.feeding.nodes;
        bits((nodes.waiting & !self.live) as u128).fold(0, |dark, node| dark | nodes.parts[node])
    }

    /// The least cost of a valid plan; there is one, as the steps taken are valid.
    pub fn cheapest(&mut self) -> u64 {
        self.darken(self.live & !self.feeding.nodes.live);
        let least = lightest(&mut self.feeding, &self.weights).expect("the submitted plan is valid");
        weights::cost(least)
    }
}
