//! What the live nodes can still supply to the switches that lead on.
//!
//! A gate is a joint of a live node. It takes in no more than it can bear besides, and if no switch that hangs at it
//! leads on, no more than the gates behind it take in. If the sources take in less than what waits, no tree grown
//! further feeds everything.
use super::bits;
use super::feeding::{Feed, Feeding, NO_JOINT};
use super::nodes::NODES;

/// A live node with n switches has at most 2n - 1 joints.
const GATES: usize = NODES;

pub struct Supply {
    /// of each gate the switches with one end at what hangs there
    switches: [u16; GATES],
    /// of each fed waiting node the gate where it hangs
    gate: [u8; NODES],
    /// the least load of a node
    least: i64,
}

impl Supply {
    pub fn of(feeding: &Feeding) -> Supply {
        let nodes = &feeding.nodes;
        let least = bits(nodes.waiting as u128).map(|node| feeding.lumped.total[node]).min().unwrap_or(0);
        let mut supply = Supply { switches: [0; GATES], gate: [0; NODES], least };
        for node in bits(nodes.live as u128) {
            for switch in bits(nodes.at[node] as u128) {
                supply.switches[feeding.joint(node, switch) as usize] |= 1 << switch;
            }
        }
        supply
    }

    /// Takes note of a feed.
    pub fn hang(&mut self, feeding: &Feeding, feed: Feed) {
        let live = feeding.nodes.live >> feed.from & 1 == 1;
        let gate = if live { feeding.joint(feed.from, feed.switch) as u8 } else { self.gate[feed.from] };
        self.gate[feed.to] = gate;
        self.switches[gate as usize] ^= feeding.nodes.at[feed.to];
    }

    /// Takes a note back.
    pub fn unhang(&mut self, feeding: &Feeding, feed: Feed) {
        self.switches[self.gate[feed.to] as usize] ^= feeding.nodes.at[feed.to];
    }

    /// Whether so much load can't be taken in where these switches lead on.
    pub fn falls_short(&self, feeding: &Feeding, leading: u16, load: i64) -> bool {
        let (mut behind, mut total) = ([0; GATES], 0);
        for (gate, joint) in feeding.gates().iter().enumerate() {
            let open = self.switches[gate] & leading != 0 && joint.left >= self.least;
            let taken = if open { joint.left } else { joint.left.min(behind[gate]) };
            if joint.up == NO_JOINT {
                total += taken;
            } else {
                behind[joint.up as usize] += taken;
            }
        }
        total < load
    }
}
