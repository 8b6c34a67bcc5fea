//! Nodes fed from live ones over closed switches, and what every element on the way can bear besides.
//!
//! A node is viewed from the element where it is fed. Elements of a view with the same switches behind them bear the
//! same loads besides their own, so one joint stands for them all, and has the least of what they can bear. Loads go
//! from joint to joint up to a source.
use super::accepted::{Accepted, SWITCHES};
use super::bits;
use super::nodes::{Nodes, Switch, NODES};
use super::spurs::Lumped;

/// Where a joint or a view has no number.
pub const NO_JOINT: u16 = u16::MAX;
const UNSEEN: u8 = u8::MAX;
/// Room for what most networks need; more is made where they need more.
const USUAL: usize = 32;

struct View {
    /// whether no element is overloaded when nothing hangs behind the node
    fits: bool,
    /// the joint of the element where the node is fed
    top: u16,
    /// of each switch the joint of the element where it stands
    at: [u16; SWITCHES],
}

pub struct Joint {
    /// what it can bear besides
    pub left: i64,
    /// the next joint towards the source
    pub up: u16,
}

pub struct Feeding<'a> {
    accepted: &'a Accepted,
    pub nodes: Nodes,
    pub lumped: Lumped,
    /// those of live nodes first; in a view, those farther from where the node is fed before nearer ones
    joints: Vec<Joint>,
    gates: usize,
    views: Vec<View>,
    /// of each switch the views of the nodes at its ends when they are fed over it
    seen: [[u8; 2]; SWITCHES],
    /// of each fed node its view
    view: [u8; NODES],
}

/// A waiting node fed from a fed one over a switch.
#[derive(Clone, Copy, Default)]
pub struct Feed {
    pub from: usize,
    pub to: usize,
    pub switch: usize,
}

impl<'a> Feeding<'a> {
    /// With the operable links as switches in that order; live nodes are fed.
    pub fn new(accepted: &'a Accepted, links: &[u8]) -> Self {
        let nodes = Nodes::of(accepted, links);
        let lumped = Lumped::of(accepted, &nodes);
        let (joints, views) = (Vec::with_capacity(USUAL), Vec::with_capacity(USUAL));
        let (seen, view) = ([[UNSEEN; 2]; SWITCHES], [0; NODES]);
        let mut feeding = Feeding { accepted, nodes, lumped, joints, gates: 0, views, seen, view };
        for node in bits(feeding.nodes.live as u128) {
            let source = feeding.nodes.parts[node] & accepted.network.sound;
            feeding.view[node] = feeding.look_from(node, source.trailing_zeros() as usize, u16::MAX);
        }
        feeding.gates = feeding.joints.len();
        feeding
    }

    /// The joints of live nodes.
    pub fn gates(&self) -> &[Joint] {
        &self.joints[..self.gates]
    }

    /// Feeds a node, unless an element would be overloaded then.
    pub fn feed(&mut self, feed: Feed) -> bool {
        let Feed { from, to, switch } = feed;
        let view = self.view_of(to, switch);
        let View { fits, top, .. } = self.views[view as usize];
        let joint = self.joint(from, switch);
        if !fits || !self.bear(joint, self.lumped.total[to]) {
            return false;
        }
        if top != NO_JOINT {
            self.joints[top as usize].up = joint;
        }
        self.view[to] = view;
        true
    }

    /// The view of a node that is fed over this switch.
    fn view_of(&mut self, node: usize, switch: usize) -> u8 {
        let Switch { nodes, ends, .. } = self.nodes.switches[switch];
        let side = (nodes[1] as usize == node) as usize;
        if self.seen[switch][side] == UNSEEN {
            self.seen[switch][side] = self.look_from(node, ends[side] as usize, !(1 << switch));
        }
        self.seen[switch][side]
    }

    /// Takes a feed back.
    pub fn part(&mut self, feed: Feed) {
        self.relieve(self.joint(feed.from, feed.switch), NO_JOINT, self.lumped.total[feed.to]);
    }

    /// The joint of the element of a fed node where a switch stands.
    pub fn joint(&self, node: usize, switch: usize) -> u16 {
        self.views[self.view[node] as usize].at[switch]
    }

    /// Puts a load on all joints up to the source, or on none if one can't bear it.
    fn bear(&mut self, first: u16, load: i64) -> bool {
        let mut at = first;
        while at != NO_JOINT {
            let joint = &mut self.joints[at as usize];
            if joint.left < load {
                self.relieve(first, at, load);
                return false;
            }
            joint.left -= load;
            at = joint.up;
        }
        true
    }

    /// Takes a load from the joints up to one that is excluded.
    fn relieve(&mut self, first: u16, end: u16, load: i64) {
        let mut at = first;
        while at != end {
            let joint = &mut self.joints[at as usize];
            joint.left += load;
            at = joint.up;
        }
    }

    /// Makes the view from an element, with these switches behind.
    fn look_from(&mut self, node: usize, element: usize, switches: u16) -> u8 {
        self.views.push(View { fits: false, top: NO_JOINT, at: [NO_JOINT; SWITCHES] });
        let view = self.views.len() - 1;
        if let Some((_, top)) = self.look(view, element, 0, switches) {
            let fits = self.nodes.parts[node] & self.lumped.too_small == 0;
            (self.views[view].fits, self.views[view].top) = (fits, top);
        }
        view as u8
    }

    /// The load at an element and its joint, if it has one; `None` once a load exceeds its capacity.
    fn look(&mut self, view: usize, element: usize, from: u64, switches: u16) -> Option<(i64, u16)> {
        let mut load = self.lumped.load[element];
        let (mut below, mut count) = ([NO_JOINT; SWITCHES], 0);
        let mut next = self.accepted.network.neighbours.of(element) & self.lumped.kept & !from;
        while next != 0 {
            let (more, joint) = self.look(view, next.trailing_zeros() as usize, 1 << element, switches)?;
            load += more;
            if joint != NO_JOINT {
                below[count] = joint;
                count += 1;
            }
            next &= next - 1;
        }
        let joint = self.over(view, self.nodes.ports[element] & switches, &below[..count]);
        let left = self.accepted.network.ratings[element].capacity as i64 - load;
        if joint != NO_JOINT {
            let joint = &mut self.joints[joint as usize];
            joint.left = joint.left.min(left);
        }
        (left >= 0).then_some((load, joint))
    }

    /// The joint of an element where these switches stand, over these joints: a new one where it is no single other
    /// one's.
    fn over(&mut self, view: usize, switches: u16, below: &[u16]) -> u16 {
        if switches == 0 && below.len() <= 1 {
            return below.first().copied().unwrap_or(NO_JOINT);
        }
        let joint = self.joints.len() as u16;
        self.joints.push(Joint { left: i64::MAX, up: NO_JOINT });
        bits(switches as u128).for_each(|switch| self.views[view].at[switch] = joint);
        below.iter().for_each(|&other| self.joints[other as usize].up = joint);
        joint
    }
}
