//! The parts that are left when every operable switch is open, as far as such a switch stands at them: the nodes that
//! plans join.
//!
//! A node is live, faulty or waiting. All elements of a waiting node are dark and restorable and joined by fixed
//! links, since every switch at such an element is operable. An operable switch has a waiting node at one end at
//! least.
use super::accepted::{Accepted, SWITCHES};
use super::network::ELEMENTS;
use super::walk::Walk;

pub const NODES: usize = 2 * SWITCHES;

#[derive(Clone, Copy, Default)]
pub struct Switch {
    /// the elements at its ends, and their nodes
    pub ends: [u8; 2],
    pub nodes: [u8; 2],
}

pub struct Nodes {
    pub count: usize,
    /// of each node its elements
    pub parts: [u64; NODES],
    /// of each node the switches that stand at it
    pub at: [u16; NODES],
    /// sets of nodes
    pub live: u32,
    pub faulty: u32,
    pub waiting: u32,
    pub switches: [Switch; SWITCHES],
    /// the switches that are closed at the start
    pub closed: u16,
    /// the switches with a live or waiting node at both ends, and not the same one: no other one is closed when all
    /// is restored
    pub usable: u16,
    /// of each element the usable switches that stand at it
    pub ports: [u16; ELEMENTS],
    /// the waiting nodes, each from an element with a switch
    pub walk: Walk,
}

impl Nodes {
    /// With the operable links as switches in that order.
    pub fn of(accepted: &Accepted, links: &[u8]) -> Nodes {
        let mut nodes = Nodes {
            count: 0,
            parts: [0; NODES],
            at: [0; NODES],
            live: 0,
            faulty: 0,
            waiting: 0,
            switches: [Switch::default(); SWITCHES],
            closed: 0,
            usable: 0,
            ports: [0; ELEMENTS],
            walk: Walk::new(),
        };
        for (i, &link) in links.iter().enumerate() {
            nodes.put(accepted, i, link);
        }
        nodes
    }

    fn put(&mut self, accepted: &Accepted, i: usize, link: u8) {
        let (a, b) = accepted.network.ends(link as usize);
        let nodes = [a, b].map(|element| self.node(accepted, element));
        nodes.iter().for_each(|&node| self.at[node] |= 1 << i);
        if nodes[0] != nodes[1] && (self.faulty >> nodes[0] | self.faulty >> nodes[1]) & 1 == 0 {
            self.usable |= 1 << i;
            self.ports[a] |= 1 << i;
            self.ports[b] |= 1 << i;
        }
        self.closed |= ((accepted.network.closed >> link & 1) as u16) << i;
        self.switches[i] = Switch { ends: [a as u8, b as u8], nodes: nodes.map(|node| node as u8) };
    }

    fn node(&mut self, accepted: &Accepted, element: usize) -> usize {
        match self.parts[..self.count].iter().position(|part| part >> element & 1 == 1) {
            Some(node) => node,
            None => self.add(accepted, element),
        }
    }

    fn add(&mut self, accepted: &Accepted, element: usize) -> usize {
        let (node, start, neighbours) = (self.count, &accepted.start, &accepted.network.neighbours);
        let part = if start.waiting() >> element & 1 == 1 {
            self.waiting |= 1 << node;
            self.walk.add(neighbours, element)
        } else {
            let set = if start.live >> element & 1 == 1 { &mut self.live } else { &mut self.faulty };
            *set |= 1 << node;
            neighbours.reach(1 << element, u64::MAX)
        };
        self.parts[node] = part;
        self.count += 1;
        node
    }
}
