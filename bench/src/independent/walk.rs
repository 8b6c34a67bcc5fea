//! Trees of a configuration walked from their roots: every element behind the one that it is seen from.
use super::neighbours::Neighbours;
use super::network::ELEMENTS;

pub struct Walk {
    order: [u8; ELEMENTS],
    count: usize,
    /// the neighbour towards the root; a root's is itself
    pub from: [u8; ELEMENTS],
}

impl Walk {
    pub fn new() -> Walk {
        Walk { order: [0; ELEMENTS], count: 0, from: [0; ELEMENTS] }
    }

    /// Walks one more tree; hands back its elements as a set.
    pub fn add(&mut self, neighbours: &Neighbours, root: usize) -> u64 {
        let mut at = self.count;
        let mut met = 1 << root;
        self.push(root, root);
        while at < self.count {
            let element = self.order[at] as usize;
            let mut next = neighbours.of(element) & !met;
            met |= next;
            while next != 0 {
                self.push(next.trailing_zeros() as usize, element);
                next &= next - 1;
            }
            at += 1;
        }
        met
    }

    fn push(&mut self, element: usize, from: usize) {
        self.order[self.count] = element as u8;
        self.from[element] = from as u8;
        self.count += 1;
    }

    /// The elements walked so far, those farthest from their root first in each tree.
    pub fn inwards(&self) -> impl Iterator<Item = usize> + '_ {
        self.order[..self.count].iter().rev().map(|&element| element as usize)
    }
}
