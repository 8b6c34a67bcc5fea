//! A configuration: of each element its neighbours over closed links.
//!
//! Two links side by side count as one here. Both are closed only in a loop, which rule 14 looks for before it matters.
use super::bits;
use super::network::{Network, ELEMENTS};

#[derive(Clone)]
pub struct Neighbours([u64; ELEMENTS]);

impl Neighbours {
    /// The configuration with every link open.
    pub fn none() -> Neighbours {
        Neighbours([0; ELEMENTS])
    }

    pub fn over(network: &Network, links: u128) -> Neighbours {
        let mut neighbours = Neighbours::none();
        bits(links).for_each(|link| neighbours.close(network.ends(link)));
        neighbours
    }

    pub fn close(&mut self, (a, b): (usize, usize)) {
        self.0[a] |= 1 << b;
        self.0[b] |= 1 << a;
    }

    pub fn open(&mut self, (a, b): (usize, usize)) {
        self.0[a] &= !(1 << b);
        self.0[b] &= !(1 << a);
    }

    pub fn of(&self, element: usize) -> u64 {
        self.0[element]
    }

    /// All elements that paths inside a set join to some of its elements.
    pub fn reach(&self, from: u64, within: u64) -> u64 {
        let (mut reached, mut left) = (from, from);
        while left != 0 {
            let element = left.trailing_zeros() as usize;
            left &= left - 1;
            let new = self.0[element] & within & !reached;
            reached |= new;
            left |= new;
        }
        reached
    }

    /// The parts of these elements.
    pub fn parts(&self, elements: u64) -> impl Iterator<Item = u64> + '_ {
        let mut left = elements;
        std::iter::from_fn(move || {
            if left == 0 {
                return None;
            }
            let part = self.reach(left & left.wrapping_neg(), u64::MAX);
            left &= !part;
            Some(part)
        })
    }
}
