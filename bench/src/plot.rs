//! A large network that is being drawn: 64 elements, 96 links, 12 operable switches, ample capacities.
//!
//! The operable switches are placed so that many sets of them feed everything: with all live parts taken as one, such
//! a set leaves a spanning tree of the parts closed, so switches are moved as long as that makes more spanning trees.
//! There are some 400 at most.
use crate::draft::{Draft, CLOSED, FIXED, OPEN};
use crate::independent::{ELEMENTS, LINKS, SWITCHES};
use crate::random::Random;
use crate::spanning;

pub struct Plot {
    pub draft: Draft,
    /// the live parts, then the dark ones; the first element of a live part is its source
    pub parts: Vec<Vec<usize>>,
    pub sources: usize,
}

/// How parts are drawn.
#[derive(Clone, Copy)]
pub struct Style {
    /// parts are chains with switches at their ends, else trees with switches anywhere
    pub chains: bool,
    /// the source of a live part has so many branches and no switch; 0 for any and anywhere
    pub branches: usize,
    /// the most that a switch costs
    pub dearest: usize,
}

/// More than all loads together.
pub const AMPLE: u32 = 60_000;
/// So many times a switch is tried elsewhere.
const MOVES: usize = 80;

impl Plot {
    pub fn new(r: &mut Random, sources: usize, dark: usize, style: Style) -> Plot {
        let mut plot = Plot { draft: Draft::default(), parts: vec![vec![]; sources + dark], sources };
        plot.add_elements(r, style);
        plot.add_switches(r, style);
        plot.fill(r, style);
        plot
    }

    /// Every part has an element more than its first and its branches, so that a switch can stand behind them.
    fn add_elements(&mut self, r: &mut Random, style: Style) {
        let groups = self.parts.len();
        for e in 0..ELEMENTS {
            let group = if e < (style.branches + 2) * groups { e % groups } else { r.below(groups) };
            self.draft.add_element(r.from(1, 9) as u32, AMPLE, (e < self.sources) as u16);
            if e >= groups {
                let near = self.near(r, group, style);
                self.draft.add_link((near, e), FIXED, 0);
            }
            self.parts[group].push(e);
        }
    }

    /// The element of a part that its next one is joined to.
    fn near(&self, r: &mut Random, group: usize, style: Style) -> usize {
        let part = &self.parts[group];
        if group < self.sources && style.branches > 0 {
            return if part.len() <= style.branches { part[0] } else { r.pick(&part[1..]) };
        }
        if style.chains { part[part.len() - 1] } else { r.pick(part) }
    }

    fn add_switches(&mut self, r: &mut Random, style: Style) {
        let mut pairs: Vec<(usize, usize)> = vec![];
        while pairs.len() < SWITCHES {
            pairs.extend(self.pair(r, &pairs));
        }
        for _ in 0..MOVES {
            pairs = self.moved(r, pairs);
        }
        for (a, b) in pairs {
            let ends = (self.place(r, a, style), self.place(r, b, style));
            self.draft.add_link(ends, OPEN, r.from(1, style.dearest) as u16);
        }
    }

    /// Two parts for a switch, the second one dark, unless they are dark both and have one already.
    fn pair(&self, r: &mut Random, pairs: &[(usize, usize)]) -> Option<(usize, usize)> {
        let groups = self.parts.len();
        let (a, b) = (r.below(groups), r.from(self.sources, groups - 1));
        (a < b && (a < self.sources || !pairs.contains(&(a, b)))).then_some((a, b))
    }

    /// With one switch elsewhere, if there are no fewer spanning trees then.
    fn moved(&self, r: &mut Random, pairs: Vec<(usize, usize)>) -> Vec<(usize, usize)> {
        let mut others = pairs.clone();
        others.swap_remove(r.below(SWITCHES));
        let Some(pair) = self.pair(r, &others) else { return pairs };
        others.push(pair);
        let nodes = self.parts.len() + 1 - self.sources;
        let trees = |pairs: &[(usize, usize)]| spanning::trees(nodes, &self.as_one(pairs));
        if trees(&others) >= trees(&pairs) { others } else { pairs }
    }

    /// The pairs with all live parts taken as node 0.
    fn as_one(&self, pairs: &[(usize, usize)]) -> Vec<(usize, usize)> {
        let node = |part: usize| (part + 1).saturating_sub(self.sources);
        pairs.iter().map(|&(a, b)| (node(a), node(b))).collect()
    }

    /// Where a switch stands at a part.
    fn place(&self, r: &mut Random, part: usize, style: Style) -> usize {
        let from = if part < self.sources && style.branches > 0 { 1 } else { 0 };
        let part = &self.parts[part][from..];
        if style.chains && from == 0 {
            return r.pick(&[part[0], part[part.len() - 1]]);
        }
        r.pick(part)
    }

    /// Open switches between live elements, which nobody may operate.
    fn fill(&mut self, r: &mut Random, style: Style) {
        let live = self.parts[..self.sources].concat();
        while self.draft.links.len() < LINKS {
            let (a, b) = (r.pick(&live), r.pick(&live));
            if a != b {
                self.draft.add_link((a, b), OPEN, r.from(1, style.dearest) as u16);
            }
        }
    }

    /// Closes some switches in the dark, where no loop comes of it.
    pub fn close_some(&mut self, r: &mut Random, most: usize) {
        let mut part_of: Vec<usize> = vec![0; ELEMENTS];
        self.parts.iter().enumerate().for_each(|(part, elements)| elements.iter().for_each(|&e| part_of[e] = part));
        for _ in 0..r.below(most + 1) {
            let link = r.below(self.draft.links.len());
            let (a, b) = self.draft.links[link].ends;
            let (a, b) = (part_of[a], part_of[b]);
            if self.draft.links[link].form == OPEN && a != b && a.min(b) >= self.sources {
                self.draft.links[link].form = CLOSED;
                part_of.iter_mut().filter(|part| **part == b).for_each(|part| *part = a);
            }
        }
    }

    pub fn load_of(&self, elements: &[usize]) -> u32 {
        elements.iter().map(|&e| self.draft.elements[e].load).sum()
    }
}
