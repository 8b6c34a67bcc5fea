//! Feeders with dark regions around them, which must be split where capacities are small, and networks grown at random
//! without a clash.
use crate::draft::{Draft, CLOSED, FIXED, NARROW, OPEN};
use crate::independent::{self, Refusal, ELEMENTS, LINKS, SWITCHES};
use crate::random::Random;

/// What a network is drawn by. Chances are so many in 16.
struct Shape {
    sources: usize,
    /// elements that the sources feed, sources among them, and elements in the dark
    live: usize,
    dark: usize,
    /// switches at dark elements, and how many of these only tie
    switches: usize,
    kept: usize,
    /// open switches between any elements
    ties: usize,
    /// the chances of a faulty element, of a fixed link and of no link at a dark element
    faults: usize,
    fixed: usize,
    alone: usize,
    /// loads are below this, costs at most this
    load: usize,
    cost: usize,
    /// what capacities may have left
    room: usize,
}

/// Mostly small ones; every eighth has loads and costs of which a few pass in sum what two bytes hold.
pub fn network(r: &mut Random) -> Draft {
    let mut draft = match r.below(100) {
        0 => twelve(r, 16),
        1 => twelve(r, 0),
        2..4 => {
            let shape = large_shape(r, 4, SWITCHES + 1);
            planned(r, &shape)
        }
        4..36 => grown(r),
        _ => {
            let shape = region_shape(r);
            planned(r, &shape)
        }
    };
    if r.one_in(8) {
        enlarge(&mut draft);
    }
    draft.renumbered(r)
}

/// A small network of regions or of nothing planned.
pub fn brief(r: &mut Random) -> Draft {
    loop {
        let draft = network(r);
        if draft.elements.len() + draft.links.len() <= 16 {
            return draft;
        }
    }
}

fn chance(r: &mut Random, times: usize) -> bool {
    r.below(16) < times
}

/// Regions around a few sources.
fn region_shape(r: &mut Random) -> Shape {
    let sources = r.from(1, 4);
    Shape {
        sources,
        live: sources + r.below(3),
        dark: r.from(2, 8),
        switches: r.from(3, 10),
        kept: r.from(1, 3),
        ties: r.below(2),
        faults: r.below(4),
        fixed: 3,
        alone: 2,
        load: r.from(1, 5),
        cost: r.from(1, 4),
        room: r.from(3, 14),
    }
}

/// A large network; with the size 16 it has most of the elements and links that a file may have.
fn large_shape(r: &mut Random, size: usize, switches: usize) -> Shape {
    let (sources, size) = (r.from(2, 5), size + r.below(8));
    Shape {
        sources,
        live: sources + 4 + size + r.below(size + 1),
        dark: 8 + size + r.below(size + 1),
        switches: if switches > SWITCHES { switches + r.below(6) } else { switches },
        kept: r.from(4, 7),
        ties: 2 * size + r.below(2 * size + 1),
        faults: r.below(2),
        fixed: r.from(8, 13),
        alone: 1,
        load: r.from(2, 4),
        cost: r.from(1, 5),
        room: r.from(20, 79),
    }
}

/// A large network, drawn again some times until it has as many operable switches as there may be.
fn twelve(r: &mut Random, size: usize) -> Draft {
    let mut draft = Draft::default();
    for _ in 0..32 {
        let shape = large_shape(r, size, SWITCHES);
        draft = planned(r, &shape);
        let accepted = independent::accept(&draft.file());
        if accepted.is_ok_and(|accepted| accepted.start.operable.count_ones() as usize == SWITCHES) {
            break;
        }
    }
    draft
}

/// Feeders, the regions around them, and ties; switches that are left tie dark elements to any others.
fn planned(r: &mut Random, shape: &Shape) -> Draft {
    let mut draft = Draft::default();
    (0..shape.live.min(ELEMENTS)).for_each(|_| add_live(r, &mut draft, shape));
    let mut left = shape.switches;
    (0..shape.dark.min(ELEMENTS - draft.elements.len())).for_each(|_| add_dark(r, &mut draft, shape, &mut left));
    for _ in 0..left {
        let dark = r.from(shape.live, draft.elements.len() - 1);
        let other = r.below(draft.elements.len());
        add_tie(r, &mut draft, dark, if other == dark { 0 } else { other }, shape.cost);
    }
    add_ties(r, &mut draft, shape.ties, shape.cost);
    relieve(r, &mut draft);
    draft
}

/// An element of the feeders: the first ones are sources, each other one hangs on an earlier one.
fn add_live(r: &mut Random, draft: &mut Draft, shape: &Shape) {
    let (load, number) = (r.below(shape.load) as u32, draft.elements.len());
    draft.add_element(load, load + r.below(shape.room) as u32, (number < shape.sources) as u16);
    if number >= shape.sources {
        let form = if chance(r, 5) { FIXED } else { CLOSED };
        draft.add_link((r.below(number), number), form, r.from(1, shape.cost) as u16);
    }
}

/// A dark element, which mostly hangs on an earlier one; `left` counts the switches at dark elements that are left.
fn add_dark(r: &mut Random, draft: &mut Draft, shape: &Shape, left: &mut usize) {
    let (load, number) = (r.below(shape.load) as u32, draft.elements.len());
    let flags = if chance(r, shape.faults) { r.from(2, 3) as u16 } else { 0 };
    draft.add_element(load, load + r.below(shape.room) as u32, flags);
    if number == shape.live || chance(r, shape.alone) {
        return;
    }
    let is_fixed = *left <= shape.kept || (flags == 0 && chance(r, shape.fixed));
    let form = if is_fixed { FIXED } else if chance(r, 3) { OPEN } else { CLOSED };
    *left -= !is_fixed as usize;
    draft.add_link((r.from(shape.live, number - 1), number), form, r.from(1, shape.cost) as u16);
}

fn add_tie(r: &mut Random, draft: &mut Draft, a: usize, b: usize, dearest: usize) {
    if a != b && draft.links.len() < LINKS {
        draft.add_link((a, b), OPEN, r.from(1, dearest) as u16);
    }
}

fn add_ties(r: &mut Random, draft: &mut Draft, ties: usize, dearest: usize) {
    for _ in 0..ties {
        let (a, b) = (r.below(draft.elements.len()), r.below(draft.elements.len()));
        add_tie(r, draft, a, b, dearest);
    }
}

/// Raises capacities by little until none is exceeded at the start.
fn relieve(r: &mut Random, draft: &mut Draft) {
    for _ in 0..200 {
        let Err(Refusal { rule: 17, place }) = independent::accept(&draft.file()) else { return };
        draft.elements[place as usize].capacity += r.from(1, 6) as u32;
    }
}

/// What a part holds.
#[derive(Clone, Copy, PartialEq)]
enum Holds {
    Nothing,
    Source,
    Fault,
}

impl Holds {
    fn of(flags: u16) -> Holds {
        [Holds::Nothing, Holds::Source, Holds::Fault, Holds::Fault][flags as usize]
    }

    /// Whether a closed link must not join two such parts.
    fn clashes(self, other: Holds) -> bool {
        matches!((self, other), (Holds::Source, Holds::Source | Holds::Fault) | (Holds::Fault, Holds::Source))
    }
}

/// A network that is being grown: in which part each element is, and what each part holds.
#[derive(Default)]
struct Growing {
    draft: Draft,
    part_of: Vec<usize>,
    holds: Vec<Holds>,
}

impl Growing {
    /// An element of any flags, in a part of its own.
    fn add_element(&mut self, r: &mut Random) {
        let flags = match r.below(32) {
            0..6 => 1,
            6..9 => 2,
            9 => 3,
            _ => 0,
        };
        self.part_of.push(self.draft.elements.len());
        self.holds.push(Holds::of(flags));
        self.draft.add_element(r.below(5) as u32, r.from(2, 15) as u32, flags);
    }

    /// A link from the last element to an earlier one, open where it would clash.
    fn add_link(&mut self, r: &mut Random) {
        let number = self.draft.elements.len() - 1;
        let near = r.below(number);
        let (part, own) = (self.part_of[near], self.holds[number]);
        let wanted = r.pick(&[FIXED, OPEN, OPEN, OPEN, OPEN, CLOSED, CLOSED, CLOSED]);
        let form = if self.holds[part].clashes(own) { OPEN } else { wanted };
        if form != OPEN {
            self.part_of[number] = part;
            self.holds[part] = if own == Holds::Nothing { self.holds[part] } else { own };
        }
        self.draft.add_link((near, number), form, r.from(1, 4) as u16);
    }
}

fn grown(r: &mut Random) -> Draft {
    let mut growing = Growing::default();
    for number in 0..r.from(1, 10) {
        growing.add_element(r);
        if number > 0 && !chance(r, 1) {
            growing.add_link(r);
        }
    }
    let (mut draft, ties) = (growing.draft, r.below(6));
    add_ties(r, &mut draft, ties, 4);
    if chance(r, 9) {
        relieve(r, &mut draft);
    }
    draft
}

fn enlarge(draft: &mut Draft) {
    for element in &mut draft.elements {
        element.load = (4001 * element.load).min(NARROW);
        element.capacity = (4001 * element.capacity).min(NARROW);
    }
    draft.links.iter_mut().for_each(|link| link.cost = link.cost.saturating_mul(13107));
}
