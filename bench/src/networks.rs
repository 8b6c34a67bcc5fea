//! Random networks of many shapes.
use crate::draft::{Draft, CLOSED, FIXED, NARROW, OPEN};
use crate::independent::{self, ELEMENTS, LINKS, SWITCHES};
use crate::random::Random;

/// A network of one of the shapes below, most of them small.
pub fn network(r: &mut Random) -> Draft {
    match r.below(100) {
        0..17 => scattered(r),
        17..20 => tiny(r),
        20..52 => grown_small(r),
        52..65 => split(r),
        65..73 => parallel(r),
        73..80 => counted(r),
        80..85 => star(r),
        85..92 => overloaded(r),
        92..98 => grown_middle(r),
        _ => grown_large(r),
    }
}

/// A small network, of at most some 200 bytes, of any shape that can be that small.
pub fn brief(r: &mut Random) -> Draft {
    match r.below(100) {
        0..15 => scattered_of(r, 5),
        15..20 => tiny(r),
        20..54 => grown_brief(r),
        54..71 => split(r),
        71..74 => tied(r),
        74..82 => parallel(r),
        82..91 => overloaded(r),
        91..96 => star_of(r, 3),
        _ => many_parallel(r),
    }
}

fn cost(r: &mut Random, most: usize) -> u16 {
    r.from(1, most) as u16
}

/// The most that a switch costs in a network: often all the same, often with ties, sometimes the largest there is.
fn dearest(r: &mut Random) -> usize {
    r.pick(&[1, 1, 2, 3, 4, 9, 100, 65535])
}

/// One to three elements with anything between them.
fn tiny(r: &mut Random) -> Draft {
    let mut draft = Draft::default();
    let n = r.from(1, 3);
    for _ in 0..n {
        let flags = r.pick(&[0, 0, 0, 1, 1, 2, 3]);
        draft.add_element(r.below(3) as u32, r.below(5) as u32, flags);
    }
    for _ in 0..if n > 1 { r.below(5) } else { 0 } {
        let (form, cost) = (r.below(3) as u16, cost(r, 3));
        draft.add_link(two_of(r, n), form, cost);
    }
    draft
}

pub fn two_of(r: &mut Random, n: usize) -> (usize, usize) {
    let a = r.below(n);
    let b = r.below(n - 1);
    (a, if b < a { b } else { b + 1 })
}

fn scattered(r: &mut Random) -> Draft {
    scattered_of(r, 10)
}

/// A few elements with links anywhere, several sources and faults, tight capacities.
fn scattered_of(r: &mut Random, most: usize) -> Draft {
    let n = r.from(2, most);
    let mut draft = Draft::default();
    for e in 0..n {
        let flags = if e == 0 { 1 } else { r.pick(&[0, 0, 0, 0, 0, 0, 1, 1, 2, 3]) };
        draft.add_element(r.below(4) as u32, r.below(12) as u32, flags);
    }
    let most = dearest(r);
    for _ in 0..r.below(2 * n) {
        let (form, cost) = (r.pick(&[FIXED, OPEN, OPEN, OPEN, OPEN, OPEN, CLOSED, CLOSED]), cost(r, most));
        draft.add_link(two_of(r, n), form, cost);
    }
    draft
}

/// What a grown network is made of.
struct Shape {
    elements: usize,
    sources: usize,
    /// parts without a sound source
    dark: usize,
    /// of three dark parts, so many have a fault
    faults: usize,
    /// open switches at a dark part
    ties: usize,
    /// one closed link of so many is a switch in the dark
    switches: usize,
    /// open switches anywhere
    others: usize,
}

fn grown_brief(r: &mut Random) -> Draft {
    let shape = Shape {
        elements: r.from(3, 6),
        sources: r.from(1, 2),
        dark: r.from(1, 3),
        faults: r.below(2),
        ties: r.from(1, 5),
        switches: 2,
        others: r.below(2),
    };
    grown(r, shape)
}

fn grown_small(r: &mut Random) -> Draft {
    let shape = Shape {
        elements: r.from(4, 12),
        sources: r.from(1, 3),
        dark: r.from(1, 5),
        faults: r.below(3),
        ties: r.from(1, 8),
        switches: 3,
        others: r.below(4),
    };
    grown(r, shape)
}

fn grown_middle(r: &mut Random) -> Draft {
    let shape = Shape {
        elements: r.from(12, 40),
        sources: r.from(1, 4),
        dark: r.from(1, 7),
        faults: r.below(3),
        ties: r.from(3, 10),
        switches: 9,
        others: r.below(12),
    };
    grown(r, shape)
}

fn grown_large(r: &mut Random) -> Draft {
    let shape = Shape {
        elements: ELEMENTS,
        sources: r.from(1, 5),
        dark: r.from(2, 8),
        faults: r.below(3),
        ties: r.from(5, 11),
        switches: 30,
        others: LINKS,
    };
    grown(r, shape)
}

/// Trees around sources and in the dark, then open switches between them; a source bears its own tree and some of the
/// dark load.
fn grown(r: &mut Random, shape: Shape) -> Draft {
    let mut draft = Draft::default();
    let groups = (shape.sources + shape.dark).min(shape.elements);
    let (most, loads) = (dearest(r), r.pick(&[1, 2, 4, 4, 9, 1000]));
    let mut members: Vec<Vec<usize>> = vec![vec![]; groups];
    for e in 0..shape.elements {
        let group = if e < groups { e } else { r.below(groups) };
        draft.add_element(r.below(loads) as u32, 0, (e < shape.sources) as u16);
        if e >= groups {
            let switch = if group < shape.sources { r.one_in(2) } else { r.one_in(shape.switches) };
            let (near, cost) = (r.pick(&members[group]), cost(r, most));
            draft.add_link((near, e), if switch { CLOSED } else { FIXED }, cost);
        }
        members[group].push(e);
    }
    for group in members.iter().skip(shape.sources) {
        if r.below(3) < shape.faults {
            draft.elements[r.pick(group)].flags = r.pick(&[2, 2, 2, 3]);
        }
    }
    add_ties(r, &mut draft, &members, &shape, most);
    rate(r, &mut draft, &members, shape.sources);
    draft.renumbered(r)
}

fn add_ties(r: &mut Random, draft: &mut Draft, members: &[Vec<usize>], shape: &Shape, most: usize) {
    let groups = members.len();
    if groups < 2 || groups <= shape.sources {
        return;
    }
    for _ in 0..shape.ties {
        let g = r.from(shape.sources, groups - 1);
        let h = if r.one_in(2) { r.below(shape.sources) } else { r.below(groups) };
        if g != h && draft.links.len() < LINKS {
            let cost = cost(r, most);
            draft.add_link((r.pick(&members[g]), r.pick(&members[h])), OPEN, cost);
        }
    }
    let live = members[..shape.sources].concat();
    for _ in 0..shape.others {
        if live.len() > 1 && draft.links.len() < LINKS {
            let (a, b) = two_of(r, live.len());
            let cost = cost(r, most);
            draft.add_link((live[a], live[b]), OPEN, cost);
        }
    }
}

/// Capacities that the starting loads keep, some of them just so.
fn rate(r: &mut Random, draft: &mut Draft, members: &[Vec<usize>], sources: usize) {
    let loads: Vec<u64> = draft.elements.iter().map(|e| e.load as u64).collect();
    let dark: u64 = members[sources.min(members.len())..].iter().flatten().map(|&e| loads[e]).sum();
    let slack = match r.below(4) {
        0 => dark,
        1 => dark / sources as u64 + 1,
        2 => dark / sources as u64,
        _ => dark / 2 + 1,
    };
    for group in members {
        let own: u64 = group.iter().map(|&e| loads[e]).sum();
        let tight = r.one_in(4);
        for &e in group {
            let more = if tight { r.below(slack as usize + 1) as u64 } else { slack };
            draft.elements[e].capacity = (own + more).min(NARROW as u64) as u32;
        }
    }
}

/// A dark chain between two or three sources of which none bears it alone.
fn split(r: &mut Random) -> Draft {
    let (chain, sources, most) = (r.from(2, 5), r.from(2, 3), dearest(r));
    let mut draft = Draft::default();
    for _ in 0..chain {
        draft.add_element(r.from(1, 2) as u32, 20, r.pick(&[0, 0, 0, 0, 0, 0, 0, 2]));
    }
    for s in 0..sources {
        draft.add_element(0, r.from(1, chain) as u32, 1);
        let (at, cost) = (if s < 2 { s * (chain - 1) } else { r.below(chain) }, cost(r, most));
        draft.add_link((chain + s, at), OPEN, cost);
    }
    for e in 1..chain {
        let (form, cost) = (r.pick(&[CLOSED, CLOSED, CLOSED, OPEN]), cost(r, most));
        draft.add_link((e - 1, e), form, cost);
    }
    draft.renumbered(r)
}

/// Two dark elements that one source can feed by one step, or two others by three steps of the same cost.
fn tied(r: &mut Random) -> Draft {
    let mut draft = Draft::default();
    let most = r.pick(&[1, 3, 9]);
    for (load, capacity, flags) in [(1, 2, 0), (1, 2, 0), (0, 1, 1), (0, 1, 1), (0, 2, 1)] {
        draft.add_element(load, capacity, flags);
    }
    for (ends, form) in [((0, 1), CLOSED), ((0, 2), OPEN), ((1, 3), OPEN)] {
        draft.add_link(ends, form, cost(r, most));
    }
    let three: u16 = draft.links.iter().map(|link| link.cost).sum();
    draft.add_link((r.below(2), 4), OPEN, three);
    draft.renumbered(r)
}

/// Two to four elements in a row with several links side by side.
fn parallel(r: &mut Random) -> Draft {
    let (n, most) = (r.from(2, 4), dearest(r));
    let mut draft = Draft::default();
    for e in 0..n {
        let (load, capacity) = (r.below(3) as u32, r.from(3, 9) as u32);
        draft.add_element(load, capacity, if e == 0 { 1 } else { r.pick(&[0, 0, 0, 0, 1, 2]) });
    }
    for e in 1..n {
        for _ in 0..r.from(1, if n == 2 { 13 } else { 3 }) {
            let cost = cost(r, most);
            draft.add_link((e - 1, e), OPEN, cost);
        }
        if r.one_in(4) {
            draft.links.last_mut().unwrap().form = CLOSED;
        }
    }
    draft.renumbered(r)
}

fn star(r: &mut Random) -> Draft {
    let buses = r.pick(&[11, 12, 12, 12, 13, 13, 14]);
    star_of(r, buses)
}

/// A source with an open switch to each of its dark buses.
fn star_of(r: &mut Random, buses: usize) -> Draft {
    let (most, small) = (dearest(r), r.one_in(3) as u32);
    let mut draft = Draft::default();
    draft.add_element(0, buses as u32 - small, 1);
    for bus in 1..=buses {
        draft.add_element(r.from(1 - small as usize, 1) as u32, 1, 0);
        let cost = cost(r, most);
        draft.add_link((0, bus), OPEN, cost);
    }
    draft.renumbered(r)
}

/// A dark bus with 12 to 15 open switches side by side.
fn many_parallel(r: &mut Random) -> Draft {
    let mut draft = Draft::default();
    draft.add_element(0, 9, 1);
    draft.add_element(1, 9, 0);
    for _ in 0..r.from(12, 15) {
        let cost = cost(r, 3);
        draft.add_link((0, 1), OPEN, cost);
    }
    draft.renumbered(r)
}

/// A grown network with exactly 12 or 13 operable switches, where that can be had by adding ties and leaving some out.
fn counted(r: &mut Random) -> Draft {
    let mut draft = grown_small(r);
    let wanted = r.from(SWITCHES, SWITCHES + 1);
    for _ in 0..40 {
        let Ok(start) = independent::start(&draft.file()) else { return draft };
        let waiting: Vec<usize> = independent::bits(start.waiting() as u128).collect();
        let operable: Vec<usize> = independent::bits(start.operable).collect();
        if waiting.is_empty() || operable.len() == wanted {
            return draft;
        }
        if operable.len() > wanted {
            draft.links.remove(r.pick(&operable));
            continue;
        }
        let (a, b, cost) = (r.pick(&waiting), r.below(draft.elements.len()), cost(r, 3));
        if a != b {
            draft.add_link((a, b), OPEN, cost);
        }
    }
    draft
}

/// A grown network in which a live element may be too small for what it carries at the start.
fn overloaded(r: &mut Random) -> Draft {
    let mut draft = grown_brief(r);
    for element in &mut draft.elements {
        if r.one_in(3) {
            element.capacity = r.below(4) as u32;
        }
    }
    draft
}

/// What keeps a large network from having a plan.
#[derive(Clone, Copy, PartialEq)]
pub enum Kind {
    /// an element that is too small for its own load
    SmallElement,
    /// sources that are too small by a few in all, which a walk finds out last
    SmallSources,
    /// nothing
    Planned,
}

/// 64 elements, 96 links, 12 switches around 4 to 7 dark parts.
pub fn large(r: &mut Random, kind: Kind) -> Draft {
    let (sources, dark) = (r.from(1, 3), r.from(4, 7));
    let groups = sources + dark;
    let mut draft = Draft::default();
    let mut members: Vec<Vec<usize>> = vec![vec![]; groups];
    for e in 0..ELEMENTS {
        draft.add_element(r.below(5) as u32, 2000, (e < sources) as u16);
        let group = if e < groups { e } else { r.below(groups) };
        if !members[group].is_empty() {
            draft.add_link((r.pick(&members[group]), e), FIXED, 0);
        }
        members[group].push(e);
    }
    limit(&mut draft, kind, sources, *members[groups - 1].last().unwrap());
    let mut ties = 0;
    while ties < SWITCHES {
        let g = sources + r.below(dark);
        let h = if r.one_in(3) { r.below(sources) } else { r.below(groups) };
        if g != h {
            let cost = cost(r, 9);
            draft.add_link((r.pick(&members[g]), r.pick(&members[h])), OPEN, cost);
            ties += 1;
        }
    }
    let live = members[..sources].concat();
    while draft.links.len() < LINKS && live.len() > 1 {
        let (a, b) = two_of(r, live.len());
        let cost = cost(r, 9);
        draft.add_link((live[a], live[b]), OPEN, cost);
    }
    r.shuffle(&mut draft.links);
    draft
}

fn limit(draft: &mut Draft, kind: Kind, sources: usize, last: usize) {
    match kind {
        Kind::SmallElement => {
            draft.elements[last].load = 9;
            draft.elements[last].capacity = 8;
        }
        Kind::SmallSources => {
            let total: u32 = draft.elements.iter().map(|e| e.load).sum();
            (0..sources).for_each(|e| draft.elements[e].capacity = total / sources as u32 - 1);
        }
        Kind::Planned => {}
    }
}
