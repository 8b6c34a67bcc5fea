//! Large networks that are hard to plan: the sources suffice in all and every element bears its own load, so it
//! mostly takes a search to decide.
use crate::draft::Draft;
use crate::guarded;
use crate::independent::{self, Reply};
use crate::plot::{Plot, Style};
use crate::random::Random;

/// Where such a network has little to spare.
#[derive(Clone, Copy, PartialEq)]
pub enum Tight {
    /// at its two or three sources: together they suffice, but the dark parts must be shared out among them
    Sources,
    /// the same, with parts that are chains and have switches at their ends alone: hardly anything hangs by one link
    /// there
    SourcesOfChains,
    /// at the branches behind its one source, which suffices: only a walk over the loads shows where too much hangs
    Branches,
    /// in the dark, where parts bear little besides their own load: a part must not be fed over too many others,
    /// whatever the source can bear
    Passages,
}

/// What its switches cost.
#[derive(Clone, Copy, PartialEq)]
pub enum Costs {
    /// 1 to 9
    Mixed,
    /// all the same: many sets are equally dear, and a search can't stop by cost before it has the last of its closings
    Equal,
    /// most for the closings of a plan, which stand last in the file too: cheaper sets and earlier ones fail first,
    /// and the plan is found late
    Late,
}

/// Loads of dark parts are multiples of this.
const UNIT: u32 = 20;
/// What a closing of a late plan costs: more than any other switch.
const DEAR: u16 = 12;

/// A network that has no plan for sure where `short` is set and the limit isn't in the dark; else it may have one.
pub fn network(r: &mut Random, tight: Tight, costs: Costs, short: bool) -> Draft {
    let style = style(r, tight, costs);
    let (sources, dark) = (sources(r, tight), r.from(5, 7));
    let mut plot = Plot::new(r, sources, dark, style);
    round(r, &mut plot);
    match tight {
        Tight::Sources | Tight::SourcesOfChains => share(r, &mut plot, whole_parts, short),
        Tight::Branches => share(r, &mut plot, branches, short),
        Tight::Passages => narrow(r, &mut plot),
    }
    plot.close_some(r, 3);
    let draft = plot.draft.renumbered(r);
    if costs == Costs::Late {
        return late(draft);
    }
    draft
}

/// A network that may have a plan, all switches but the first of which have guards.
pub fn guarded(r: &mut Random, tight: Tight, costs: Costs) -> Draft {
    let mut draft = network(r, tight, costs, false);
    guarded::guard_all(r, &mut draft);
    draft
}

/// A network of any of these kinds.
pub fn any(r: &mut Random) -> Draft {
    let tight = r.pick(&[Tight::Sources, Tight::SourcesOfChains, Tight::Branches, Tight::Passages]);
    let costs = r.pick(&[Costs::Mixed, Costs::Equal, Costs::Late]);
    let short = r.one_in(2);
    network(r, tight, costs, short)
}

fn style(r: &mut Random, tight: Tight, costs: Costs) -> Style {
    Style {
        chains: tight == Tight::SourcesOfChains,
        branches: if tight == Tight::Branches { r.from(2, 3) } else { 0 },
        dearest: if costs == Costs::Equal { 1 } else { 9 },
    }
}

fn sources(r: &mut Random, tight: Tight) -> usize {
    match tight {
        Tight::Sources | Tight::SourcesOfChains => r.from(2, 3),
        Tight::Branches => 1,
        Tight::Passages => r.from(1, 2),
    }
}

/// Makes the closings of the plan dear and puts them last, if there is a plan.
fn late(mut draft: Draft) -> Draft {
    if let Reply::Plan(plan, _) = independent::plan(&draft.file()) {
        let closings: Vec<usize> = independent::bits(plan.close).collect();
        closings.iter().for_each(|&link| draft.links[link].cost = DEAR);
        for &link in closings.iter().rev() {
            let last = draft.links.remove(link);
            draft.links.push(last);
        }
    }
    draft
}

/// Makes the load of each dark part a multiple of the unit.
fn round(r: &mut Random, plot: &mut Plot) {
    for part in plot.parts[plot.sources..].to_vec() {
        let load = plot.load_of(&part);
        let units = load.div_ceil(UNIT) + r.below(3) as u32;
        plot.draft.elements[r.pick(&part)].load += units * UNIT - load;
    }
}

/// A live element that bounds what may be fed behind it, and the load behind it at the start.
type Bound = (usize, u32);

/// The sources.
fn whole_parts(plot: &Plot) -> Vec<Bound> {
    plot.parts[..plot.sources].iter().map(|part| (part[0], plot.load_of(part))).collect()
}

/// The first elements of the branches behind the one source. A fixed link leads from an element to a later one.
fn branches(plot: &Plot) -> Vec<Bound> {
    let source = plot.parts[0][0];
    let mut branch: Vec<usize> = (0..plot.draft.elements.len()).collect();
    for &element in &plot.parts[0][1..] {
        let near = plot.draft.links.iter().find(|link| link.ends.1 == element).map_or(source, |link| link.ends.0);
        branch[element] = if near == source { element } else { branch[near] };
    }
    let behind = |first: usize| plot.parts[0].iter().copied().filter(|&e| branch[e] == first).collect::<Vec<_>>();
    plot.parts[0][1..].iter().filter(|&&e| branch[e] == e).map(|&e| (e, plot.load_of(&behind(e)))).collect()
}

/// Shares the dark load out in units, and a rest less than a unit to each. If `short`, a unit is missing, which the
/// rests make up for in all.
fn share(r: &mut Random, plot: &mut Plot, bounds: fn(&Plot) -> Vec<Bound>, short: bool) {
    let (bounds, dark) = (bounds(plot), plot.parts[plot.sources..].concat());
    let mut units = plot.load_of(&dark) / UNIT - short as u32;
    for (i, &(element, load)) in bounds.iter().enumerate() {
        let others = bounds.len() - i - 1;
        let own = if others == 0 { units } else { units * r.from(2, 4) as u32 / (2 + 3 * others as u32).max(4) };
        let rest = r.from(if short { UNIT as usize / 2 } else { 0 }, UNIT as usize - 1) as u32;
        plot.draft.elements[element].capacity = load + own * UNIT + rest;
        units -= own;
    }
}

/// Lets each dark part bear its own load and a few units besides.
fn narrow(r: &mut Random, plot: &mut Plot) {
    for part in plot.parts[plot.sources..].to_vec() {
        let most = plot.load_of(&part) + UNIT * r.below(9) as u32;
        part.iter().for_each(|&e| plot.draft.elements[e].capacity = most);
    }
}
