//! Networks with guards: which earlier switch guards a switch, and what it costs.
use crate::draft::{Draft, Link, CLOSED, OPEN};
use crate::independent::{self, Reply, LINKS};
use crate::random::Random;

/// The network as it is, with guards, or with a guard that decides which plan is the cheapest.
pub fn mixed(r: &mut Random, mut draft: Draft) -> Draft {
    match r.below(8) {
        0..4 => {}
        4..7 => guard(r, &mut draft),
        _ => decide(r, &mut draft),
    }
    draft
}

/// Gives guards to all or some switches that have an earlier one.
pub fn guard(r: &mut Random, draft: &mut Draft) {
    if r.one_in(3) {
        add_idle(r, draft);
    }
    if r.one_in(4) {
        unfix(r, draft);
    }
    let (guards, one_of) = (guards(r, draft), r.pick(&[1, 1, 2, 3]));
    assign(r, draft, &guards, one_of);
    price(r, draft);
}

/// Gives guards to all switches but the first.
pub fn guard_all(r: &mut Random, draft: &mut Draft) {
    let switches = switches(draft);
    let guards = if r.one_in(2) { vec![switches[0]] } else { switches };
    assign(r, draft, &guards, 1);
    price(r, draft);
}

/// Gives some of these guards to one of so many switches behind them; at times always the last one before a switch.
fn assign(r: &mut Random, draft: &mut Draft, guards: &[usize], one_of: usize) {
    let chained = r.one_in(5);
    for link in switches(draft) {
        let earlier = guards.partition_point(|&guard| guard < link);
        if earlier > 0 && r.one_in(one_of) {
            let guard = if chained { guards[earlier - 1] } else { r.pick(&guards[..earlier]) };
            draft.links[link].guard = Some(guard);
        }
    }
}

fn switches(draft: &Draft) -> Vec<usize> {
    (0..draft.links.len()).filter(|&link| draft.links[link].is_switch()).collect()
}

/// The switches that may be guards: any, one to three of them, or those that are operable or aren't.
fn guards(r: &mut Random, draft: &Draft) -> Vec<usize> {
    let switches = switches(draft);
    let operable = independent::start(&draft.file()).map_or(0, |start| start.operable);
    let is_operable = |link: usize| operable >> link & 1 == 1;
    match r.below(8) {
        0..2 => switches,
        2..6 => few(r, switches),
        6 => switches.into_iter().filter(|&link| is_operable(link)).collect(),
        _ => switches.into_iter().filter(|&link| !is_operable(link)).collect(),
    }
}

/// One to three of some switches, mostly low ones, which the most others can have.
fn few(r: &mut Random, switches: Vec<usize>) -> Vec<usize> {
    let low = if r.one_in(4) { switches.len() } else { switches.len().div_ceil(2) };
    let mut some = switches[..low].to_vec();
    r.shuffle(&mut some);
    some.truncate(r.from(1, 3));
    some.sort();
    some
}

/// Often gives all guards other costs: the least or the most that there is, or such that sums tie.
fn price(r: &mut Random, draft: &mut Draft) {
    let guards: Vec<usize> = draft.links.iter().filter_map(|link| link.guard).collect();
    let most = r.pick(&[0, 0, 1, 2, 4, 65_535]);
    if most > 0 {
        guards.into_iter().for_each(|guard| draft.links[guard].cost = r.from(1, most) as u16);
    }
}

/// Puts an open switch between live elements in front of all links, which nobody may operate.
fn add_idle(r: &mut Random, draft: &mut Draft) -> bool {
    let live = independent::start(&draft.file()).map_or(0, |start| start.live);
    let live: Vec<usize> = independent::bits(live as u128).collect();
    if live.len() < 2 || draft.links.len() == LINKS {
        return false;
    }
    let (one, other) = (r.below(live.len()), r.from(1, live.len() - 1));
    let ends = (live[one], live[(one + other) % live.len()]);
    draft.links.insert(0, Link { ends, form: OPEN, cost: r.from(1, 9) as u16, guard: None });
    true
}

/// Makes closed switches of fixed links between live elements, which nobody may operate.
fn unfix(r: &mut Random, draft: &mut Draft) {
    let live = independent::start(&draft.file()).map_or(0, |start| start.live);
    for link in draft.links.iter_mut().filter(|link| !link.is_switch() && live >> link.ends.0 & 1 == 1) {
        (link.form, link.cost) = (CLOSED, r.from(1, 9) as u16);
    }
}

/// Guards some switches of the cheapest plan by one that nobody operates, at such a cost that another plan is as cheap,
/// or nearly so.
fn decide(r: &mut Random, draft: &mut Draft) {
    if !add_idle(r, draft) {
        return guard(r, draft);
    }
    let Some((set, cheapest)) = planned(draft) else { return guard(r, draft) };
    let one_of = r.pick(&[1, 1, 2]);
    for link in independent::bits(set) {
        draft.links[link].guard = if r.one_in(one_of) { Some(0) } else { None };
    }
    draft.links[0].cost = u16::MAX;
    if let Some((_, other)) = planned(draft) {
        let half = ((other - cheapest) / 2) as usize;
        draft.links[0].cost = r.pick(&[half, half, half, half + 1, half.saturating_sub(1)]).clamp(1, 65_535) as u16;
    }
}

/// The links that the printed plan operates, and its cost.
fn planned(draft: &Draft) -> Option<(u128, u64)> {
    match independent::plan(&draft.file()) {
        Reply::Plan(plan, _) => Some((plan.open | plan.close, plan.cost)),
        _ => None,
    }
}
