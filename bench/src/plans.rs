//! Submitted plans, most of them around the printed one.
use crate::independent::{self, Accepted, Reply, Trial};
use crate::random::Random;

/// Link and state wanted.
pub type Step = (usize, u16);

pub const MOST: usize = 255;

/// Steps for a network file; where the network isn't accepted, any steps.
pub fn steps(r: &mut Random, network: &[u8]) -> Vec<Step> {
    // the low byte of the head's link count, which is at most 96
    let links = network[6] as usize;
    if r.one_in(12) {
        return anything(r, links);
    }
    match independent::accept(network) {
        Ok(accepted) => around(r, &accepted, printed(network)),
        Err(_) => anything(r, links),
    }
}

/// The printed plan's steps; none where there is no plan.
pub fn printed(network: &[u8]) -> Vec<Step> {
    match independent::plan(network) {
        Reply::Plan(plan, _) => plan.list().collect(),
        _ => vec![],
    }
}

fn around(r: &mut Random, accepted: &Accepted, mut steps: Vec<Step>) -> Vec<Step> {
    let links = accepted.network.links;
    match r.below(100) {
        0..18 => {}
        18..24 => dropped(r, &mut steps),
        24..32 => added(r, &mut steps, links),
        32..36 => doubled(r, &mut steps),
        36..44 => swapped(r, &mut steps),
        44..54 => again(r, &mut steps),
        54..57 => steps = full(r, steps),
        57..60 => steps.clear(),
        60..66 => r.shuffle(&mut steps),
        66..72 => detour(r, accepted, &mut steps),
        72..75 => turned(r, &mut steps),
        75..86 => steps = safe_or_not(r, accepted),
        86..98 => steps = good(r, accepted, 14, true),
        _ => steps = good(r, accepted, MOST, false),
    }
    steps.truncate(MOST);
    steps
}

/// Steps that any link may have, fixed ones too.
fn anything(r: &mut Random, links: usize) -> Vec<Step> {
    if links == 0 {
        return vec![];
    }
    (0..r.below(6)).map(|_| (r.below(links), r.below(2) as u16)).collect()
}

fn dropped(r: &mut Random, steps: &mut Vec<Step>) {
    if !steps.is_empty() {
        steps.remove(r.below(steps.len()));
    }
}

fn added(r: &mut Random, steps: &mut Vec<Step>, links: usize) {
    if links > 0 {
        steps.insert(r.below(steps.len() + 1), (r.below(links), r.below(2) as u16));
    }
}

fn doubled(r: &mut Random, steps: &mut Vec<Step>) {
    if !steps.is_empty() {
        let at = r.below(steps.len());
        steps.insert(at, steps[at]);
    }
}

fn swapped(r: &mut Random, steps: &mut [Step]) {
    if !steps.is_empty() {
        steps.swap(r.below(steps.len()), r.below(steps.len()));
    }
}

/// One step's state turned round.
fn turned(r: &mut Random, steps: &mut [Step]) {
    if !steps.is_empty() {
        steps[r.below(steps.len())].1 ^= 1;
    }
}

/// Switches of the plan undone and done again, sometimes only undone.
fn again(r: &mut Random, steps: &mut Vec<Step>) {
    if steps.is_empty() {
        return;
    }
    let plan = steps.clone();
    for _ in 0..r.below(6) {
        let (link, state) = r.pick(&plan);
        steps.extend([(link, state ^ 1), (link, state)]);
    }
    if r.one_in(3) {
        let (link, state) = r.pick(&plan);
        steps.push((link, state ^ 1));
    }
}

/// The plan, and its last switches undone and done again: as many steps as a plan file has, or one fewer.
pub fn full(r: &mut Random, mut steps: Vec<Step>) -> Vec<Step> {
    let closings: Vec<Step> = steps.iter().copied().filter(|step| step.1 == 1).collect();
    while !closings.is_empty() && steps.len() + 2 <= MOST {
        let (link, state) = r.pick(&closings);
        steps.extend([(link, state ^ 1), (link, state)]);
    }
    steps
}

/// An operable switch there and back, somewhere in the plan; often one with a guard, if there is one.
fn detour(r: &mut Random, accepted: &Accepted, steps: &mut Vec<Step>) {
    let (any, guarded) = (accepted.start.operable, accepted.network.guarded & accepted.start.operable);
    let drawn = if guarded != 0 && r.one_in(2) { guarded } else { any };
    let operable: Vec<usize> = independent::bits(drawn).collect();
    if !operable.is_empty() {
        let (link, at) = (r.pick(&operable), r.below(steps.len() + 1));
        let at_start = (accepted.network.closed >> link & 1) as u16;
        let state = steps[..at].iter().rev().find(|step| step.0 == link).map_or(at_start, |step| step.1);
        steps.splice(at..at, [(link, state ^ 1), (link, state)]);
    }
}

/// Operable switches that aren't yet in the state wanted, safe or not.
fn safe_or_not(r: &mut Random, accepted: &Accepted) -> Vec<Step> {
    let operable: Vec<usize> = independent::bits(accepted.start.operable).collect();
    let mut closed = accepted.network.closed;
    let mut steps = vec![];
    for _ in 0..if operable.is_empty() { 0 } else { r.from(1, 8) } {
        let link = r.pick(&operable);
        closed ^= 1 << link;
        steps.push((link, (closed >> link & 1) as u16));
    }
    steps
}

/// Good steps drawn one by one, at most that many; `may_stop` says whether they may end once every restorable element
/// is live.
pub fn good(r: &mut Random, accepted: &Accepted, most: usize, may_stop: bool) -> Vec<Step> {
    let operable: Vec<usize> = independent::bits(accepted.start.operable).collect();
    let mut trial = Trial::new(accepted);
    let mut steps = vec![];
    for _ in 0..if operable.is_empty() { 0 } else { 4 * most } {
        let step = (r.pick(&operable), if r.one_in(3) { 0 } else { 1 });
        if steps.len() < most && trial.operate(step.0, step.1).is_ok() {
            steps.push(step);
        }
        if trial.dark() == 0 && r.one_in(4) && may_stop {
            break;
        }
    }
    steps
}
