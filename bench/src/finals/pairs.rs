//! Pairs of plans for one network.
use super::contest::{self, Entry};
use crate::draft::plan_file;
use crate::independent::{self, Mark};
use crate::plans::{self, Step};
use crate::random::Random;

type Steps = Vec<Step>;

/// So many draws for a plan that is wanted; without one, any will do.
const TRIES: usize = 12;
/// Plans of more steps are one in forty, since they take the most bytes.
const SHORT: usize = 20;

/// Two plan files for a network file.
pub fn pair(r: &mut Random, network: &[u8]) -> [Vec<u8>; 2] {
    let [first, second] = steps(r, network);
    [plan_file(&first), plan_file(&second)]
}

/// Any plans, equal ones, ones of equal cost, contested ones, one valid, none valid, or empty ones.
fn steps(r: &mut Random, network: &[u8]) -> [Steps; 2] {
    match r.below(20) {
        0..6 => [any(r, network), any(r, network)],
        6 => {
            let steps = any(r, network);
            [steps.clone(), steps]
        }
        7..9 => equal_plans(r, network),
        9..13 => equal_costs(r, network),
        13..15 => contested(r, network),
        15..17 => {
            let pair = [wanted(r, network, true), wanted(r, network, false)];
            in_any_order(r, pair)
        }
        17 => [wanted(r, network, false), wanted(r, network, false)],
        _ => with_empty(r, network),
    }
}

fn any(r: &mut Random, network: &[u8]) -> Steps {
    loop {
        let steps = plans::steps(r, network);
        if steps.len() <= SHORT || r.one_in(40) {
            return steps;
        }
    }
}

fn in_any_order(r: &mut Random, [first, second]: [Steps; 2]) -> [Steps; 2] {
    if r.one_in(2) {
        return [second, first];
    }
    [first, second]
}

/// The cost of steps that are valid.
fn cost(network: &[u8], steps: &[Step]) -> Option<u64> {
    match independent::mark(&[network, &plan_file(steps)].concat()) {
        Mark::Valid { cost, .. } => Some(cost),
        _ => None,
    }
}

/// A plan that is valid, or one that isn't, if one is drawn.
fn wanted(r: &mut Random, network: &[u8], valid: bool) -> Steps {
    let mut steps = any(r, network);
    for _ in 1..TRIES {
        if cost(network, &steps).is_some() == valid {
            break;
        }
        steps = any(r, network);
    }
    steps
}

fn equal_plans(r: &mut Random, network: &[u8]) -> [Steps; 2] {
    let steps = wanted(r, network, true);
    [steps.clone(), steps]
}

/// Different plans of equal cost, if they are drawn.
fn equal_costs(r: &mut Random, network: &[u8]) -> [Steps; 2] {
    let first = wanted(r, network, true);
    let wanted = cost(network, &first);
    for _ in 0..TRIES {
        let second = varied(r, network, &first);
        if second != first && cost(network, &second) == wanted {
            return in_any_order(r, [first, second]);
        }
    }
    [first, any(r, network)]
}

/// Valid plans of which the other would win if fewer steps did or guards cost nothing, if they are drawn.
fn contested(r: &mut Random, network: &[u8]) -> [Steps; 2] {
    let drawn = (0..TRIES).map(|_| any(r, network)).collect::<Vec<_>>().into_iter();
    let valid = drawn.filter_map(|steps| cost(network, &steps).map(|cost| (cost, steps)));
    let valid: Vec<(Entry, Steps)> = valid.map(|(cost, steps)| (entry(network, &steps, cost), steps)).collect();
    let pairs = valid.iter().flat_map(|first| valid.iter().map(move |second| [first, second]));
    let is_contested = |pair: &[&(Entry, Steps); 2]| !contest::kinds(pair.map(|plan| plan.0)).is_empty();
    let contested: Vec<[&(Entry, Steps); 2]> = pairs.filter(is_contested).collect();
    if contested.is_empty() {
        return [wanted(r, network, true), wanted(r, network, true)];
    }
    r.pick(&contested).map(|plan| plan.1.clone())
}

fn entry(network: &[u8], steps: &[Step], cost: u64) -> Entry {
    Entry::of(network, &plan_file(steps), cost)
}

/// The same steps in another order, or another plan.
fn varied(r: &mut Random, network: &[u8], steps: &[Step]) -> Steps {
    let mut varied = steps.to_vec();
    match r.below(4) {
        0 => r.shuffle(&mut varied),
        1 | 2 if steps.len() > 1 => varied.swap(r.below(steps.len()), r.below(steps.len())),
        _ => return any(r, network),
    }
    varied
}

/// An empty plan beside any or another empty one.
fn with_empty(r: &mut Random, network: &[u8]) -> [Steps; 2] {
    let other = if r.one_in(3) { vec![] } else { any(r, network) };
    in_any_order(r, [vec![], other])
}
