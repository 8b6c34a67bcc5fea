//! Who wins.
use super::super::accepted::Accepted;
use super::super::judge::{mark_accepted, Mark};
use super::super::submitted::Submitted;
use super::Held;

#[derive(Clone, Copy, Debug, PartialEq)]
pub enum Better {
    First,
    Second,
    Neither,
}

/// No plan costs so much: it stands for that of a plan that isn't valid.
const ENDLESS: u64 = u64::MAX;

/// Marks both plans, which were lent as or in these bytes; the cheapest cost is found once.
pub fn of<'a>(accepted: &Accepted, plans: [Submitted<'a>; 2], lent: [&[u8]; 2]) -> Held<'a> {
    let mut cheapest = None;
    let marks = [0, 1].map(|plan: usize| mark_accepted(accepted, &plans[plan], &mut cheapest));
    let better = better([cost(&marks[0]), cost(&marks[1])]);
    let file = (better == Better::Second) as usize;
    let steps = plans[file].steps;
    let part = if better == Better::Neither { &steps[..0] } else { steps };
    Held { marks, better, part, offset: part.as_ptr() as usize - lent[file].as_ptr() as usize }
}

fn cost(mark: &Mark) -> u64 {
    match mark {
        Mark::Valid { cost, .. } => *cost,
        _ => ENDLESS,
    }
}

fn better([first, second]: [u64; 2]) -> Better {
    if first.min(second) == ENDLESS {
        Better::Neither
    } else if first <= second {
        Better::First
    } else {
        Better::Second
    }
}
