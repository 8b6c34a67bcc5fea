//! The planner's reply to a network file.
use super::accepted::Accepted;
use super::bits;
use super::feeding::Feeding;
use super::reader::{Refusal, END, PLAN_HEAD, STEP};
use super::search::lightest;
use super::weights::{self, Weights};

#[derive(Clone, Copy, Debug, PartialEq)]
pub struct Sums {
    pub fed: u64,
    pub dark: u64,
    pub lost: u64,
}

/// The links that are opened, then those that are closed.
#[derive(Clone, Debug, PartialEq)]
pub struct Plan {
    pub open: u128,
    pub close: u128,
    pub cost: u64,
}

#[derive(Clone, Debug, PartialEq)]
pub enum Reply {
    Refused(Refusal),
    None(Sums),
    Plan(Plan, Sums),
}

pub fn plan(input: &[u8]) -> Reply {
    match super::accept(input) {
        Ok(accepted) => plan_accepted(&accepted),
        Err(refusal) => Reply::Refused(refusal),
    }
}

/// A plan leaves every restorable element live, and no other one can be: a part with a sound source and a spoiled
/// element has a fault too.
fn plan_accepted(accepted: &Accepted) -> Reply {
    let start = &accepted.start;
    match cheapest(accepted) {
        None => Reply::None(sums(accepted, start.live)),
        Some(plan) => Reply::Plan(plan, sums(accepted, start.restorable)),
    }
}

fn cheapest(accepted: &Accepted) -> Option<Plan> {
    if accepted.start.waiting() == 0 {
        return Some(Plan { open: 0, close: 0, cost: 0 });
    }
    let weights = Weights::of(accepted);
    let least = lightest(&mut Feeding::new(accepted, weights.links()), &weights)?;
    let (set, closed) = (weights::set(accepted, least), accepted.network.closed);
    Some(Plan { open: set & closed, close: set & !closed, cost: weights::cost(least) })
}

fn sums(accepted: &Accepted, live: u64) -> Sums {
    let (network, restorable) = (&accepted.network, accepted.start.restorable);
    let sum = |elements: u64| network.load_of(elements);
    Sums { fed: sum(live), dark: sum(restorable & !live), lost: sum(network.all() & !restorable) }
}

impl Plan {
    pub fn steps(&self) -> usize {
        (self.open | self.close).count_ones() as usize
    }

    /// Link and state wanted of each step.
    pub fn list(&self) -> impl Iterator<Item = (usize, u16)> {
        bits(self.open).map(|link| (link, 0)).chain(bits(self.close).map(|link| (link, 1)))
    }

    pub fn file(&self) -> Vec<u8> {
        let mut file = Vec::with_capacity(10 + 8 * self.steps());
        let mut put = |numbers: &[u16]| numbers.iter().for_each(|n| file.extend(n.to_le_bytes()));
        put(&[6, PLAN_HEAD, self.steps() as u16]);
        for (link, state) in self.list() {
            put(&[8, STEP, link as u16, state]);
        }
        put(&[4, END]);
        file
    }
}
