//! Networks with several submitted plans each, good and damaged.
use crate::damage::damaged;
use crate::draft::{plan_file, Draft};
use crate::guarded;
use crate::hard;
use crate::independent;
use crate::inputs::brief_input;
use crate::networks::{self, Kind};
use crate::plans;
use crate::random::Random;
use crate::wide;

/// More bytes of an input decide nothing: what `DECIDING_BYTES` of the crate `streams` is.
pub const DECIDING_BYTES: usize = 8192;

/// A network part, and the plan parts that come behind it one at a time.
pub struct Item {
    pub network: Vec<u8>,
    pub plans: Vec<Vec<u8>>,
}

impl Item {
    fn new(mut network: Vec<u8>, mut plans: Vec<Vec<u8>>) -> Item {
        network.truncate(DECIDING_BYTES);
        plans.iter_mut().for_each(|plan| plan.truncate(DECIDING_BYTES - network.len()));
        Item { network, plans }
    }

    /// The judge's inputs.
    pub fn inputs(&self) -> impl Iterator<Item = Vec<u8>> + '_ {
        self.plans.iter().map(|plan| [&self.network[..], plan].concat())
    }
}

/// Mostly a network with plans; `network` draws it.
pub fn item(r: &mut Random, network: fn(&mut Random) -> Draft) -> Item {
    let file = network(r).file();
    match r.below(20) {
        0..15 => with_plans(r, file),
        15 | 16 => with_damaged_plans(r, file),
        17 | 18 => damaged_with_plan(r, file),
        _ => whole(r),
    }
}

/// Different plans; one where the network isn't accepted, since they get the same mark.
fn with_plans(r: &mut Random, file: Vec<u8>) -> Item {
    let count = if independent::accept(&file).is_ok() { r.from(2, 6) } else { 1 };
    let mut plans: Vec<Vec<u8>> = (0..count).map(|_| plan(r, &file)).collect();
    plans.sort();
    plans.dedup();
    Item::new(file, plans)
}

/// Long plans are one in forty, since they take the most bytes.
fn plan(r: &mut Random, network: &[u8]) -> Vec<u8> {
    loop {
        let steps = plans::steps(r, network);
        if steps.len() <= 20 || r.one_in(40) {
            return plan_file(&steps);
        }
    }
}

fn with_damaged_plans(r: &mut Random, file: Vec<u8>) -> Item {
    let plans = (0..r.from(1, 4)).map(|_| plan(r, &file)).collect::<Vec<_>>();
    let plans = plans.into_iter().map(|plan| damaged(r, plan)).collect();
    Item::new(file, plans)
}

fn damaged_with_plan(r: &mut Random, file: Vec<u8>) -> Item {
    let plan = plan(r, &file);
    Item::new(damaged(r, file), vec![plan])
}

/// An input with its plan and its damage, if any, as a network part: nothing comes behind it.
fn whole(r: &mut Random) -> Item {
    Item::new(brief_input(r), vec![vec![]])
}

/// The largest networks, and such as are hard to plan.
pub fn large(r: &mut Random) -> Draft {
    let kind = r.pick(&[Kind::SmallElement, Kind::SmallSources, Kind::Planned]);
    let draft = if r.one_in(2) { hard::any(r) } else { networks::large(r, kind) };
    let draft = wide::mixed(r, draft);
    guarded::mixed(r, draft)
}
