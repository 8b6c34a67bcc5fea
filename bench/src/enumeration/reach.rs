//! The least cost over all valid plans, whatever their form and length.
use super::operation::{Costs, Operation, Paid};
use super::start::Start;
use super::table::Table;
use std::collections::BTreeMap;

/// The least cost of a valid plan, if there is one.
///
/// What a sequence of steps may lead to is known by the guards it has paid and the configuration it ends in. No step
/// takes a guard back, so from each set of guards steps lead to that set or to a larger number.
pub fn least_cost(start: &Start, table: &Table) -> Option<u64> {
    let nowhere = || vec![None; table.safe.len()];
    let mut at_start = nowhere();
    at_start[0] = Some(0);
    let mut reached: BTreeMap<Paid, Costs> = BTreeMap::from([(0, at_start)]);
    let mut least = None;
    while let Some((paid, mut costs)) = reached.pop_first() {
        let operations = table.switches.iter().map(|switch| Operation::of(start, switch, paid));
        let (same, other): (Vec<_>, Vec<_>) = operations.partition(|operation| operation.paid == paid);
        settle(table, &same, &mut costs);
        for operation in other {
            let next = reached.entry(operation.paid).or_insert_with(nowhere);
            all_reached(&costs).for_each(|(set, cost)| {
                operation.lead_on(table, set, cost, next);
            });
        }
        let restored = all_reached(&costs).filter(|&(set, _)| table.restored[set]);
        least = restored.map(|(_, cost)| cost).chain(least).min();
    }
    least
}

fn all_reached(costs: &Costs) -> impl Iterator<Item = (usize, u64)> + '_ {
    costs.iter().enumerate().filter_map(|(set, cost)| cost.map(|cost| (set, cost)))
}

/// Takes operations that pay no guard: passes over all configurations and steps, until none gets cheaper.
fn settle(table: &Table, operations: &[Operation], costs: &mut Costs) {
    let mut changed = true;
    while changed {
        changed = false;
        for set in table.sets() {
            let Some(cost) = costs[set] else { continue };
            for operation in operations {
                changed |= operation.lead_on(table, set, cost, costs);
            }
        }
    }
}
