//! Single operations of sequences of steps: what each costs depends on the guards paid before.
use super::start::Start;
use super::table::{Set, Switch, Table};

/// The guards that a sequence of steps has paid for: the bit of each is that of its link number.
pub type Paid = u128;

/// For each configuration the least cost known of sequences of steps that end in it.
pub type Costs = Vec<Option<u64>>;

pub struct Operation {
    bit: Set,
    cost: u64,
    /// the guards paid afterwards
    pub paid: Paid,
}

impl Operation {
    /// Of a switch by a sequence that has paid these guards.
    pub fn of(start: &Start, switch: &Switch, paid: Paid) -> Operation {
        let links = &start.network.links;
        let own = links[switch.link].cost;
        match links[switch.link].guard {
            Some(guard) if paid & 1 << guard == 0 => {
                Operation { bit: switch.bit, cost: own + 2 * links[guard].cost, paid: paid | 1 << guard }
            }
            _ => Operation { bit: switch.bit, cost: own, paid },
        }
    }

    /// Takes note of what it leads to from a configuration reached at some cost; says whether that is new or cheaper.
    pub fn lead_on(&self, table: &Table, set: Set, cost: u64, costs: &mut Costs) -> bool {
        let (next, next_cost) = (set ^ self.bit, cost + self.cost);
        let better = table.safe[next] && costs[next].map_or(true, |known| next_cost < known);
        if better {
            costs[next] = Some(next_cost);
        }
        better
    }
}
