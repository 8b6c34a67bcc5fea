//! The printed plan, by walking the printed form of every set of operable switches.
use super::configuration::{live, Configuration};
use super::price::price;
use super::reach::least_cost;
use super::start::Start;
use super::table::{Set, Switch, Table};

pub struct Plan {
    /// the links to open and to close, each by rising number
    pub openings: Vec<usize>,
    pub closings: Vec<usize>,
    pub cost: u64,
}

/// Sums of own loads in the last configuration, or at the start where there is no plan.
pub struct Sums {
    pub fed: u64,
    pub dark: u64,
    pub lost: u64,
}

pub struct Reply {
    pub plan: Option<Plan>,
    pub sums: Sums,
}

pub fn reply(start: &Start) -> Reply {
    let table = Table::of(start);
    let plan = printed_plan(start, &table);
    let cost = plan.as_ref().map(|plan| plan.cost);
    assert_eq!(cost, least_cost(start, &table), "the printed plan costs what the cheapest sequence of steps does");
    let mut last = start.configuration.clone();
    plan.iter().flat_map(|plan| plan.openings.iter().chain(&plan.closings)).for_each(|&link| last.operate(link));
    Reply { plan, sums: sums(start, &last) }
}

/// Of the cheapest valid plans of the printed form, the one whose set comes first.
fn printed_plan(start: &Start, table: &Table) -> Option<Plan> {
    // of equal ones, min_by_key takes the first
    table.sets().filter_map(|set| valid_plan(start, table, set)).min_by_key(|plan| plan.cost)
}

/// The plan of the printed form that operates a set of switches, if it is valid.
fn valid_plan(start: &Start, table: &Table, set: Set) -> Option<Plan> {
    let is_closed = |switch: &Switch| start.configuration.is_closed(switch.link);
    let (openings, closings): (Vec<Switch>, Vec<Switch>) = table.members(set).partition(is_closed);
    let links = |switches: &[Switch]| switches.iter().map(|switch| switch.link).collect();
    let cost = || price(&start.network, table.members(set).map(|switch| switch.link));
    let valid = is_valid(table, openings.iter().chain(&closings));
    valid.then(|| Plan { openings: links(&openings), closings: links(&closings), cost: cost() })
}

/// Whether operating these one after the other passes safe configurations only and restores everything.
fn is_valid<'a>(table: &Table, steps: impl Iterator<Item = &'a Switch>) -> bool {
    let mut reached: Set = 0;
    for switch in steps {
        reached ^= switch.bit;
        if !table.safe[reached] {
            return false;
        }
    }
    table.restored[reached]
}

fn sums(start: &Start, last: &Configuration) -> Sums {
    let live = live(&start.network, last);
    let sum = |counts: &dyn Fn(usize) -> bool| -> u64 {
        let elements = start.network.elements.iter().enumerate();
        elements.filter(|&(number, _)| counts(number)).map(|(_, element)| element.load).sum()
    };
    let sums = Sums {
        fed: sum(&|element| live[element]),
        dark: sum(&|element| start.restorable[element] && !live[element]),
        lost: sum(&|element| !start.restorable[element]),
    };
    assert_eq!(sums.fed + sums.dark + sums.lost, sum(&|_| true), "the three sums are all own loads");
    sums
}
