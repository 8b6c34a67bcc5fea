//! The mark of a submitted plan, step by step.
use super::configuration::Configuration;
use super::price::price;
use super::reach::least_cost;
use super::reader::Step;
use super::safety::is_safe;
use super::start::Start;
use super::table::Table;

#[derive(Clone, Copy)]
pub enum Mark {
    Broken { step: usize, reason: u64 },
    Short { element: usize },
    Valid { cost: u64, excess: u64 },
}

pub fn mark(start: &Start, steps: &[Step]) -> Mark {
    let mut configuration = start.configuration.clone();
    for (number, step) in (1..).zip(steps) {
        if let Some(reason) = reason_against(start, &configuration, step) {
            return Mark::Broken { step: number, reason };
        }
        configuration.operate(step.link);
    }
    if let Some(element) = start.lowest_dark(&configuration) {
        return Mark::Short { element };
    }
    let cost = price(&start.network, steps.iter().map(|step| step.link));
    let least = least_cost(start, &Table::of(start)).expect("the submitted plan is valid, so there is a least cost");
    Mark::Valid { cost, excess: cost.checked_sub(least).expect("no valid plan costs less than the least cost") }
}

/// The lowest reason that makes a step bad.
fn reason_against(start: &Start, configuration: &Configuration, step: &Step) -> Option<u64> {
    if !start.operable.contains(&step.link) {
        return Some(1);
    }
    if configuration.is_closed(step.link) == step.closed {
        return Some(2);
    }
    let mut after = configuration.clone();
    after.operate(step.link);
    if !is_safe(&start.network, &after) {
        return Some(3);
    }
    None
}
