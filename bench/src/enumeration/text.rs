//! Printed lines.
use super::judge::{mark, Mark};
use super::planner::{reply, Reply};
use super::reader::{read_network, read_network_and_plan};
use super::refusal::Refusal;
use super::start::Start;

/// What the planning program prints for an input.
pub fn plan_text(input: &[u8]) -> String {
    match read_network(input).and_then(Start::of) {
        Ok(start) => reply_lines(&reply(&start)),
        Err(refusal) => refused_line(refusal),
    }
}

/// What the judging program prints for an input.
pub fn mark_text(input: &[u8]) -> String {
    let started = read_network_and_plan(input).and_then(|(network, steps)| Ok((Start::of(network)?, steps)));
    match started {
        Ok((start, steps)) => mark_line(mark(&start, &steps)),
        Err(refusal) => refused_line(refusal),
    }
}

pub fn refused_line(Refusal { rule, place }: Refusal) -> String {
    format!("REFUSED {rule} {place}\n")
}

fn reply_lines(Reply { plan, sums }: &Reply) -> String {
    let mut lines = match plan {
        None => "NONE\n".to_string(),
        Some(plan) => {
            let head = format!("PLAN {} {}\n", plan.openings.len() + plan.closings.len(), plan.cost);
            let openings = plan.openings.iter().map(|link| format!("OPEN {link}\n"));
            let closings = plan.closings.iter().map(|link| format!("CLOSE {link}\n"));
            head + &openings.chain(closings).collect::<String>()
        }
    };
    lines += &format!("LOAD {} {} {}\n", sums.fed, sums.dark, sums.lost);
    lines
}

pub fn mark_line(mark: Mark) -> String {
    match mark {
        Mark::Broken { step, reason } => format!("BROKEN {step} {reason}\n"),
        Mark::Short { element } => format!("SHORT {element}\n"),
        Mark::Valid { cost, excess } => format!("VALID {cost} {excess}\n"),
    }
}
