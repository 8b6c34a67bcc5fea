//! The judge's mark for a network file with a plan file directly behind it.
use super::accepted::Accepted;
use super::network::Network;
use super::reader::{Reader, Refusal};
use super::submitted::Submitted;
use super::trial::Trial;

#[derive(Clone, Debug, PartialEq)]
pub enum Mark {
    Refused(Refusal),
    Broken { step: u64, reason: u64 },
    Short { element: u64 },
    Valid { cost: u64, excess: u64 },
}

pub fn mark(input: &[u8]) -> Mark {
    match read(input) {
        Ok((accepted, submitted)) => mark_accepted(&accepted, &submitted, &mut None),
        Err(refusal) => Mark::Refused(refusal),
    }
}

/// Rules 1 to 13 and 20 over both files, then rules 14 to 18.
fn read(input: &[u8]) -> Result<(Accepted, Submitted<'_>), Refusal> {
    let mut reader = Reader::new(input);
    let network = Network::read(&mut reader)?;
    let submitted = Submitted::read(&mut reader, &network)?;
    reader.finish()?;
    Ok((Accepted::from(network)?, submitted))
}

/// The mark of a plan; `cheapest` is the least cost of a valid one, once that is known.
pub fn mark_accepted(accepted: &Accepted, submitted: &Submitted, cheapest: &mut Option<u64>) -> Mark {
    if submitted.is_empty() {
        return mark_empty(accepted);
    }
    let mut trial = Trial::new(accepted);
    for (step, (link, state)) in (1..).zip(submitted.list()) {
        if let Err(reason) = trial.operate(link, state) {
            return Mark::Broken { step, reason };
        }
    }
    match trial.dark() {
        0 => Mark::Valid { cost: trial.cost, excess: trial.cost - *cheapest.get_or_insert_with(|| trial.cheapest()) },
        dark => short(dark),
    }
}

/// Where nothing waits, the empty plan is valid, and none is cheaper.
fn mark_empty(accepted: &Accepted) -> Mark {
    match accepted.start.waiting() {
        0 => Mark::Valid { cost: 0, excess: 0 },
        dark => short(dark),
    }
}

fn short(dark: u64) -> Mark {
    Mark::Short { element: dark.trailing_zeros() as u64 }
}
