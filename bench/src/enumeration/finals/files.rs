//! The three files of a final, in one input or lent apart: rules 1 to 13 and 20.
use super::super::network::Network;
use super::super::reader::{network_file, plan_file, Step};
use super::super::records::Records;
use super::super::refusal::Refusal;
use super::refused::{Asked, Refused};
use std::ops::Range;

pub struct Files {
    pub network: Network,
    pub first: Plan,
    pub second: Plan,
}

pub struct Plan {
    pub steps: Vec<Step>,
    /// where the file is in what was lent
    pub bytes: Range<usize>,
}

impl Files {
    /// Rules 1 to 12 and 20 in each record of all three files, then 13 behind the second plan.
    pub fn in_one_input(input: &[u8]) -> Result<Files, Refused> {
        let mut records = Records::of(input);
        let network = network_file(&mut records).map_err(|refusal| Refused::new(Asked::Network, 0, refusal))?;
        let first = plan(&mut records, &network).map_err(|refusal| Refused::new(Asked::First, 0, refusal))?;
        let second = plan(&mut records, &network).map_err(|refusal| Refused::new(Asked::Second, 0, refusal))?;
        records.end().map_err(|refusal| Refused::new(Asked::Second, 0, refusal))?;
        Ok(Files { network, first, second })
    }

    /// All rules in each file before the next one is looked at; places count on through the files.
    pub fn lent_apart(network: &[u8], first: &[u8], second: &[u8]) -> Result<Files, Refused> {
        let before_second = network.len() + first.len();
        let read = alone(network, network_file).map_err(|refusal| Refused::new(Asked::Network, 0, refusal))?;
        let read_plan = |file, asked, before| {
            alone(file, |records| plan(records, &read)).map_err(|refusal| Refused::new(asked, before, refusal))
        };
        let first = read_plan(first, Asked::First, network.len())?;
        let second = read_plan(second, Asked::Second, before_second)?;
        Ok(Files { network: read, first, second })
    }
}

/// A plan file from where a record is due.
fn plan(records: &mut Records, network: &Network) -> Result<Plan, Refusal> {
    let start = records.at();
    let steps = plan_file(records, network.links.len() as u64)?;
    Ok(Plan { steps, bytes: start..records.at() })
}

/// A file with nothing behind it: rule 13 too.
fn alone<T>(file: &[u8], read: impl Fn(&mut Records) -> Result<T, Refusal>) -> Result<T, Refusal> {
    let mut records = Records::of(file);
    let found = read(&mut records)?;
    records.end()?;
    Ok(found)
}
