//! Trial finals: two plan files against one network, item 4 of document 02.
mod better;
mod files;
mod refused;
mod text;
mod values;

pub use better::Better;
pub use refused::{Asked, Refused};

use super::judge::{mark, Mark};
use super::start::Start;
use better::{better, part};
use files::Files;
use std::ops::Range;

pub enum Final {
    Refused(Refused),
    Held(Held),
}

/// A final whose files keep all rules.
pub struct Held {
    /// in file order
    pub marks: [Mark; 2],
    pub better: Better,
    /// the part handed back: offsets in the one input, or in its file where files are lent apart
    pub part: Range<usize>,
}

impl Held {
    /// The cost of each plan that is valid.
    pub fn costs(&self) -> [Option<u64>; 2] {
        self.marks.map(|mark| match mark {
            Mark::Valid { cost, .. } => Some(cost),
            _ => None,
        })
    }
}

/// Of a network file with two plan files directly behind one another.
pub fn of_one_input(input: &[u8]) -> Final {
    answered(Files::in_one_input(input))
}

/// Of three files that are lent apart.
pub fn lent_apart(network: &[u8], first: &[u8], second: &[u8]) -> Final {
    answered(Files::lent_apart(network, first, second))
}

fn answered(files: Result<Files, Refused>) -> Final {
    match files.and_then(held) {
        Ok(held) => Final::Held(held),
        Err(refused) => Final::Refused(refused),
    }
}

/// Rules 14 to 18, then what the judge says of each plan.
fn held(files: Files) -> Result<Held, Refused> {
    let start = Start::of(files.network).map_err(|refusal| Refused::new(Asked::Start, 0, refusal))?;
    let marks = [&files.first, &files.second].map(|plan| mark(&start, &plan.steps));
    let better = better(&marks);
    Ok(Held { marks, better, part: part(better, &files.first.bytes, &files.second.bytes) })
}
