//! The planner, the judge and finals, written from document 01 and items 1, 2 and 4 of document 02, and unverified
//! (docs/DECISIONS.md, 65): sets as bit masks, and a search that grows the tree of closed switches from the sources and
//! carries loads, supply and cost along.
mod accepted;
mod bits;
mod feeding;
pub mod finals;
mod guards;
mod judge;
mod neighbours;
mod network;
mod nodes;
mod planner;
mod reader;
mod search;
mod spurs;
mod start;
mod submitted;
mod supply;
mod text;
mod trial;
mod walk;
mod weights;

pub use accepted::{Accepted, SWITCHES};
pub use bits::bits;
pub use judge::{mark, Mark};
pub use network::{ELEMENTS, LINKS};
pub use planner::{plan, Plan, Reply};
pub use reader::Refusal;
pub use start::Start;
pub use trial::Trial;

use reader::Reader;

/// The planning program's printed lines behind what `out` holds.
pub fn plan_text(input: &[u8], out: &mut Vec<u8>) {
    text::reply(out, &plan(input));
}

/// The judging program's printed line behind what `out` holds.
pub fn mark_text(input: &[u8], out: &mut Vec<u8>) {
    text::mark(out, &mark(input));
}

/// A network file's network that keeps rules 1 to 13 and 20.
fn read_alone(input: &[u8]) -> Result<Box<network::Network>, Refusal> {
    let mut reader = Reader::new(input);
    let network = network::Network::read(&mut reader)?;
    reader.finish()?;
    Ok(network)
}

/// What rules 14 to 16 leave of a network file alone.
pub fn start(input: &[u8]) -> Result<Start, Refusal> {
    let network = read_alone(input)?;
    Start::of(&network).map(|(start, _)| start)
}

/// A network file's network that keeps rules 1 to 18 and 20.
pub fn accept(input: &[u8]) -> Result<Accepted, Refusal> {
    Accepted::from(read_alone(input)?)
}
