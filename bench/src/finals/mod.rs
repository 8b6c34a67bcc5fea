//! Trial finals: pairs of plans for a network, what both implementations answer to them, and the stored corpus.
pub mod comparison;
mod contest;
pub mod corpus;
pub mod coverage;
mod cuts;
pub mod draw;
mod files;
mod kinds;
mod laws;
mod pairs;
mod tried;
mod tried_refusals;

pub use files::{Files, Item};
