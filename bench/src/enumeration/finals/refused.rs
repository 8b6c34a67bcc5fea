//! What a final is refused by.
use super::super::refusal::Refusal;

/// What was asked when a rule was broken.
#[derive(Clone, Copy, Debug, PartialEq)]
pub enum Asked {
    Network,
    First,
    Second,
    /// the starting configuration
    Start,
}

/// A refusal, and what was asked.
#[derive(Clone, Copy, Debug)]
pub struct Refused {
    pub asked: Asked,
    pub rule: u64,
    pub place: usize,
}

impl Refused {
    /// A refusal whose place counts on from so many bytes.
    pub fn new(asked: Asked, before: usize, refusal: Refusal) -> Refused {
        Refused { asked, rule: refusal.rule, place: before + refusal.place }
    }
}
