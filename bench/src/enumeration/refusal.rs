//! Refusals: the number of a rule and a place.

#[derive(Clone, Copy)]
pub struct Refusal {
    pub rule: u64,
    pub place: usize,
}
