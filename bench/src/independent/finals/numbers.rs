//! The numbers of a final, in the order of the library's values.
use super::super::judge::Mark;
use super::Final;

pub const VALUES: usize = 9;

impl Final<'_> {
    /// The kind of answer and its values.
    pub fn numbers(&self) -> (u64, [u64; VALUES]) {
        let mut numbers = [0; VALUES];
        let kind = match self {
            Final::Refused(refusal) => {
                numbers[..2].copy_from_slice(&[refusal.rule, refusal.place]);
                0
            }
            Final::Held(held) => {
                numbers[..3].copy_from_slice(&of_mark(&held.marks[0]));
                numbers[3..6].copy_from_slice(&of_mark(&held.marks[1]));
                numbers[6..].copy_from_slice(&[held.better as u64, held.offset as u64, held.part.len() as u64]);
                1
            }
        };
        (kind, numbers)
    }
}

/// The kind of a mark and its two values.
pub fn of_mark(mark: &Mark) -> [u64; 3] {
    match *mark {
        Mark::Refused(refusal) => [0, refusal.rule, refusal.place],
        Mark::Broken { step, reason } => [1, step, reason],
        Mark::Short { element } => [2, element, 0],
        Mark::Valid { cost, excess } => [3, cost, excess],
    }
}
