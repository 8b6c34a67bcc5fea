//! A final as numbers: what the library's functions answer.
use super::super::judge::Mark;
use super::{Better, Final, Held};

impl Final {
    /// 1 for a final that is held, and the kind and the two values of each mark, which file is better, and the offset
    /// and the length of its part; or 0, and the rule and the place.
    pub fn values(&self) -> (u64, [u64; 9]) {
        match self {
            Final::Refused(refused) => (0, [refused.rule, refused.place as u64, 0, 0, 0, 0, 0, 0, 0]),
            Final::Held(held) => (1, held.values()),
        }
    }
}

impl Held {
    fn values(&self) -> [u64; 9] {
        let [[kind, one, other], [second_kind, second_one, second_other]] = self.marks.map(mark_values);
        let better = match self.better {
            Better::First => 0,
            Better::Second => 1,
            Better::Neither => 2,
        };
        let (offset, length) = (self.part.start as u64, self.part.len() as u64);
        [kind, one, other, second_kind, second_one, second_other, better, offset, length]
    }
}

fn mark_values(mark: Mark) -> [u64; 3] {
    match mark {
        Mark::Broken { step, reason } => [1, step as u64, reason],
        Mark::Short { element } => [2, element as u64, 0],
        Mark::Valid { cost, excess } => [3, cost, excess],
    }
}
