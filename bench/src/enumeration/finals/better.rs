//! The better file, and the part of it that is handed back.
use super::super::judge::Mark;
use std::ops::Range;

#[derive(Clone, Copy, Debug, PartialEq)]
pub enum Better {
    First,
    Second,
    Neither,
}

const HEAD: usize = 6;
const END: usize = 4;

/// VALID beats the rest, then the lower cost; an equal cost goes to the first file.
pub fn better(marks: &[Mark; 2]) -> Better {
    match marks {
        [Mark::Valid { cost: first, .. }, Mark::Valid { cost: second, .. }] if second < first => Better::Second,
        [Mark::Valid { .. }, _] => Better::First,
        [_, Mark::Valid { .. }] => Better::Second,
        _ => Better::Neither,
    }
}

/// The step records of the better file: what is behind its head and before its end. Neither's are none, where the first
/// file's begin.
pub fn part(better: Better, first: &Range<usize>, second: &Range<usize>) -> Range<usize> {
    match better {
        Better::First => first.start + HEAD..first.end - END,
        Better::Second => second.start + HEAD..second.end - END,
        Better::Neither => first.start + HEAD..first.start + HEAD,
    }
}
