//! Files that end too early, or where others should.
use super::files::Files;
use crate::random::Random;
use crate::records::{records, word};

/// Cuts the first plan file off, so that in one input it runs into the second.
pub fn cut_first(r: &mut Random, files: &mut Files) {
    let first = &mut files.plans[0];
    match r.below(8) {
        0 | 1 => first.truncate(first.len() - 4),
        2 => first.truncate(r.below(first.len())),
        3 => first.truncate(6 + 8 * r.below((first.len() - 10) / 8 + 1)),
        4 => drop(first.drain(..6)),
        5 => first.clear(),
        _ => {
            let steps = word(first, 4) + r.from(1, 3) as u16;
            first[4..6].copy_from_slice(&steps.to_le_bytes());
        }
    }
}

/// The same bytes cut into files elsewhere: one input stays what it was.
pub fn cut_elsewhere(r: &mut Random, files: &Files) -> Files {
    let (input, first) = (files.input(), files.network.len());
    let ends = [first, first + files.plans[0].len()].map(|end| moved(r, &input, end));
    Files::cut(&input, ends)
}

/// Near where it was, where a record begins, or anywhere.
fn moved(r: &mut Random, input: &[u8], end: usize) -> usize {
    match r.below(10) {
        0..4 => end,
        4..6 => end.saturating_sub(r.from(1, 12)),
        6..8 => (end + r.from(1, 12)).min(input.len()),
        8 => {
            let starts: Vec<usize> = records(input).iter().map(|record| record.start).collect();
            r.pick(&starts)
        }
        _ => r.below(input.len() + 1),
    }
}

/// The files cut off all together: of those behind the cut nothing is left.
pub fn cut_short(r: &mut Random, files: &Files) -> Files {
    let (input, first) = (files.input(), files.network.len());
    let kept = r.below(input.len());
    Files::cut(&input[..kept], [first, first + files.plans[0].len()].map(|end| end.min(kept)))
}
