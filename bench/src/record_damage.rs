//! Damages of a record that has a counterpart of another kind and length.
use crate::random::Random;
use crate::records::word;
use std::ops::Range;

/// A kind and its length.
pub type Front = (u16, u16);

/// Gives a record the length of its counterpart, or the kind, or both.
pub fn swap_front(r: &mut Random, file: &mut [u8], at: usize, fronts: [Front; 2]) {
    let (kind, length) = if word(file, at + 2) == fronts[0].0 { fronts[1] } else { fronts[0] };
    let which = r.below(3);
    if which != 0 {
        file[at..at + 2].copy_from_slice(&length.to_le_bytes());
    }
    if which != 1 {
        file[at + 2..at + 4].copy_from_slice(&kind.to_le_bytes());
    }
}

/// Puts a record in the place of another one, or in front of it.
pub fn put_for(r: &mut Random, file: &mut Vec<u8>, record: Range<usize>, others: &[Range<usize>]) {
    let bytes = file[record].to_vec();
    if !others.is_empty() {
        let other = others[r.below(others.len())].clone();
        let end = if r.one_in(2) { other.end } else { other.start };
        file.splice(other.start..end, bytes);
    }
}

/// Cuts the file off within the record, often where its shorter counterpart ends.
pub fn cut_off(r: &mut Random, file: &mut Vec<u8>, record: Range<usize>, shorter: u16) {
    let kept = if r.one_in(2) { shorter as usize } else { r.from(1, record.len()) };
    file.truncate(record.start + kept.min(record.len() - 1));
}
