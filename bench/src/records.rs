//! The records of an input, as far as their lengths make sense.
use std::ops::Range;

pub const NARROW_ELEMENT: u16 = 2;
pub const LINK: u16 = 3;
pub const PLAN_HEAD: u16 = 5;
pub const STEP: u16 = 6;
pub const WIDE_ELEMENT: u16 = 7;
pub const GUARDED_LINK: u16 = 8;

/// Two bytes, low byte first.
pub fn word(bytes: &[u8], at: usize) -> u16 {
    u16::from_le_bytes([bytes[at], bytes[at + 1]])
}

pub fn records(file: &[u8]) -> Vec<Range<usize>> {
    let mut found = vec![];
    let mut at = 0;
    while at + 4 <= file.len() {
        let length = word(file, at) as usize;
        if length < 4 || at + length > file.len() {
            break;
        }
        found.push(at..at + length);
        at += length;
    }
    found
}

/// Those of a kind.
pub fn records_of(file: &[u8], kind: u16) -> Vec<Range<usize>> {
    records(file).into_iter().filter(|record| is_of(file, record.start, kind)).collect()
}

/// Those of either kind of element.
pub fn elements(file: &[u8]) -> Vec<Range<usize>> {
    of_either(file, [NARROW_ELEMENT, WIDE_ELEMENT])
}

/// Those of either kind of link.
pub fn links(file: &[u8]) -> Vec<Range<usize>> {
    of_either(file, [LINK, GUARDED_LINK])
}

fn of_either(file: &[u8], kinds: [u16; 2]) -> Vec<Range<usize>> {
    let is_either = |record: &Range<usize>| kinds.iter().any(|&kind| is_of(file, record.start, kind));
    records(file).into_iter().filter(is_either).collect()
}

/// Whether a record of that kind begins there, whatever its length.
pub fn is_of(file: &[u8], at: usize, kind: u16) -> bool {
    at + 4 <= file.len() && word(file, at + 2) == kind
}
