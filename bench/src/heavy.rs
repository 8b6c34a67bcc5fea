//! Networks with loads near the largest there are, whose sums need more than four bytes.
use crate::draft::{Draft, FIXED, OPEN};
use crate::independent::SWITCHES;
use crate::networks::two_of;
use crate::random::Random;

/// Sources with a load of their own or none, dark elements and faulty ones, with open switches between them.
pub fn network(r: &mut Random, most: usize) -> Draft {
    let count = r.from(2, most);
    let mut draft = Draft::default();
    for element in 0..count {
        let flags = if element == 0 { 1 } else { r.pick(&[0, 0, 0, 1, 1, 2, 3]) };
        let load = if flags == 1 && r.one_in(2) { 0 } else { load(r) };
        let capacity = r.pick(&[load, u32::MAX, u32::MAX]);
        draft.add_element(load, capacity, flags);
    }
    for _ in 0..r.below(SWITCHES + 1) {
        draft.add_link(two_of(r, count), OPEN, r.from(1, 9) as u16);
    }
    if r.one_in(4) {
        draft.add_link(two_of(r, count), FIXED, 0);
    }
    draft.renumbered(r)
}

fn load(r: &mut Random) -> u32 {
    let less = r.below(1 << 20) as u32;
    r.pick(&[u32::MAX, u32::MAX, u32::MAX - 1, u32::MAX - less, less])
}
