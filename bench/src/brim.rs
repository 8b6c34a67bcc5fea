//! Chains behind a source that fill its capacity to the brim: but for one, just so, or by one too much.
use crate::draft::{Draft, CLOSED, FIXED, NARROW, OPEN};
use crate::random::Random;
use crate::wide;

/// Mostly with the largest capacity that there is; often a switch of the chain is open, and often another source stands
/// behind it.
pub fn network(r: &mut Random) -> Draft {
    let brim = r.pick(&[u32::MAX, u32::MAX, u32::MAX, NARROW, NARROW + 1]);
    let mut draft = Draft::default();
    add_chain(r, &mut draft, brim);
    let last = draft.elements.len() - 1;
    let open = r.from(1, last + 1);
    for element in 1..=last {
        let form = if element == open { OPEN } else { r.pick(&[FIXED, CLOSED]) };
        draft.add_link((element - 1, element), form, r.from(1, 9) as u16);
    }
    if r.one_in(2) {
        draft.add_element(0, r.pick(&[brim, brim / 2, 9]), 1);
        draft.add_link((last, last + 1), OPEN, r.from(1, 9) as u16);
    }
    wide::widen(r, &mut draft);
    draft.renumbered(r)
}

/// The source, which has a load of its own, so that no other element of the chain is too small.
fn add_chain(r: &mut Random, draft: &mut Draft, brim: u32) {
    let own = r.pick(&[1, 1, 7, 65_536]).min(brim - 2);
    draft.add_element(own, brim, 1);
    let (mut left, count) = (brim - own - 1 + r.below(3) as u32, r.from(1, 5));
    for behind in (0..count).rev() {
        let some = r.below(left as usize + 1) as u32;
        let load = if behind == 0 { left } else { r.pick(&[0, some, left]) };
        draft.add_element(load, brim, 0);
        left -= load;
    }
}
