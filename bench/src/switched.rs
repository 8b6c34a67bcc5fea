//! Networks of the most elements and links, all of them switches, so that every link but the first can have a guard.
use crate::draft::{Draft, CLOSED, OPEN};
use crate::independent::{ELEMENTS, LINKS, SWITCHES};
use crate::networks::two_of;
use crate::random::Random;

/// What a switch costs at most.
const DEAREST: usize = 9;
/// More than all loads together.
const AMPLE: u32 = 2000;

/// Trees of closed switches around sources, some dark elements with as many operable switches as there may be or fewer,
/// and open switches between live elements. There is a plan if every dark element has an open switch to a live one.
pub fn network(r: &mut Random) -> Draft {
    let (sources, dark) = (r.from(1, 3), r.from(1, 8));
    let live = ELEMENTS - dark;
    let mut draft = Draft::default();
    (0..ELEMENTS).for_each(|element| draft.add_element(r.below(5) as u32, AMPLE, (element < sources) as u16));
    (sources..live).for_each(|element| draft.add_link((r.below(element), element), CLOSED, cost(r)));
    for operable in 0..r.from(dark, SWITCHES) {
        let own = live + operable % dark;
        let (other, form) = if operable < dark { (r.below(live), OPEN) } else { tie(r, live, own) };
        draft.add_link((own, other), form, cost(r));
    }
    while draft.links.len() < LINKS {
        draft.add_link(two_of(r, live), OPEN, cost(r));
    }
    draft.renumbered(r)
}

fn cost(r: &mut Random) -> u16 {
    r.from(1, DEAREST) as u16
}

/// Where another switch of a dark element leads, and its form: to a live one or the next dark one, closed to the latter
/// at times.
fn tie(r: &mut Random, live: usize, own: usize) -> (usize, u16) {
    if own + 1 < ELEMENTS && r.one_in(2) {
        return (own + 1, r.pick(&[OPEN, CLOSED]));
    }
    (r.below(live), OPEN)
}
