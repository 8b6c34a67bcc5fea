//! Inputs of the most elements, links and steps: the longest that are accepted, and some that are longer.
use crate::draft::{plan_file, Draft};
use crate::guarded;
use crate::independent::{ELEMENTS, LINKS};
use crate::networks::{self, Kind};
use crate::plans::{self, Step, MOST};
use crate::random::Random;
use crate::switched;
use crate::wide;

/// Often the longest there is: all elements are wide, and all links behind the first guarded switches. Else up to three
/// elements are narrow and up to three switches unguarded, or there are fixed links. There is a plan that closes a
/// switch.
pub fn network(r: &mut Random) -> Draft {
    loop {
        let mut draft = if r.one_in(4) { networks::large(r, Kind::Planned) } else { switched::network(r) };
        if r.one_in(2) {
            wide::enlarge(r, &mut draft);
        }
        draft.elements.iter_mut().for_each(|element| element.wide = true);
        guarded::guard_all(r, &mut draft);
        for _ in 0..r.pick(&[0, 0, 0, 1, 2, 3]) {
            draft.elements[r.below(ELEMENTS)].wide = false;
            let link = r.below(draft.links.len());
            draft.links[link].guard = None;
        }
        let closes = plans::printed(&draft.file()).iter().any(|step| step.1 == 1);
        if draft.links.len() == LINKS && closes {
            return draft;
        }
    }
}

/// The plan, with switches undone and done again until there is room for one step at most, which undoes one.
pub fn steps(r: &mut Random, network: &[u8]) -> Vec<Step> {
    let mut steps = plans::full(r, plans::printed(network));
    let (link, state) = steps[steps.len() - 1];
    if steps.len() < MOST && r.one_in(2) {
        steps.push((link, state ^ 1));
    }
    steps
}

/// A network with such steps behind it, as it is, cut off within its last records, or with bytes behind it.
pub fn input(r: &mut Random) -> Vec<u8> {
    let network = network(r).file();
    let plan = plan_file(&steps(r, &network));
    let mut input = [network, plan].concat();
    let length = input.len();
    match r.below(8) {
        0 => input.truncate(length - r.from(1, 13)),
        1 => input.resize(length + r.from(1, 5), 0),
        2 => input.resize(r.from(8_190, 8_200), 0),
        _ => {}
    }
    input
}
