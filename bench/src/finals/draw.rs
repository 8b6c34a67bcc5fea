//! The finals that implementations are compared on.
use super::cuts::{cut_elsewhere, cut_first, cut_short};
use super::files::{Files, Item};
use super::pairs::pair;
use crate::damage::{damaged, random_bytes};
use crate::draft::{plan_file, Draft};
use crate::independent;
use crate::inputs::{self, brief_input, LONGEST};
use crate::items::large;
use crate::longest;
use crate::random::Random;

/// Finals of any network; few are of the largest or the longest.
pub fn any(r: &mut Random) -> Item {
    match r.below(200) {
        0 => Item::of(longest(r)),
        1 => Item::whole(long(r, inputs::network)),
        2 => item(r, large),
        3..110 => item(r, inputs::brief),
        _ => item(r, inputs::network),
    }
}

/// Mostly a network with pairs of plans; `network` draws it.
pub fn item(r: &mut Random, network: fn(&mut Random) -> Draft) -> Item {
    let file = network(r).file();
    if r.below(20) < 9 {
        return with_pairs(r, file);
    }
    let plans = pair(r, &file);
    let mut files = Files { network: file, plans };
    match r.below(20) {
        0..3 => files.network = changed(r, files.network),
        3..7 => damage_plan(r, &mut files, 0),
        7..11 => damage_plan(r, &mut files, 1),
        11..14 => cut_first(r, &mut files),
        14..17 => files = cut_elsewhere(r, &files),
        17..19 => files = cut_short(r, &files),
        _ => files = anything(r),
    }
    Item::of(files)
}

/// Different pairs; one where the network isn't accepted, since they get the same reply.
fn with_pairs(r: &mut Random, network: Vec<u8>) -> Item {
    let count = if independent::accept(&network).is_ok() { r.from(2, 6) } else { 1 };
    let mut pairs: Vec<_> = (0..count).map(|_| pair(r, &network)).collect();
    pairs.sort();
    pairs.dedup();
    Item::new(network, pairs)
}

/// A file with damages that change it.
fn changed(r: &mut Random, file: Vec<u8>) -> Vec<u8> {
    loop {
        let other = damaged(r, file.clone());
        if other != file {
            return other;
        }
    }
}

/// Damages a plan file, and sometimes the other one too.
fn damage_plan(r: &mut Random, files: &mut Files, plan: usize) {
    files.plans[plan] = changed(r, files.plans[plan].clone());
    if r.one_in(6) {
        files.plans[1 - plan] = changed(r, files.plans[1 - plan].clone());
    }
}

/// An input of the judge or the planner, good or damaged, or any bytes, cut anywhere.
fn anything(r: &mut Random) -> Files {
    let input = if r.one_in(3) { random_bytes(r, 60) } else { brief_input(r) };
    let ends = [r.below(input.len() + 1), r.below(input.len() + 1)];
    Files::cut(&input, ends)
}

/// The most elements, links and steps, as they are, cut off within their last records, or with bytes behind them.
pub fn longest(r: &mut Random) -> Files {
    let network = longest::network(r).file();
    let plans = [0; 2].map(|_| plan_file(&longest::steps(r, &network)));
    let mut files = Files { network, plans };
    let (any, last) = (r.below(2), files.plans[1].len());
    match r.below(8) {
        0 => files.plans[1].truncate(last - r.from(1, 13)),
        1 => {
            let end = files.plans[any].len();
            files.plans[any].resize(end + r.from(1, 5), 0);
        }
        2 => {
            let before = files.network.len() + files.plans[0].len();
            files.plans[1].resize(r.from(8_190, 8_200) - before, 0);
        }
        3 => cut_first(r, &mut files),
        _ => {}
    }
    files
}

/// A final with thousands of bytes behind one of its files.
pub fn long(r: &mut Random, network: fn(&mut Random) -> Draft) -> Files {
    let network = network(r).file();
    let plans = pair(r, &network);
    let mut files = Files { network, plans };
    let more = random_bytes(r, LONGEST);
    match r.below(6) {
        0 => files.network.extend(more),
        1 => files.plans[0].extend(more),
        _ => files.plans[1].extend(more),
    }
    files
}
