//! The tried networks of document 01 and such with wide elements or guards, with what the documents say of them.
use crate::draft::{plan_file, Draft, CLOSED, FIXED, OPEN};
use crate::enumeration::{mark_text, plan_text};
use crate::random::Random;
use crate::tried_guards;
use crate::widening::widened;

pub fn network_b() -> Draft {
    let mut draft = Draft::default();
    for (load, capacity, flags) in [(0, 5, 1), (2, 9, 0), (1, 9, 2), (3, 9, 0), (0, 3, 1)] {
        draft.add_element(load, capacity, flags);
    }
    draft.add_link((0, 1), CLOSED, 1);
    for (ends, cost) in [((1, 2), 1), ((2, 3), 1), ((3, 4), 4), ((1, 3), 2)] {
        draft.add_link(ends, OPEN, cost);
    }
    draft
}

pub fn network_d() -> Draft {
    let mut draft = Draft::default();
    for (load, capacity, flags) in [(0, 2, 1), (2, 9, 0), (2, 9, 0), (0, 2, 1)] {
        draft.add_element(load, capacity, flags);
    }
    for (ends, form) in [((0, 1), OPEN), ((1, 2), CLOSED), ((2, 3), OPEN)] {
        draft.add_link(ends, form, 1);
    }
    draft
}

/// A source with open switches to so many dark buses.
fn star(buses: usize) -> Draft {
    let mut draft = Draft::default();
    draft.add_element(0, 99, 1);
    for bus in 1..=buses {
        draft.add_element(1, 9, 0);
        draft.add_link((0, bus), OPEN, 1);
    }
    draft
}

pub fn changed(mut draft: Draft, change: impl Fn(&mut Draft)) -> Draft {
    change(&mut draft);
    draft
}

/// What the planner's lines begin with.
fn replies() -> Vec<(Draft, &'static str)> {
    let small = |capacity: u32| changed(network_b(), |b| b.elements[0].capacity = capacity);
    let mut alone = Draft::default();
    alone.add_element(0, 0, 1);
    vec![
        (network_b(), "PLAN 1 2\nCLOSE 4\nLOAD 5 0 1\n"),
        (small(4), "PLAN 1 4\nCLOSE 3\nLOAD"),
        (changed(small(4), |b| b.elements[4].capacity = 2), "NONE\nLOAD 2 3 1\n"),
        (small(1), "REFUSED 17 0\n"),
        (changed(network_b(), |b| b.links[3].cost = 2), "PLAN 1 2\nCLOSE 3\nLOAD"),
        (network_d(), "PLAN 3 3\nOPEN 1\nCLOSE 0\nCLOSE 2\nLOAD"),
        (changed(network_b(), |b| b.links[2].form = CLOSED), "PLAN 2 3\nOPEN 2\nCLOSE 4\nLOAD"),
        (changed(network_b(), |b| (b.links[3].form, b.links[3].cost) = (FIXED, 0)), "PLAN 0 0\nLOAD"),
        (changed(network_b(), |b| b.links[1].form = CLOSED), "REFUSED 16 2\n"),
        (star(12), "PLAN 12 12\nCLOSE 0\n"),
        (star(13), "REFUSED 18 13\n"),
        (alone, "PLAN 0 0\nLOAD 0 0 0\n"),
    ]
}

/// Network B with loads and capacities that only wide elements hold.
fn wide_b() -> Draft {
    changed(network_b(), |b| {
        b.elements[0].capacity = 500_000;
        (b.elements[1].load, b.elements[1].capacity) = (200_000, 900_000);
        (b.elements[3].load, b.elements[3].capacity) = (300_000, 900_000);
    })
}

/// A source of the largest capacity that feeds a bus of that load, and one of another load behind it.
fn brimful(load: u32) -> Draft {
    let mut draft = Draft::default();
    for (load, flags) in [(0, 1), (u32::MAX, 0), (load, 0)] {
        draft.add_element(load, u32::MAX, flags);
    }
    draft.add_link((0, 1), CLOSED, 1);
    draft.add_link((1, 2), CLOSED, 1);
    draft
}

/// What the planner's lines begin with for wide elements.
fn wide_replies() -> Vec<(Draft, &'static str)> {
    let all_wide = changed(network_b(), |b| b.elements.iter_mut().for_each(|element| element.wide = true));
    vec![
        (all_wide, "PLAN 1 2\nCLOSE 4\nLOAD 5 0 1\n"),
        (wide_b(), "PLAN 1 2\nCLOSE 4\nLOAD 500000 0 1\n"),
        (changed(wide_b(), |b| b.elements[0].capacity = 499_999), "NONE\nLOAD 200000 300000 1\n"),
        (changed(wide_b(), |b| b.elements[0].capacity = 199_999), "REFUSED 17 0\n"),
        (brimful(0), "PLAN 0 0\nLOAD 4294967295 0 0\n"),
        (brimful(1), "REFUSED 17 0\n"),
        (changed(brimful(1), |b| b.links[1].form = OPEN), "NONE\nLOAD 4294967295 1 0\n"),
        (changed(brimful(u32::MAX), |b| b.elements[1].flags = 2), "REFUSED 16 1\n"),
    ]
}

/// The planner's lines for network B with its first element wide and some bytes changed: element 0 stands at 8,
/// element 1 at 22, link 0 at 62.
fn edited() -> Vec<(Vec<u8>, &'static str)> {
    let file = changed(network_b(), |b| b.elements[0].wide = true).file();
    let with = |at: usize, byte: u8| {
        let mut bytes = file.clone();
        bytes[at] = byte;
        bytes
    };
    let at_link = [&file[..62], &file[8..22], &file[62..]].concat();
    vec![
        (with(8, 10), "REFUSED 3 8\n"),
        (with(22, 14), "REFUSED 3 22\n"),
        (with(24, 7), "REFUSED 3 22\n"),
        (at_link, "REFUSED 2 62\n"),
        (file[..18].to_vec(), "REFUSED 4 8\n"),
        (with(20, 4), "REFUSED 6 8\n"),
        (with(21, 1), "REFUSED 6 8\n"),
        (with(17, 1), "PLAN 1 2\nCLOSE 4\nLOAD 5 0 1\n"),
    ]
}

fn marks() -> Vec<(Draft, Vec<(usize, u16)>, &'static str)> {
    vec![
        (network_d(), vec![(0, 1)], "BROKEN 1 3\n"),
        (network_b(), vec![(3, 1)], "VALID 4 2\n"),
        (network_b(), vec![], "SHORT 3\n"),
        (wide_b(), vec![(4, 1)], "VALID 2 0\n"),
        (wide_b(), vec![(3, 1)], "BROKEN 1 3\n"),
        (wide_b(), vec![], "SHORT 3\n"),
    ]
}

/// Holds the enumeration to the documents, with the elements as they are and rewritten as wide ones.
pub fn check() -> Result<(), String> {
    let r = &mut Random::new(1);
    let mut tried = vec![(plan_text(&[]), "REFUSED 1 0\n")];
    for (network, said) in replies().into_iter().chain(wide_replies()).chain(tried_guards::replies()) {
        tried.push((plan_text(&network.file()), said));
        tried.push((plan_text(&widened(r, &network.file())), said));
    }
    let edited = edited().into_iter().chain(tried_guards::edited());
    tried.extend(edited.map(|(bytes, said)| (plan_text(&bytes), said)));
    for (network, steps, said) in marks().into_iter().chain(tried_guards::marks()) {
        let input = [network.file(), plan_file(&steps)].concat();
        tried.push((mark_text(&input), said));
        if !said.starts_with("REFUSED") {
            tried.push((mark_text(&widened(r, &input)), said));
        }
    }
    match tried.iter().find(|(printed, said)| !printed.starts_with(said)) {
        Some((printed, said)) => Err(format!("the documents say\n{said}and the enumeration\n{printed}")),
        None => Ok(()),
    }
}
