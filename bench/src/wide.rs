//! Networks whose elements are wide, narrow or both, with small numbers or with large ones.
use crate::draft::{Draft, NARROW};
use crate::random::Random;

/// Numbers that a narrow element just holds or just doesn't, and some up to the largest that a wide one holds.
const EDGES: [u32; 12] = [
    NARROW - 1,
    NARROW,
    NARROW,
    NARROW + 1,
    NARROW + 2,
    2 * NARROW,
    1 << 24,
    1 << 31,
    u32::MAX - 1,
    u32::MAX,
    u32::MAX,
    u32::MAX,
];

/// The network as it is, with wide elements, or with wide elements and larger numbers.
pub fn mixed(r: &mut Random, mut draft: Draft) -> Draft {
    match r.below(8) {
        0..3 => return draft,
        3..5 => {}
        _ => enlarge(r, &mut draft),
    }
    if r.one_in(4) {
        touch(r, &mut draft);
    }
    widen(r, &mut draft);
    draft
}

/// Has all or some elements written wide.
pub fn widen(r: &mut Random, draft: &mut Draft) {
    let one_of = r.pick(&[1, 2, 2, 4]);
    draft.elements.iter_mut().for_each(|element| element.wide = r.one_in(one_of));
}

/// Multiplies loads and capacities, so that the largest of one or the sum of all loads comes near an edge. A rest below
/// the factor on top of each capacity leaves it as sufficient as it was.
pub fn enlarge(r: &mut Random, draft: &mut Draft) {
    let loads = draft.elements.iter().map(|element| element.load);
    let capacities = draft.elements.iter().map(|element| element.capacity);
    let measured = match r.below(3) {
        0 => loads.max().unwrap_or(0),
        1 => capacities.max().unwrap_or(0),
        _ => loads.sum(),
    };
    let factor = (r.pick(&EDGES) / measured.max(1)).max(1) as u64;
    let any = r.below(factor as usize) as u64;
    let rest = r.pick(&[0, 0, any, factor - 1]);
    for element in &mut draft.elements {
        element.load = multiplied(element.load, factor, 0);
        element.capacity = multiplied(element.capacity, factor, rest);
    }
}

/// The largest number that a wide element holds stands for all larger ones.
fn multiplied(number: u32, factor: u64, rest: u64) -> u32 {
    (number as u64 * factor + rest).min(u32::MAX as u64) as u32
}

/// Moves a load or a capacity by one, or to an edge.
fn touch(r: &mut Random, draft: &mut Draft) {
    let (at, edge) = (r.below(draft.elements.len()), r.pick(&EDGES));
    let element = &mut draft.elements[at];
    let number = if r.one_in(3) { &mut element.load } else { &mut element.capacity };
    *number = r.pick(&[number.saturating_sub(1), number.saturating_add(1), edge]);
}
