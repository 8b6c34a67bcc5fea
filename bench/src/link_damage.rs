//! Damages of link records that a reader takes for good if it mixes up guarded and other ones, or asks too little of a
//! guard.
use crate::draft::FIXED;
use crate::random::Random;
use crate::record_damage::{cut_off, put_for, swap_front, Front};
use crate::records::{elements, is_of, links, word, GUARDED_LINK, LINK};
use std::ops::Range;

const PLAIN: Front = (LINK, 12);
const GUARDED: Front = (GUARDED_LINK, 14);

/// Offsets in a link's record.
const FORM: usize = 8;
const COST: usize = 10;
const GUARD: usize = 12;

/// A damage of some link's record, mostly of a guarded one or of one that becomes guarded; a file without links keeps
/// its bytes.
pub fn damage_link(r: &mut Random, file: &mut Vec<u8>) {
    let found = links(file);
    if found.is_empty() {
        return;
    }
    let number = drawn(r, file, &found);
    let record = found[number].clone();
    if r.one_in(8) {
        return swap_front(r, file, record.start, [PLAIN, GUARDED]);
    }
    let guard = bad_guard(r, file, &found, number);
    let Some(record) = made_guarded(file, record, guard) else { return };
    match r.below(20) {
        0..4 => fix_guard(file, &found, record.start),
        4..7 => put(file, record.start + FORM, r.pick(&[0, 0, 3, 4, 256, 65_535])),
        7..9 => put(file, record.start + COST, 0),
        9..11 => {
            put(file, record.start + GUARD, guard);
            put(file, record.start + r.pick(&[FORM, COST]), 0);
        }
        11..16 => put(file, record.start + GUARD, guard),
        16..18 => {
            let elements = elements(file);
            put_for(r, file, record, &elements);
        }
        _ => cut_off(r, file, record, PLAIN.1),
    }
}

/// Makes a fixed link of the guard that a switch has, if that is an earlier link without a guard.
fn fix_guard(file: &mut [u8], found: &[Range<usize>], at: usize) {
    let guard = found.get(word(file, at + GUARD) as usize).filter(|guard| guard.start < at);
    if let Some(guard) = guard.filter(|guard| (word(file, guard.start + 2), guard.len() as u16) == PLAIN) {
        put(file, guard.start + FORM, FIXED);
        put(file, guard.start + COST, 0);
    }
}

/// The number of a link: a guarded one if there is one, sometimes the first, or any.
fn drawn(r: &mut Random, file: &[u8], found: &[Range<usize>]) -> usize {
    let guarded = (0..found.len()).filter(|&number| is_of(file, found[number].start, GUARDED_LINK)).collect::<Vec<_>>();
    match r.below(8) {
        0 => 0,
        1..7 if !guarded.is_empty() => r.pick(&guarded),
        _ => r.below(found.len()),
    }
}

/// Makes a link's record one with that guard if it has none; hands back where it is then.
fn made_guarded(file: &mut Vec<u8>, record: Range<usize>, guard: u16) -> Option<Range<usize>> {
    let front = (word(file, record.start + 2), record.len() as u16);
    if front == GUARDED {
        return Some(record);
    }
    if front != PLAIN {
        return None;
    }
    put(file, record.start, GUARDED.1);
    put(file, record.start + 2, GUARDED.0);
    file.splice(record.end..record.end, guard.to_le_bytes());
    Some(record.start..record.end + 2)
}

/// A number that isn't an earlier switch's, with few exceptions: its own, a later one, one that no link has, that of a
/// fixed link, or an earlier one with something added to its high byte.
fn bad_guard(r: &mut Random, file: &[u8], found: &[Range<usize>], number: usize) -> u16 {
    let is_fixed = |link: &usize| found[*link].len() > COST && word(file, found[*link].start + FORM) == FIXED;
    let fixed: Vec<usize> = (0..number).filter(is_fixed).collect();
    let later = r.from(number, found.len());
    let guard = match r.below(8) {
        0 => number,
        1 => later,
        2 => r.pick(&[found.len() - 1, found.len(), 95, 96, 127, 128, 255]),
        3 => 65_535,
        4 => r.below(number + 1) + 256 * r.from(1, 255),
        _ if !fixed.is_empty() => r.pick(&fixed),
        _ => number + 1,
    };
    guard as u16
}

fn put(file: &mut [u8], at: usize, number: u16) {
    file[at..at + 2].copy_from_slice(&number.to_le_bytes());
}
