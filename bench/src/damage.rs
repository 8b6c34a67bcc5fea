//! Damaged inputs.
use crate::element_damage::damage_element;
use crate::link_damage::damage_link;
use crate::random::Random;
use crate::records::{records, records_of};
use std::ops::Range;

const EDGES: [u16; 21] = [0, 0, 0, 1, 2, 3, 4, 5, 6, 63, 64, 65, 95, 96, 97, 255, 256, 256, 257, 65535, 65535];

/// One to three damages, mostly one.
pub fn damaged(r: &mut Random, mut file: Vec<u8>) -> Vec<u8> {
    for _ in 0..r.pick(&[1, 1, 1, 1, 2, 3]) {
        if !file.is_empty() {
            damage(r, &mut file);
        }
    }
    file
}

fn damage(r: &mut Random, file: &mut Vec<u8>) {
    match r.below(100) {
        0..8 => change_byte(r, file),
        8..14 => change_word(r, file),
        14..41 => change_field(r, file),
        41..50 => damage_element(r, file),
        50..60 => damage_link(r, file),
        60..67 => file.truncate(r.below(file.len())),
        67..74 => append(r, file),
        74..79 => drop_record(r, file),
        79..84 => double_record(r, file),
        84..89 => swap_records(r, file),
        89..94 => change_front(r, file, 0),
        94..99 => change_front(r, file, 2),
        _ => file.clear(),
    }
}

fn change_byte(r: &mut Random, file: &mut [u8]) {
    let (at, any) = (r.below(file.len()), r.below(256) as u8);
    file[at] = r.pick(&[0, 1, 2, 255, any, file[at].wrapping_add(1), file[at].wrapping_sub(1)]);
}

fn put_edge(r: &mut Random, file: &mut [u8], at: usize) {
    if at + 2 <= file.len() {
        file[at..at + 2].copy_from_slice(&r.pick(&EDGES).to_le_bytes());
    }
}

fn change_word(r: &mut Random, file: &mut [u8]) {
    let at = r.below(file.len()) / 2 * 2;
    put_edge(r, file, at);
}

fn any_record(r: &mut Random, file: &[u8]) -> Range<usize> {
    let found = records(file);
    if found.is_empty() {
        return 0..0;
    }
    found[r.below(found.len())].clone()
}

/// A record of a kind drawn first, so that heads are drawn as often as links and steps more often.
fn record_of_a_kind(r: &mut Random, file: &[u8]) -> Range<usize> {
    let kind = r.pick(&[1, 2, 3, 3, 5, 6, 6, 7, 8]);
    let found = records_of(file, kind);
    if found.is_empty() {
        return any_record(r, file);
    }
    found[r.below(found.len())].clone()
}

/// A field behind a record's length and kind set to an edge value.
fn change_field(r: &mut Random, file: &mut [u8]) {
    let record = record_of_a_kind(r, file);
    if record.len() >= 6 {
        let at = record.start + 4 + 2 * r.below((record.len() - 4) / 2);
        put_edge(r, file, at);
    }
}

/// A record's length (at 0) or kind (at 2).
fn change_front(r: &mut Random, file: &mut [u8], field: usize) {
    let record = any_record(r, file);
    let at = record.start + field;
    if at + 2 > file.len() {
        return;
    }
    let number = r.pick(&[0, 1, 2, 3, 4, 5, 6, 7, 7, 8, 8, 9, 10, 12, 14, 256, 258, 263, 264, 65535]);
    file[at..at + 2].copy_from_slice(&u16::to_le_bytes(number));
}

fn append(r: &mut Random, file: &mut Vec<u8>) {
    let more = r.pick(&[1, 1, 2, 3, 4, 8, 40]);
    file.extend((0..more).map(|_| r.below(256) as u8));
}

fn drop_record(r: &mut Random, file: &mut Vec<u8>) {
    let record = any_record(r, file);
    file.drain(record);
}

fn double_record(r: &mut Random, file: &mut Vec<u8>) {
    let record = any_record(r, file);
    let copy = file[record.clone()].to_vec();
    file.splice(record.end..record.end, copy);
}

fn swap_records(r: &mut Random, file: &mut Vec<u8>) {
    let (a, b) = (any_record(r, file), any_record(r, file));
    let (a, b) = if a.start < b.start { (a, b) } else { (b, a) };
    if a.end <= b.start {
        let swapped = [&file[b.clone()], &file[a.end..b.start], &file[a.clone()]].concat();
        file.splice(a.start..b.end, swapped);
    }
}

pub fn random_bytes(r: &mut Random, most: usize) -> Vec<u8> {
    let length = r.below(most + 1);
    let few = r.one_in(2);
    (0..length).map(|_| if few { r.below(4) as u8 } else { r.below(256) as u8 }).collect()
}
