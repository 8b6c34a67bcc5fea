//! Damages of element records that a reader takes for good if it mixes up narrow and wide.
use crate::random::Random;
use crate::record_damage::{cut_off, put_for, swap_front, Front};
use crate::records::{links, records_of, NARROW_ELEMENT, WIDE_ELEMENT};
use std::ops::Range;

const NARROW: Front = (NARROW_ELEMENT, 10);
const WIDE: Front = (WIDE_ELEMENT, 14);

/// A damage of some element's record; a file without one keeps its bytes.
pub fn damage_element(r: &mut Random, file: &mut Vec<u8>) {
    let wanted = r.pick(&[NARROW_ELEMENT, WIDE_ELEMENT, WIDE_ELEMENT]);
    let found = [wanted, WIDE_ELEMENT, NARROW_ELEMENT].into_iter().map(|kind| records_of(file, kind));
    let Some(found) = found.into_iter().find(|found| !found.is_empty()) else { return };
    let record = found[r.below(found.len())].clone();
    match r.below(12) {
        0..3 => swap_front(r, file, record.start, [NARROW, WIDE]),
        3..6 => set_flag(r, file, record),
        6..9 => {
            let links = links(file);
            put_for(r, file, record, &links);
        }
        _ => cut_off(r, file, record, NARROW.1),
    }
}

/// Sets a bit of the flags, which are a record's last field, that no flags have.
fn set_flag(r: &mut Random, file: &mut [u8], record: Range<usize>) {
    let bit = r.from(2, 15);
    file[record.end - 2 + bit / 8] |= 1 << (bit % 8);
}
