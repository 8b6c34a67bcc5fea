//! Narrow elements rewritten as wide ones, which changes no printed line of a file that passes rules 1 to 13 and 20.
use crate::draft::{put_element, Element};
use crate::random::Random;
use crate::records::{records, word, NARROW_ELEMENT};

/// The rules whose place is no offset, as far as programs print them.
const PASSED: std::ops::RangeInclusive<u64> = 14..=18;

/// The input with all or some of its narrow elements as wide ones of the same numbers.
pub fn widened(r: &mut Random, input: &[u8]) -> Vec<u8> {
    let one_of = r.pick(&[1, 2, 4]);
    let (mut wider, mut end) = (vec![], 0);
    for record in records(input) {
        let bytes = &input[record.clone()];
        if word(bytes, 2) == NARROW_ELEMENT && bytes.len() == 10 && r.one_in(one_of) {
            put_element(&mut wider, &wide(bytes));
        } else {
            wider.extend(bytes);
        }
        end = record.end;
    }
    wider.extend(&input[end..]);
    wider
}

fn wide(record: &[u8]) -> Element {
    let (load, capacity, flags) = (word(record, 4) as u32, word(record, 6) as u32, word(record, 8));
    Element { load, capacity, flags, wide: true }
}

/// Whether what was printed for an input says that it passes rules 1 to 13 and 20.
pub fn passes(printed: &str) -> bool {
    let words: Vec<&str> = printed.split_whitespace().collect();
    words[0] != "REFUSED" || words[1].parse::<u64>().is_ok_and(|rule| PASSED.contains(&rule))
}

/// An error where a file that passes is printed something else for once it is widened.
pub fn same(printed: &str, when_widened: &str) -> Result<(), String> {
    if !passes(printed) || printed == when_widened {
        return Ok(());
    }
    Err(format!("printed:\n{printed}once widened:\n{when_widened}"))
}
