//! How often each kind of reply and mark occurred: in all, for inputs with wide elements or guarded switches, at their
//! records, and with guards in the cost.
use crate::charged::is_charged;
use crate::counts::{all_kinds, refusals, Counts, COSTS};
use crate::records::{is_of, records_of, GUARDED_LINK, WIDE_ELEMENT};
use std::fmt;

/// What is counted apart.
struct Group {
    name: &'static str,
    /// whether an input and what was printed for it count
    has: fn(&[u8], &[u8]) -> bool,
    /// the kinds that are to occur
    kinds: fn() -> Vec<String>,
}

const GROUPS: Each<Group> = [
    Group { name: "in all", has: |_, _| true, kinds: all_kinds },
    Group { name: "with wide elements", has: |input, _| has_any_of(input, WIDE_ELEMENT), kinds: all_kinds },
    Group {
        name: "at a wide element's record",
        has: |input, text| is_at(input, text, WIDE_ELEMENT),
        kinds: || refusals(&[2, 3, 4, 6]),
    },
    Group { name: "with guarded switches", has: |input, _| has_any_of(input, GUARDED_LINK), kinds: all_kinds },
    Group {
        name: "at a guarded switch's record",
        has: |input, text| is_at(input, text, GUARDED_LINK),
        kinds: || refusals(&[2, 3, 4, 7, 8, 9, 20]),
    },
    Group { name: "with guards in the cost", has: is_charged, kinds: || COSTS.map(String::from).to_vec() },
];

/// Something for each of these groups, in that order.
pub type Each<T> = [T; 6];

#[derive(Default)]
pub struct Coverage(Each<Counts>);

impl Coverage {
    pub fn add_reply(&mut self, network: &[u8], text: &[u8]) {
        self.counts_for(network, text).for_each(|counts| counts.add_reply(text));
    }

    pub fn add_mark(&mut self, input: &[u8], text: &[u8]) {
        self.counts_for(input, text).for_each(|counts| counts.add_mark(text));
    }

    /// Those of the groups that an input and what was printed for it count for.
    fn counts_for<'a>(&'a mut self, input: &'a [u8], text: &'a [u8]) -> impl Iterator<Item = &'a mut Counts> {
        let counts = self.0.iter_mut().zip(GROUPS);
        counts.filter(|(_, group)| (group.has)(input, text)).map(|(counts, _)| counts)
    }

    /// What occurred less often than that.
    pub fn fewer_than(&self, least: Each<u64>) -> Each<Vec<String>> {
        let rare = |group: usize| self.0[group].fewer_than(&(GROUPS[group].kinds)(), least[group]);
        std::array::from_fn(rare)
    }

    pub fn has_any(&self, kinds: &Each<Vec<String>>) -> bool {
        self.0.iter().zip(kinds).any(|(counts, kinds)| counts.has_any(kinds))
    }
}

/// What occurred too rarely, on one line.
pub fn listed(rare: &Each<Vec<String>>) -> String {
    let named = GROUPS.into_iter().zip(rare).filter(|(_, kinds)| !kinds.is_empty());
    named.map(|(group, kinds)| format!("{} {}", group.name, kinds.join(", "))).collect::<Vec<_>>().join("; ")
}

pub fn has_any_of(input: &[u8], kind: u16) -> bool {
    !records_of(input, kind).is_empty()
}

/// Whether a refusal's place is an offset where a record says that it is of that kind.
fn is_at(input: &[u8], text: &[u8], kind: u16) -> bool {
    let text = String::from_utf8_lossy(text);
    let words: Vec<&str> = text.split_whitespace().collect();
    match words[..] {
        ["REFUSED", rule, place] => {
            let in_record = matches!(rule.parse(), Ok(2..=12 | 20));
            in_record && place.parse().is_ok_and(|place| is_of(input, place, kind))
        }
        _ => false,
    }
}

impl fmt::Display for Coverage {
    fn fmt(&self, f: &mut fmt::Formatter) -> fmt::Result {
        let listed = self.0.iter().zip(GROUPS);
        listed.map(|(counts, group)| write!(f, "{}\n{}", group.name, counts.lines(&(group.kinds)()))).collect()
    }
}
