//! How often each kind of reply occurred: in all, for networks with wide elements or guarded switches, and with guards
//! in a cost.
use super::files::Files;
use super::kinds::{self, Lent, BOTH};
use crate::charged::is_charged;
use crate::coverage::has_any_of;
use crate::enumeration::finals::Final;
use crate::records::{GUARDED_LINK, WIDE_ELEMENT};
use std::collections::BTreeMap;
use std::fmt;

/// What is counted apart.
struct Group {
    name: &'static str,
    /// whether a final with its reply counts
    has: fn(&Files, &Final) -> bool,
    /// the kinds that are to occur
    kinds: fn(Lent) -> Vec<String>,
}

const GROUPS: Each<Group> = [
    Group { name: "in all", has: |_, _| true, kinds: kinds::all },
    Group { name: "both marks", has: |_, _| true, kinds: kinds::pairs },
    Group { name: "against the odds", has: |_, _| true, kinds: kinds::contests },
    Group { name: "with wide elements", has: |files, _| has(files, WIDE_ELEMENT), kinds: kinds::all },
    Group { name: "with guarded switches", has: |files, _| has(files, GUARDED_LINK), kinds: kinds::all },
    Group { name: "with guards in a cost", has: charges, kinds: kinds::costs },
];

/// Something for each of these groups, in that order.
pub type Each<T> = [T; 6];

/// Group, how the files were lent, kind.
type Counted = (usize, Lent, String);

#[derive(Default)]
pub struct Coverage(BTreeMap<Counted, u64>);

impl Coverage {
    pub fn add(&mut self, files: &Files, lent: Lent, reply: &Final) {
        let kinds = kinds::of(files, reply);
        for (number, _) in GROUPS.iter().enumerate().filter(|(_, group)| (group.has)(files, reply)) {
            kinds.iter().for_each(|kind| *self.0.entry((number, lent, kind.clone())).or_default() += 1);
        }
    }

    fn count(&self, counted: &Counted) -> u64 {
        self.0.get(counted).copied().unwrap_or(0)
    }

    /// What occurred less often than that.
    pub fn fewer_than(&self, least: Each<u64>) -> Vec<Counted> {
        all().filter(|counted| self.count(counted) < least[counted.0]).collect()
    }

    pub fn has_any(&self, of: &[Counted]) -> bool {
        of.iter().any(|counted| self.count(counted) > 0)
    }
}

/// All kinds that are to occur.
fn all() -> impl Iterator<Item = Counted> {
    (0..GROUPS.len()).flat_map(|group| BOTH.into_iter().flat_map(move |lent| kinds_of(group, lent)))
}

fn kinds_of(group: usize, lent: Lent) -> impl Iterator<Item = Counted> {
    (GROUPS[group].kinds)(lent).into_iter().map(move |kind| (group, lent, kind))
}

/// Some kinds on one line.
pub fn listed(some: &[Counted]) -> String {
    let named = some.iter().map(|(group, lent, kind)| format!("{} {lent:?} {kind}", GROUPS[*group].name));
    named.collect::<Vec<_>>().join(", ")
}

fn has(files: &Files, kind: u16) -> bool {
    has_any_of(&files.input(), kind)
}

/// Whether a plan that is called valid operates a guarded switch.
fn charges(files: &Files, reply: &Final) -> bool {
    let Final::Held(held) = reply else { return false };
    let (read, costs) = (files.as_read(), held.costs());
    let is_charged = |plan: usize| is_charged(&[&read.network[..], &read.plans[plan]].concat(), b"VALID ");
    (0..2).any(|plan| costs[plan].is_some() && is_charged(plan))
}

impl fmt::Display for Coverage {
    fn fmt(&self, f: &mut fmt::Formatter) -> fmt::Result {
        for (number, group) in GROUPS.iter().enumerate() {
            for lent in BOTH {
                let counts = kinds_of(number, lent).map(|counted| format!("{}: {}", counted.2, self.count(&counted)));
                writeln!(f, "{}, {lent:?}: {}", group.name, counts.collect::<Vec<_>>().join(", "))?;
            }
        }
        Ok(())
    }
}
