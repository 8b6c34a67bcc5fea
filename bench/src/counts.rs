//! How often each kind of reply and mark occurred.
use std::collections::BTreeMap;

const PLANNER: &str = "planner";
const JUDGE: &str = "judge";
const PROGRAMS: [&str; 2] = [PLANNER, JUDGE];

/// The kinds that have a cost.
pub const COSTS: [&str; 3] = ["planner PLAN", "judge VALID cheapest", "judge VALID dearer"];

#[derive(Default)]
pub struct Counts(BTreeMap<String, u64>);

impl Counts {
    pub fn add_reply(&mut self, text: &[u8]) {
        self.add(PLANNER, text);
    }

    pub fn add_mark(&mut self, text: &[u8]) {
        self.add(JUDGE, text);
    }

    fn add(&mut self, program: &str, text: &[u8]) {
        *self.0.entry(format!("{program} {}", kind(text))).or_default() += 1;
    }

    fn of(&self, kind: &str) -> u64 {
        self.0.get(kind).copied().unwrap_or(0)
    }

    /// Those of some kinds that occurred less often than that.
    pub fn fewer_than(&self, kinds: &[String], least: u64) -> Vec<String> {
        kinds.iter().filter(|kind| self.of(kind) < least).cloned().collect()
    }

    pub fn has_any(&self, kinds: &[String]) -> bool {
        kinds.iter().any(|kind| self.of(kind) > 0)
    }

    /// How often each of these kinds occurred, on a line for each program.
    pub fn lines(&self, kinds: &[String]) -> String {
        let line = |program: &str| {
            let own = kinds.iter().filter_map(|kind| Some((kind.strip_prefix(program)?, self.of(kind))));
            let listed: Vec<String> = own.map(|(name, count)| format!("{}: {count}", name.trim_start())).collect();
            format!("{program}: {}\n", listed.join(", "))
        };
        PROGRAMS.map(line).concat()
    }
}

/// The first word, with a refusal's number, a broken plan's reason, and whether a valid plan is a cheapest one.
pub fn kind(text: &[u8]) -> String {
    let text = String::from_utf8_lossy(text);
    let words: Vec<&str> = text.lines().next().unwrap_or("").split(' ').collect();
    match words[..] {
        ["REFUSED", number, _] => format!("REFUSED {number}"),
        ["BROKEN", _, reason] => format!("BROKEN {reason}"),
        ["VALID", _, "0"] => "VALID cheapest".to_string(),
        ["VALID", _, _] => "VALID dearer".to_string(),
        _ => words[0].to_string(),
    }
}

/// All kinds that there are.
pub fn all_kinds() -> Vec<String> {
    PROGRAMS.into_iter().flat_map(kinds).collect()
}

/// All kinds that a program has. A planner reads no plan, so rules 10 to 12 are the judge's alone.
fn kinds(program: &str) -> Vec<String> {
    let (words, rules): (&[&str], Vec<u64>) = if program == PLANNER {
        (&["PLAN", "NONE"], (1..=9).chain(13..=18).chain([20]).collect())
    } else {
        let marks = &["VALID cheapest", "VALID dearer", "SHORT", "BROKEN 1", "BROKEN 2", "BROKEN 3"];
        (marks, (1..=18).chain([20]).collect())
    };
    let refusals = rules.iter().map(|&rule| refusal(program, rule));
    words.iter().map(|word| format!("{program} {word}")).chain(refusals).collect()
}

fn refusal(program: &str, rule: u64) -> String {
    format!("{program} REFUSED {rule}")
}

/// The refusals of either program by these rules.
pub fn refusals(rules: &[u64]) -> Vec<String> {
    PROGRAMS.into_iter().flat_map(|program| rules.iter().map(move |&rule| refusal(program, rule))).collect()
}
