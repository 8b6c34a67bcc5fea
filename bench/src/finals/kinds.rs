//! The kinds of replies that finals get.
use super::contest;
use super::files::Files;
use crate::counts::kind;
use crate::enumeration::finals::{Asked, Better, Final, Held};

/// How the files of a final are lent.
#[derive(Clone, Copy, Debug, PartialEq, Eq, PartialOrd, Ord)]
pub enum Lent {
    InOneInput,
    Apart,
}

pub const BOTH: [Lent; 2] = [Lent::InOneInput, Lent::Apart];

const MARKS: [&str; 6] = ["VALID cheapest", "VALID dearer", "SHORT", "BROKEN 1", "BROKEN 2", "BROKEN 3"];
const RESULTS: [&str; 7] = [
    "FIRST alone valid",
    "FIRST cheaper",
    "FIRST at equal cost",
    "FIRST with equal steps",
    "SECOND alone valid",
    "SECOND cheaper",
    "NEITHER",
];

/// The kinds of a reply: of each mark, both marks, who wins and against which odds; or the refusal with the file that
/// broke the rule.
pub fn of(files: &Files, reply: &Final) -> Vec<String> {
    match reply {
        Final::Refused(refused) => vec![refusal(refused.asked, refused.rule)],
        Final::Held(held) => {
            let text = reply.text();
            let marks: Vec<String> = text.lines().map(|line| kind(line.as_bytes())).collect();
            let read = files.as_read();
            let mut kinds = vec![first(&marks[0]), second(&marks[1]), pair(&marks[0], &marks[1])];
            kinds.push(result(&read, held).to_string());
            kinds.extend(contest::kinds_of(&read, held.costs()).into_iter().map(String::from));
            kinds
        }
    }
}

fn first(mark: &str) -> String {
    format!("first {mark}")
}

fn second(mark: &str) -> String {
    format!("second {mark}")
}

fn pair(first: &str, second: &str) -> String {
    format!("{first} and {second}")
}

fn refusal(asked: Asked, rule: u64) -> String {
    format!("{asked:?} REFUSED {rule}")
}

/// Who wins between the plans of files that are accepted, and why.
fn result(files: &Files, held: &Held) -> &'static str {
    match (held.better, held.costs()) {
        (Better::Neither, _) => "NEITHER",
        (Better::First, [_, None]) => "FIRST alone valid",
        (Better::First, [first, second]) if first != second => "FIRST cheaper",
        (Better::First, _) if files.plans[0] == files.plans[1] => "FIRST with equal steps",
        (Better::First, _) => "FIRST at equal cost",
        (Better::Second, [None, _]) => "SECOND alone valid",
        (Better::Second, _) => "SECOND cheaper",
    }
}

/// All kinds that there are, but for those of both marks and of odds. Only a file lent apart meets rule 13 before
/// another one.
pub fn all(lent: Lent) -> Vec<String> {
    let marks = MARKS.map(first).into_iter().chain(MARKS.map(second));
    let plan = || (1..=4).chain(10..=13);
    let network = (1..=9).chain([13, 20]).map(|rule| (Asked::Network, rule));
    let firsts = plan().map(|rule| (Asked::First, rule));
    let seconds = plan().map(|rule| (Asked::Second, rule));
    let starts = (14..=18).map(|rule| (Asked::Start, rule));
    let can_be = |&(asked, rule): &(Asked, u64)| lent == Lent::Apart || rule != 13 || asked == Asked::Second;
    let refusals = network.chain(firsts).chain(seconds).chain(starts).filter(can_be);
    let refusals = refusals.map(|(asked, rule)| refusal(asked, rule));
    marks.chain(RESULTS.map(String::from)).chain(refusals).collect()
}

/// All kinds of both marks.
pub fn pairs(_: Lent) -> Vec<String> {
    MARKS.iter().flat_map(|one| MARKS.iter().map(|other| pair(one, other))).collect()
}

/// All kinds of pairs that are won against the odds.
pub fn contests(_: Lent) -> Vec<String> {
    contest::KINDS.map(String::from).to_vec()
}

/// The kinds in which a cost is printed.
pub fn costs(_: Lent) -> Vec<String> {
    let valid = &MARKS[..2];
    let marks = valid.iter().flat_map(|mark| [first(mark), second(mark)]);
    marks.chain(RESULTS[..6].iter().map(|result| result.to_string())).collect()
}
