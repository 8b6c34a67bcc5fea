//! The proved functions beside the independent ones on random inputs: every printed byte, every value, and every byte
//! of the lent buffers.
use crate::library;
use bench::coverage::{listed, Coverage, Each};
use bench::draft::plan_file;
use bench::guarded;
use bench::hard;
use bench::independent::{self, Mark, Reply};
use bench::inputs::input;
use bench::plans;
use bench::random::Random;
use bench::wide;
use bench::widening::{self, widened};
use std::fmt::Debug;

/// What a lent buffer holds before a call; no line and no plan file has this byte.
const PATTERN: u8 = b'~';
/// By how much a long buffer exceeds what goes into it: enough for any lines.
const MORE: usize = 200;

/// What values hold before a call: a number that no reply has, so that one left unwritten shows.
pub const UNWRITTEN: u64 = u64::MAX;

/// Of so many inputs, every kind of reply and mark must occur, with wide elements and with guarded switches too.
const ENOUGH: usize = 20_000;
const LEAST: Each<u64> = [1; 6];
/// One input of so many is compared once more with narrow elements rewritten as wide ones.
const WIDENED: usize = 4;

/// What differed, and what each side gave.
pub type Difference = String;

/// Draws an input.
type Draw = fn(&mut Random) -> Vec<u8>;

/// Compares on so many inputs, and on a tenth as many networks that are hard to plan.
pub fn run(seed: u64, count: usize) -> Result<(), String> {
    if !library::takes_null() {
        return Err("null with length 0 is not taken as the empty input".into());
    }
    let mut r = Random::new(seed);
    let mut coverage = Coverage::default();
    compare_all(&mut r, seed, count, input, &mut coverage)?;
    print!("{coverage}");
    compare_all(&mut r, seed, count / 10, hard_input, &mut Coverage::default())?;
    println!("{count} inputs and {} hard networks, seed {seed}: 0 differences", count / 10);
    let missing = coverage.fewer_than(LEAST);
    if count >= ENOUGH && missing.iter().any(|kinds| !kinds.is_empty()) {
        return Err(format!("never occurred: {}", listed(&missing)));
    }
    Ok(())
}

/// Compares on so many inputs that are drawn; on a difference says all that is needed to see it again.
fn compare_all(r: &mut Random, seed: u64, count: usize, draw: Draw, coverage: &mut Coverage) -> Result<(), String> {
    for number in 1..=count {
        let input = draw(r);
        let room = r.below(60);
        let mut found = shown(&input, compare(&input, room, coverage));
        if r.one_in(WIDENED) {
            let wider = widened(r, &input);
            found = found.and_then(|()| shown(&wider, compare_widened(&input, &wider, room)));
        }
        found.map_err(|difference| format!("difference at seed {seed}, input {number}, {difference}"))?;
    }
    Ok(())
}

/// A difference behind the input that it was found on.
fn shown(input: &[u8], found: Result<(), Difference>) -> Result<(), Difference> {
    found.map_err(|difference| {
        let hex: String = input.iter().map(|byte| format!("{byte:02x}")).collect();
        format!("{} bytes:\n{hex}\n{difference}", input.len())
    })
}

/// All comparisons on a widened input, for which the same must be printed as before.
fn compare_widened(input: &[u8], wider: &[u8], room: usize) -> Result<(), Difference> {
    compare(wider, room, &mut Coverage::default())?;
    for print in [independent::plan_text, independent::mark_text] {
        let (mut before, mut after) = (vec![], vec![]);
        print(input, &mut before);
        print(wider, &mut after);
        widening::same(&String::from_utf8_lossy(&before), &String::from_utf8_lossy(&after))?;
    }
    Ok(())
}

/// A network that is hard to plan, or one with good steps behind it, for the judge.
fn hard_input(r: &mut Random) -> Vec<u8> {
    let draft = hard::any(r);
    let draft = wide::mixed(r, draft);
    let mut file = guarded::mixed(r, draft).file();
    if r.one_in(2) {
        if let Ok(accepted) = independent::accept(&file) {
            file.extend(plan_file(&plans::good(r, &accepted, plans::MOST, false)));
        }
    }
    file
}

/// All comparisons on one input; `room` is the size of one more plan buffer, of any length.
fn compare(input: &[u8], room: usize, coverage: &mut Coverage) -> Result<(), Difference> {
    let (mut plan_text, mut mark_text) = (vec![], vec![]);
    independent::plan_text(input, &mut plan_text);
    independent::mark_text(input, &mut mark_text);
    same_text("the planner's lines", |out| library::plan_text(input, out), &plan_text)?;
    same_text("the judge's line", |out| library::mark_text(input, out), &mark_text)?;
    let reply = independent::plan(input);
    let needed = file_length(&reply);
    for (room, places) in [(needed + MORE, 8), (needed, 5), (needed.saturating_sub(1), 4), (room, room % 8)] {
        same_reply(input, &reply, room, places)?;
    }
    let (kind, values) = mark_values(independent::mark(input));
    for places in [3, 2, room % 2] {
        let mut lent = vec![UNWRITTEN; places];
        let (proved, count) = library::mark(input, &mut lent);
        let what = format!("the mark, its count and its values in {places} places");
        same(&what, (proved, count, lent), (kind, values.len(), in_places(&values, places)))?;
    }
    coverage.add_reply(input, &plan_text);
    coverage.add_mark(input, &mark_text);
    Ok(())
}

/// The length of the plan file, 0 where there is no plan.
fn file_length(reply: &Reply) -> usize {
    match reply {
        Reply::Plan(plan, _) => plan.file().len(),
        _ => 0,
    }
}

pub fn same<T: PartialEq + Debug>(what: &str, proved: T, other: T) -> Result<(), Difference> {
    if proved == other {
        return Ok(());
    }
    Err(format!("{what}\nproved: {proved:?}\nRust:   {other:?}"))
}

/// Into more room than needed, just enough and too little by one: the length handed back, and the bytes.
pub fn same_text(what: &str, write: impl Fn(&mut [u8]) -> usize, text: &[u8]) -> Result<(), Difference> {
    for room in [text.len() + MORE, text.len(), text.len() - 1] {
        let (mut out, mut wanted) = (vec![PATTERN; room], vec![PATTERN; room]);
        let length = write(&mut out);
        if text.len() <= room {
            wanted[..text.len()].copy_from_slice(text);
        }
        if (length, &out) != (text.len(), &wanted) {
            let what = format!("{what} in {room} bytes: length and bytes");
            return same(&what, (length, String::from_utf8_lossy(&out)), (text.len(), String::from_utf8_lossy(&wanted)));
        }
    }
    Ok(())
}

/// The planner's values in so many places, their count, and its plan file in a buffer of that size: rule 19 where it
/// doesn't fit.
fn same_reply(input: &[u8], reply: &Reply, room: usize, places: usize) -> Result<(), Difference> {
    let (mut buffer, mut wanted) = (vec![PATTERN; room], vec![PATTERN; room]);
    let mut lent = vec![UNWRITTEN; places];
    let (proved, count) = library::plan(input, &mut buffer, &mut lent);
    let (kind, values) = put_reply(reply, &mut wanted);
    let what = format!("the planner's kind, its count and its values in {places} places with {room} bytes");
    same(&what, (proved, count, lent), (kind, values.len(), in_places(&values, places)))?;
    same(&format!("the planner's buffer of {room} bytes"), buffer, wanted)
}

/// The values, as many as there are places for; a place behind them keeps what it held.
pub fn in_places(values: &[u64], places: usize) -> Vec<u64> {
    let mut lent = vec![UNWRITTEN; places];
    let fit = places.min(values.len());
    lent[..fit].copy_from_slice(&values[..fit]);
    lent
}

fn put_reply(reply: &Reply, buffer: &mut [u8]) -> (u64, [u64; 5]) {
    match reply {
        Reply::Refused(refusal) => (0, [refusal.rule, refusal.place, 0, 0, 0]),
        Reply::None(sums) => (2, [0, 0, sums.fed, sums.dark, sums.lost]),
        Reply::Plan(plan, sums) => {
            let file = plan.file();
            if buffer.len() < file.len() {
                return (0, [19, file.len() as u64, 0, 0, 0]);
            }
            buffer[..file.len()].copy_from_slice(&file);
            (1, [plan.steps() as u64, plan.cost, sums.fed, sums.dark, sums.lost])
        }
    }
}

fn mark_values(mark: Mark) -> (u64, [u64; 2]) {
    match mark {
        Mark::Refused(refusal) => (0, [refusal.rule, refusal.place]),
        Mark::Broken { step, reason } => (1, [step, reason]),
        Mark::Short { element } => (2, [element, 0]),
        Mark::Valid { cost, excess } => (3, [cost, excess]),
    }
}
