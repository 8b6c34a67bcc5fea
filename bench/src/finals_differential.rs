//! The proved functions for finals beside both implementations in Rust: every printed byte, every value, and every byte
//! of the lent buffers.
use crate::differential::{in_places, same, same_text, Difference, UNWRITTEN};
use crate::library_finals::{self as library, Kind, VALUES};
use bench::enumeration::finals::Final;
use bench::finals::comparison::{shown, Answers};
use bench::finals::coverage::{listed, Coverage, Each};
use bench::finals::{draw, Files, Item};
use bench::random::Random;

/// Of so many finals, every kind of reply must occur.
const ENOUGH: usize = 50_000;
const LEAST: Each<u64> = [1; 6];

/// Compares on at least so many finals.
pub fn run(seed: u64, count: usize) -> Result<(), String> {
    if !library::takes_null() {
        return Err("null with length 0 is not taken as the empty input".into());
    }
    let mut r = Random::new(seed);
    let mut coverage = Coverage::default();
    let mut finals = 0;
    while finals < count {
        let item = draw::any(&mut r);
        let found = compare_item(&mut r, &item, &mut coverage);
        found.map_err(|error| format!("difference at seed {seed}, final {finals} or behind, {error}"))?;
        finals += item.pairs.len();
    }
    println!("{coverage}{finals} finals, seed {seed}: 0 differences");
    let missing = coverage.fewer_than(LEAST);
    if count >= ENOUGH && !missing.is_empty() {
        return Err(format!("never occurred: {}", listed(&missing)));
    }
    Ok(())
}

fn compare_item(r: &mut Random, item: &Item, coverage: &mut Coverage) -> Result<(), String> {
    for (files, answers) in item.finals().zip(Answers::of_all(item)?) {
        compare(&files, &answers, r.below(VALUES)).map_err(|difference| shown(&files, difference))?;
        answers.count(&files, coverage);
    }
    Ok(())
}

/// All comparisons on one final; `places` is one more room for values, too small for all.
fn compare(files: &Files, answers: &Answers, places: usize) -> Result<(), Difference> {
    let input = files.input();
    let (one, apart) = (answers.one.text(), answers.apart.text());
    same_text("the lines for one input", |out| library::one_input_text(&input, out), one.as_bytes())?;
    same_text("the lines for files lent apart", |out| library::apart_text(files, out), apart.as_bytes())?;
    for places in [VALUES + 3, VALUES, places] {
        let call = |lent: &mut [u64]| library::of_one_input(&input, lent);
        same_values("one input", call, &answers.one, places)?;
        let call = |lent: &mut [u64]| library::lent_apart(files, lent);
        same_values("files lent apart", call, &answers.apart, places)?;
    }
    Ok(())
}

/// The kind, the count and the values in so many places.
fn same_values(
    what: &str,
    call: impl Fn(&mut [u64]) -> (Kind, usize),
    reply: &Final,
    places: usize,
) -> Result<(), Difference> {
    let mut lent = vec![UNWRITTEN; places];
    let (proved, count) = call(&mut lent);
    let (kind, values) = reply.values();
    let what = format!("kind, count and values of {what} in {places} places");
    same(&what, (proved, count, lent), (kind, values.len(), in_places(&values, places)))
}
