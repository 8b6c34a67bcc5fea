//! The enumeration beside the independent implementation on finals: the same lines, values and parts.
use super::coverage::{listed, Coverage, Each};
use super::draw;
use super::files::{Files, Item};
use super::kinds::Lent;
use super::laws;
use crate::enumeration::finals::{self, Better, Final};
use crate::independent::finals as independent;
use crate::random::Random;
use std::fmt::Debug;

/// Of so many finals, every kind of reply must occur.
const ENOUGH: usize = 100_000;
const LEAST: Each<u64> = [1; 6];

/// What is answered to a final whose files are in one input, and lent apart.
pub struct Answers {
    pub one: Final,
    pub apart: Final,
}

impl Answers {
    /// By the enumeration; an error where the independent implementation answers otherwise.
    pub fn of(files: &Files) -> Result<Answers, String> {
        let input = files.input();
        let [first, second] = files.plans();
        let one = finals::of_one_input(&input);
        let apart = finals::lent_apart(&files.network, first, second);
        same(&one, [&input, &input], &independent::of_one_input(&input))?;
        same(&apart, [first, second], &independent::lent_apart(&files.network, [first, second]))?;
        Ok(Answers { one, apart })
    }

    /// Those to an item, pair by pair; an error says on which files implementations differ.
    pub fn of_all(item: &Item) -> Result<Vec<Answers>, String> {
        item.finals().map(|files| Answers::of(&files).map_err(|error| shown(&files, error))).collect()
    }

    pub fn count(&self, files: &Files, coverage: &mut Coverage) {
        coverage.add(files, Lent::InOneInput, &self.one);
        coverage.add(files, Lent::Apart, &self.apart);
    }
}

/// An error behind the files that it was found on.
pub fn shown(files: &Files, error: String) -> String {
    let hex = |file: &[u8]| file.iter().map(|byte| format!("{byte:02x}")).collect::<String>();
    let [first, second] = files.plans().map(hex);
    format!("on the files\n{}\n{first}\n{second}\n{error}", hex(&files.network))
}

/// Both say the same; `lent` is where the first and the second file's part are.
fn same(enumerated: &Final, lent: [&[u8]; 2], other: &independent::Final) -> Result<(), String> {
    let mut text = vec![];
    other.put_text(&mut text);
    equal("the lines", enumerated.text(), String::from_utf8_lossy(&text).into_owned())?;
    equal("the values", enumerated.values(), other.numbers())?;
    if let (Final::Held(held), independent::Final::Held(other)) = (enumerated, other) {
        let file = lent[(held.better == Better::Second) as usize];
        equal("the part", &file[held.part.clone()], other.part)?;
    }
    Ok(())
}

fn equal<T: PartialEq + Debug>(what: &str, enumerated: T, other: T) -> Result<(), String> {
    if enumerated == other {
        return Ok(());
    }
    Err(format!("{what}\nenumeration: {enumerated:?}\nindependent: {other:?}"))
}

/// Compares them on so many finals, and holds their answers to what the documents say of any.
pub fn compare(seed: u64, count: usize) -> Result<(), String> {
    let mut r = Random::new(seed);
    let mut coverage = Coverage::default();
    let (mut networks, mut finals) = (0, 0);
    while finals < count {
        let item = draw::any(&mut r);
        networks += 1;
        let found = compare_item(&mut r, &item, &mut coverage);
        found.map_err(|error| format!("seed {seed}, network {networks}: {error}"))?;
        finals += item.pairs.len();
    }
    println!("{coverage}{networks} networks, {finals} finals, seed {seed}: 0 differences");
    let missing = coverage.fewer_than(LEAST);
    if finals >= ENOUGH && !missing.is_empty() {
        return Err(format!("never occurred: {}", listed(&missing)));
    }
    Ok(())
}

fn compare_item(r: &mut Random, item: &Item, coverage: &mut Coverage) -> Result<(), String> {
    for (files, answers) in item.finals().zip(Answers::of_all(item)?) {
        laws::check(r, &files, &answers).map_err(|error| shown(&files, error))?;
        answers.count(&files, coverage);
    }
    Ok(())
}
