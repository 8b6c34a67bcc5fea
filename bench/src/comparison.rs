//! The enumeration beside the independent planner and judge: they must print the same bytes.
use crate::coverage::Coverage;
use crate::draft::Draft;
use crate::enumeration;
use crate::independent;
use crate::inputs;
use crate::items::{item, large, Item, DECIDING_BYTES};
use crate::longest;
use crate::random::Random;
use crate::widening;

/// What planner and judge print for an item.
pub struct Answers {
    pub reply: String,
    pub marks: Vec<String>,
}

impl Answers {
    /// By the enumeration; an error where the independent ones print another byte.
    pub fn of(item: &Item) -> Result<Answers, String> {
        let reply = enumeration::plan_text(&item.network);
        same(&item.network, &reply, independent::plan_text)?;
        let mut marks = vec![];
        for input in item.inputs() {
            let mark = enumeration::mark_text(&input);
            same(&input, &mark, independent::mark_text)?;
            marks.push(mark);
        }
        Ok(Answers { reply, marks })
    }

    pub fn count(&self, item: &Item, coverage: &mut Coverage) {
        coverage.add_reply(&item.network, self.reply.as_bytes());
        item.inputs().zip(&self.marks).for_each(|(input, mark)| coverage.add_mark(&input, mark.as_bytes()));
    }
}

fn same(input: &[u8], enumerated: &str, other: fn(&[u8], &mut Vec<u8>)) -> Result<(), String> {
    let mut printed = vec![];
    other(input, &mut printed);
    if printed == enumerated.as_bytes() {
        return Ok(());
    }
    let hex: String = input.iter().map(|byte| format!("{byte:02x}")).collect();
    let printed = String::from_utf8_lossy(&printed);
    Err(format!("difference on the input\n{hex}\nenumeration:\n{enumerated}independent:\n{printed}"))
}

/// Any network; one in a hundred is among the largest.
fn any(r: &mut Random) -> Draft {
    if r.one_in(100) {
        return large(r);
    }
    inputs::network(r)
}

/// Both print the same for an item once narrow elements are rewritten as wide ones, if it passes rules 1 to 13 and 20.
fn same_when_widened(r: &mut Random, item: &Item, answers: &Answers) -> Result<(), String> {
    let wider = Item { network: widening::widened(r, &item.network), plans: item.plans.clone() };
    let others = Answers::of(&wider)?;
    widening::same(&answers.reply, &others.reply)?;
    answers.marks.iter().zip(&others.marks).try_for_each(|(mark, other)| widening::same(mark, other))
}

/// Both print the same for a long input as for the bytes of it that decide.
fn same_when_cut(r: &mut Random) -> Result<(), String> {
    let input = if r.one_in(4) { longest::input(r) } else { inputs::long(r) };
    let item = |bytes: &[u8]| Item { network: bytes.to_vec(), plans: vec![vec![]] };
    let (whole, cut) = (Answers::of(&item(&input))?, Answers::of(&item(&input[..input.len().min(DECIDING_BYTES)]))?);
    if (&whole.reply, &whole.marks) == (&cut.reply, &cut.marks) {
        return Ok(());
    }
    Err(format!("{} bytes are answered otherwise than the first {DECIDING_BYTES}", input.len()))
}

/// One item; hands back how many plans it has.
fn compare_one(r: &mut Random, coverage: &mut Coverage) -> Result<usize, String> {
    let item = item(r, any);
    let answers = Answers::of(&item)?;
    answers.count(&item, coverage);
    if r.one_in(8) {
        same_when_widened(r, &item, &answers)?;
    }
    if r.one_in(200) {
        same_when_cut(r)?;
    }
    Ok(item.plans.len())
}

/// Compares them on so many networks with their plans.
pub fn compare(seed: u64, count: usize) -> Result<(), String> {
    let mut r = Random::new(seed);
    let mut coverage = Coverage::default();
    let mut plans = 0;
    for number in 1..=count {
        let drawn = compare_one(&mut r, &mut coverage);
        plans += drawn.map_err(|difference| format!("seed {seed}, item {number}: {difference}"))?;
    }
    println!("{coverage}{count} networks, {plans} plans, seed {seed}: 0 differences");
    Ok(())
}
