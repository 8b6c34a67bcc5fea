//! The stored corpus: networks with submitted plans, and what the enumeration prints for them.
use crate::comparison::Answers;
use crate::coverage::{listed, Coverage, Each};
use crate::draft::{plan_file, Draft};
use crate::independent::{self, SWITCHES};
use crate::inputs;
use crate::items::{item, large, Item};
use crate::longest;
use crate::random::Random;
use crate::tried;
use std::path::Path;

const SEED: u64 = 20_261_117;
const BRIEF: usize = 2300;
const MIDDLE: usize = 100;
const TWELVE: usize = 40;
const LARGE: usize = 24;
const LONGEST: usize = 6;

/// Every kind of reply and of mark occurs at least so often in each group.
const LEAST: Each<u64> = [50, 25, 12, 25, 12, 50];
/// At least so many networks have as many operable switches as there may be.
const LEAST_TWELVE: usize = 50;
/// So many items are drawn at most for kinds that are too rare.
const DRAWN: usize = 1_000_000;

/// The items of the corpus, and what was printed for them.
#[derive(Default)]
struct Corpus {
    items: Vec<Item>,
    printed: Vec<u8>,
    coverage: Coverage,
}

impl Corpus {
    fn add(&mut self, item: Item, answers: &Answers) {
        answers.count(&item, &mut self.coverage);
        self.printed.extend(answers.reply.bytes());
        answers.marks.iter().for_each(|mark| self.printed.extend(mark.bytes()));
        self.items.push(item);
    }

    fn draw(&mut self, r: &mut Random, count: usize, network: fn(&mut Random) -> Draft) -> Result<(), String> {
        for _ in 0..count {
            self.add_item(item(r, network))?;
        }
        Ok(())
    }

    fn add_item(&mut self, item: Item) -> Result<(), String> {
        let answers = Answers::of(&item)?;
        self.add(item, &answers);
        Ok(())
    }

    /// Networks with plans of the longest lengths that are accepted.
    fn draw_longest(&mut self, r: &mut Random) -> Result<(), String> {
        for _ in 0..LONGEST {
            let network = longest::network(r).file();
            let plan = plan_file(&longest::steps(r, &network));
            self.add_item(Item { network, plans: vec![plan] })?;
        }
        Ok(())
    }

    /// Draws on, and keeps what gets a reply or a mark of a kind that is still rare.
    fn fill(&mut self, r: &mut Random) -> Result<(), String> {
        let mut rare = self.coverage.fewer_than(LEAST);
        for _ in 0..DRAWN {
            if rare.iter().all(Vec::is_empty) {
                return Ok(());
            }
            let item = item(r, inputs::brief);
            let answers = Answers::of(&item)?;
            let mut coverage = Coverage::default();
            answers.count(&item, &mut coverage);
            if coverage.has_any(&rare) {
                self.add(item, &answers);
                rare = self.coverage.fewer_than(LEAST);
            }
        }
        Err(format!("{}occurred too rarely: {}", self.coverage, listed(&rare)))
    }

    fn report(&self) -> Result<(), String> {
        let plans: usize = self.items.iter().map(|item| item.plans.len()).sum();
        let twelve = self.items.iter().filter(|item| has_twelve(&item.network)).count();
        print!("{}", self.coverage);
        println!("{} networks, {twelve} with {SWITCHES} operable switches, {plans} plans", self.items.len());
        println!("{} bytes in, {} bytes out, 0 differences", self.stdin().len(), self.printed.len());
        if twelve < LEAST_TWELVE {
            return Err(format!("fewer than {LEAST_TWELVE} networks have {SWITCHES} operable switches"));
        }
        Ok(())
    }

    /// Each item as a length of two bytes, low byte first, and the network part; a byte for how many plan parts follow;
    /// and each of these behind its length.
    fn stdin(&self) -> Vec<u8> {
        let mut bytes = vec![];
        for Item { network, plans } in &self.items {
            put_part(&mut bytes, network);
            bytes.push(plans.len() as u8);
            plans.iter().for_each(|plan| put_part(&mut bytes, plan));
        }
        bytes
    }
}

pub fn put_part(bytes: &mut Vec<u8>, part: &[u8]) {
    bytes.extend((part.len() as u16).to_le_bytes());
    bytes.extend(part);
}

/// Whether a network has as many operable switches as there may be.
fn has_twelve(network: &[u8]) -> bool {
    independent::accept(network).is_ok_and(|accepted| accepted.start.operable.count_ones() as usize == SWITCHES)
}

/// A network of any shape that has so many.
fn twelve(r: &mut Random) -> Draft {
    loop {
        let draft = inputs::network(r);
        if has_twelve(&draft.file()) {
            return draft;
        }
    }
}

/// Writes `stdin` and `stdout` into a folder, once the enumeration says of the tried networks what the
/// documents do.
pub fn write(folder: &Path) -> Result<(), String> {
    tried::check()?;
    let mut r = Random::new(SEED);
    let mut corpus = Corpus::default();
    corpus.draw(&mut r, BRIEF, inputs::brief)?;
    corpus.draw(&mut r, MIDDLE, inputs::network)?;
    corpus.draw(&mut r, TWELVE, twelve)?;
    corpus.draw(&mut r, LARGE, large)?;
    corpus.draw_longest(&mut r)?;
    corpus.fill(&mut r)?;
    put_file(folder, "stdin", &corpus.stdin())?;
    put_file(folder, "stdout", &corpus.printed)?;
    corpus.report()
}

pub fn put_file(folder: &Path, name: &str, bytes: &[u8]) -> Result<(), String> {
    let path = folder.join(name);
    std::fs::write(&path, bytes).map_err(|error| format!("{}: {error}", path.display()))
}
