//! The stored corpus of finals: networks with pairs of plans, and what the enumeration answers to them.
//! crates/test_finals/src/main.rt says how both files are laid out.
//!
//! Every kind of answer (each mark of each file; who wins and why; each refusal by each file that can break its rule,
//! and by the start) occurs at least 25 times for one input and for files lent apart, every two marks at least 3 times,
//! every kind at least 5 times with wide elements and with guarded switches, and every kind that has a cost at least 10
//! times with guards in it. At least 10 pairs of each kind would be won by the other plan if fewer steps did or if guards
//! cost nothing. One input is as long as any that is accepted.
use super::comparison::Answers;
use super::coverage::{listed, Coverage, Each};
use super::draw;
use super::files::{Files, Item};
use super::tried;
use crate::corpus::{put_file, put_part};
use crate::draft::Draft;
use crate::enumeration::finals::Final;
use crate::inputs;
use crate::random::Random;
use std::path::Path;

const SEED: u64 = 20_261_118;
const BRIEF: usize = 250;
const MIDDLE: usize = 16;
const LONGEST: usize = 1;

/// The length of the longest input that is accepted: all elements are wide, all links but the first guarded, and both
/// plans have 255 steps.
const FULL: usize = 6350;

/// Every kind of reply occurs at least so often in each group.
const LEAST: Each<u64> = [25, 3, 10, 5, 5, 10];
/// So many items are drawn at most for kinds that are too rare, and kept if all files together have at most so many
/// bytes.
const DRAWN: usize = 2_000_000;
const KEPT: usize = 240;
/// What both stored files have at most together.
const MOST: usize = 300_000;

#[derive(Default)]
struct Corpus {
    items: Vec<Item>,
    printed: String,
    coverage: Coverage,
}

impl Corpus {
    fn add(&mut self, item: Item, answers: &[Answers]) {
        for (files, answers) in item.finals().zip(answers) {
            answers.count(&files, &mut self.coverage);
            self.printed += &(lines(&answers.one) + &lines(&answers.apart));
        }
        self.items.push(item);
    }

    fn add_item(&mut self, item: Item) -> Result<(), String> {
        let answers = Answers::of_all(&item)?;
        self.add(item, &answers);
        Ok(())
    }

    fn draw(&mut self, r: &mut Random, count: usize, network: fn(&mut Random) -> Draft) -> Result<(), String> {
        (0..count).try_for_each(|_| self.add_item(draw::item(r, network)))
    }

    /// Inputs of the most elements, links and steps, and one as long as any that is accepted.
    fn draw_longest(&mut self, r: &mut Random) -> Result<(), String> {
        (0..LONGEST).try_for_each(|_| self.add_item(Item::of(draw::longest(r))))?;
        let is_full = |files: &Files| files.input().len() == FULL && files.is_accepted();
        let full = std::iter::repeat_with(|| draw::longest(r)).find(is_full).expect("draws don't end");
        self.add_item(Item::of(full))
    }

    /// Draws on, and keeps what is short and gets a reply of a kind that is still rare.
    fn fill(&mut self, r: &mut Random) -> Result<(), String> {
        let mut rare = self.coverage.fewer_than(LEAST);
        for _ in 0..DRAWN {
            if rare.is_empty() {
                return Ok(());
            }
            for item in singles(draw::item(r, inputs::brief)) {
                let answers = Answers::of_all(&item)?;
                let mut coverage = Coverage::default();
                item.finals().zip(&answers).for_each(|(files, answers)| answers.count(&files, &mut coverage));
                if coverage.has_any(&rare) {
                    self.add(item, &answers);
                    rare = self.coverage.fewer_than(LEAST);
                }
            }
        }
        Err(format!("{}occurred too rarely: {}", self.coverage, listed(&rare)))
    }

    /// Each item as a length of two bytes, low byte first, and the network part; a byte for how many pairs follow; and
    /// each part of these behind its length.
    fn stdin(&self) -> Vec<u8> {
        let mut bytes = vec![];
        for Item { network, pairs } in &self.items {
            put_part(&mut bytes, network);
            bytes.push(pairs.len() as u8);
            pairs.iter().flatten().for_each(|part| put_part(&mut bytes, part));
        }
        bytes
    }

    fn report(&self) -> Result<(), String> {
        let finals: usize = self.items.iter().map(|item| item.pairs.len()).sum();
        let (input, output) = (self.stdin().len(), self.printed.len());
        print!("{}", self.coverage);
        println!("{} networks, {finals} finals", self.items.len());
        println!("{input} bytes in, {output} bytes out, 0 differences");
        if input + output > MOST {
            return Err(format!("more than {MOST} bytes"));
        }
        Ok(())
    }
}

/// Each pair of an item as an item of its own, if it is short.
fn singles(item: Item) -> impl Iterator<Item = Item> {
    let is_short = |item: &Item| item.finals().all(|files| files.input().len() <= KEPT);
    item.finals().map(Item::of).filter(is_short).collect::<Vec<_>>().into_iter()
}

/// What is printed, and behind marks the part: which file's, offset and length.
fn lines(reply: &Final) -> String {
    let (kind, values) = reply.values();
    let [.., better, offset, length] = values;
    let part = if kind == 0 { String::new() } else { format!("PART {better} {offset} {length}\n") };
    reply.text() + &part
}

/// Writes `stdin` and `stdout` into a folder, once the enumeration says of the tried finals what the documents do.
pub fn write(folder: &Path) -> Result<(), String> {
    tried::check()?;
    let mut r = Random::new(SEED);
    let mut corpus = Corpus::default();
    corpus.draw(&mut r, BRIEF, inputs::brief)?;
    corpus.draw(&mut r, MIDDLE, inputs::network)?;
    corpus.draw_longest(&mut r)?;
    corpus.fill(&mut r)?;
    corpus.report()?;
    put_file(folder, "stdin", &corpus.stdin())?;
    put_file(folder, "stdout", corpus.printed.as_bytes())
}
