//! What the documents say of the answers to any final.
use super::comparison::Answers;
use super::files::Files;
use crate::enumeration::finals::{Asked, Better, Final};
use crate::independent;
use crate::items::DECIDING_BYTES;
use crate::random::Random;
use crate::widening;

/// The laws that cost a final once more are tried on one of so many.
const TRIED: usize = 8;

pub fn check(r: &mut Random, files: &Files, answers: &Answers) -> Result<(), String> {
    same_reply(files, answers)?;
    each_alone(files, answers)?;
    if files.input().len() > DECIDING_BYTES {
        same_when_cut(files, answers)?;
    }
    if r.one_in(TRIED) {
        same_when_widened(r, files, answers)?;
    }
    Ok(())
}

/// Where the network and the first file, lent apart, pass rules 1 to 13 and 20, both replies are the same, and the part
/// is the same bytes.
fn same_reply(files: &Files, answers: &Answers) -> Result<(), String> {
    match (&answers.one, &answers.apart) {
        (_, Final::Refused(refused)) if matches!(refused.asked, Asked::Network | Asked::First) => Ok(()),
        (Final::Held(one), Final::Held(apart)) => {
            let before = files.network.len() + if apart.better == Better::Second { files.plans[0].len() } else { 0 };
            let part = apart.part.start + before..apart.part.end + before;
            holds("the same part", (one.better, &one.part) == (apart.better, &part))?;
            holds("the same reply", answers.one.text() == answers.apart.text())
        }
        (one, apart) => holds("the same reply", one.values() == apart.values()),
    }
}

fn holds(law: &str, holds: bool) -> Result<(), String> {
    if holds {
        return Ok(());
    }
    Err(format!("{law}: doesn't hold"))
}

/// Each mark is the judge's for the network with that file alone behind it.
fn each_alone(files: &Files, answers: &Answers) -> Result<(), String> {
    let Final::Held(_) = answers.one else { return Ok(()) };
    let read = files.as_read();
    let mut text = vec![];
    for plan in read.plans() {
        independent::mark_text(&[&read.network[..], plan].concat(), &mut text);
    }
    holds("each mark alone", answers.one.text().as_bytes() == text)
}

/// The first bytes of one input decide.
fn same_when_cut(files: &Files, answers: &Answers) -> Result<(), String> {
    let input = files.input();
    let cut = Answers::of(&Files::cut(&input[..DECIDING_BYTES], [0, 0]))?;
    holds("the first bytes decide", answers.one.values() == cut.one.values())
}

/// Narrow elements rewritten as wide ones change no printed line of files that pass rules 1 to 13 and 20.
fn same_when_widened(r: &mut Random, files: &Files, answers: &Answers) -> Result<(), String> {
    let wider = Files { network: widening::widened(r, &files.network), plans: files.plans.clone() };
    let others = Answers::of(&wider)?;
    widening::same(&answers.one.text(), &others.one.text())?;
    widening::same(&answers.apart.text(), &others.apart.text())
}
