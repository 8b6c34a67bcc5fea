//! Trial finals: the marks of two plan files, and the step records of the better one as they lie in the lent bytes.
mod numbers;
mod reading;
mod result;

pub use result::Better;

use super::judge::Mark;
use super::reader::Refusal;
use super::text;

pub enum Final<'a> {
    Refused(Refusal),
    Held(Held<'a>),
}

pub struct Held<'a> {
    pub marks: [Mark; 2],
    pub better: Better,
    pub part: &'a [u8],
    /// of the part in the input, or in the file lent
    pub offset: usize,
}

/// Of a network file with two plan files directly behind one another.
pub fn of_one_input(input: &[u8]) -> Final<'_> {
    match reading::one_input(input) {
        Ok((accepted, plans)) => Final::Held(result::of(&accepted, plans, [input, input])),
        Err(refusal) => Final::Refused(refusal),
    }
}

/// Of a network file and two plan files lent apart.
pub fn lent_apart<'a>(network: &[u8], plans: [&'a [u8]; 2]) -> Final<'a> {
    match reading::apart(network, plans) {
        Ok((accepted, submitted)) => Final::Held(result::of(&accepted, submitted, plans)),
        Err(refusal) => Final::Refused(refusal),
    }
}

impl Final<'_> {
    /// The printed lines behind what `out` holds.
    pub fn put_text(&self, out: &mut Vec<u8>) {
        match self {
            Final::Refused(refusal) => text::mark(out, &Mark::Refused(*refusal)),
            Final::Held(held) => held.marks.iter().for_each(|mark| text::mark(out, mark)),
        }
    }
}
