//! The records of an input, from its front: rules 1 to 4, and 13.
use super::refusal::Refusal;

/// A kind of record, by its number and its length in bytes.
#[derive(Clone, Copy, PartialEq)]
pub struct Kind {
    pub number: u64,
    pub length: usize,
}

pub struct Record<'a> {
    pub kind: Kind,
    place: usize,
    bytes: &'a [u8],
}

impl Record<'_> {
    /// The two-byte field with that many such fields before it; the length and the kind come before all of them.
    pub fn field(&self, before: usize) -> u64 {
        self.number(4 + 2 * before, 2)
    }

    /// The number of so many bytes at an offset from the record's front.
    pub fn number(&self, at: usize, width: usize) -> u64 {
        number(self.bytes, at, width)
    }

    /// Refuses this record by a rule that it breaks.
    pub fn refuse_if(&self, broken: bool, rule: u64) -> Result<(), Refusal> {
        if broken {
            return Err(Refusal { rule, place: self.place });
        }
        Ok(())
    }
}

pub struct Records<'a> {
    input: &'a [u8],
    at: usize,
}

impl<'a> Records<'a> {
    pub fn of(input: &'a [u8]) -> Records<'a> {
        Records { input, at: 0 }
    }

    /// The record that is due, which must be of one of the kinds that may come here.
    pub fn next(&mut self, may_come: &[Kind]) -> Result<Record<'a>, Refusal> {
        let rest = &self.input[self.at..];
        let refused = |rule| Refusal { rule, place: self.at };
        if rest.len() < 4 {
            return Err(refused(1));
        }
        let kind = may_come.iter().find(|kind| kind.number == number(rest, 2, 2)).ok_or(refused(2))?;
        if number(rest, 0, 2) != kind.length as u64 {
            return Err(refused(3));
        }
        if rest.len() < kind.length {
            return Err(refused(4));
        }
        let record = Record { kind: *kind, place: self.at, bytes: &rest[..kind.length] };
        self.at += kind.length;
        Ok(record)
    }

    /// The offset of what is due next.
    pub fn at(&self) -> usize {
        self.at
    }

    /// Rule 13: nothing may follow.
    pub fn end(self) -> Result<(), Refusal> {
        if self.at < self.input.len() {
            return Err(Refusal { rule: 13, place: self.at });
        }
        Ok(())
    }
}

/// So many bytes, low byte first.
fn number(bytes: &[u8], at: usize, width: usize) -> u64 {
    bytes[at..at + width].iter().rev().fold(0, |higher, &byte| 256 * higher + byte as u64)
}
