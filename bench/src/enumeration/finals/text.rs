//! Printed lines of a final.
use super::super::refusal::Refusal;
use super::super::text::{mark_line, refused_line};
use super::{Final, Refused};

impl Final {
    /// Both marks in file order, or the refusal.
    pub fn text(&self) -> String {
        match self {
            Final::Refused(Refused { rule, place, .. }) => refused_line(Refusal { rule: *rule, place: *place }),
            Final::Held(held) => held.marks.map(mark_line).concat(),
        }
    }
}
