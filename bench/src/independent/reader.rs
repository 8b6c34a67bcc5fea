//! Records from the front of the lent bytes, with rules 1 to 4 and 13.

pub const HEAD: u16 = 1;
pub const ELEMENT: u16 = 2;
pub const LINK: u16 = 3;
pub const END: u16 = 4;
pub const PLAN_HEAD: u16 = 5;
pub const STEP: u16 = 6;
pub const WIDE_ELEMENT: u16 = 7;
pub const GUARDED: u16 = 8;

#[derive(Clone, Copy, Debug, PartialEq)]
pub struct Refusal {
    pub rule: u64,
    pub place: u64,
}

pub struct Reader<'a> {
    rest: &'a [u8],
    at: usize,
}

/// A record's words behind its length and its kind, and the offset of its first byte. A field of four bytes is two
/// words.
pub struct Record<const WORDS: usize> {
    pub words: [u16; WORDS],
    place: usize,
}

pub fn word(bytes: &[u8], at: usize) -> u16 {
    u16::from_le_bytes([bytes[at], bytes[at + 1]])
}

/// The number that some words make, the lowest first.
pub fn number(words: &[u16]) -> u32 {
    words.iter().rev().fold(0, |high, &word| high << 16 | word as u32)
}

/// A record's length and kind.
fn front(kind: u16, length: usize) -> [u8; 4] {
    (length as u32 | (kind as u32) << 16).to_le_bytes()
}

impl<'a> Reader<'a> {
    pub fn new(bytes: &'a [u8]) -> Self {
        Reader { rest: bytes, at: 0 }
    }

    /// Of bytes whose first has that offset.
    pub fn counting_on(bytes: &'a [u8], at: usize) -> Self {
        Reader { rest: bytes, at }
    }

    /// The next record, which must be of that kind. A kind's length follows from its count of words.
    #[inline(always)]
    pub fn record<const WORDS: usize>(&mut self, kind: u16) -> Result<Record<WORDS>, Refusal> {
        let (place, length) = (self.at, 4 + 2 * WORDS);
        match self.rest.split_at_checked(length) {
            Some((record, rest)) if record[..4] == front(kind, length) => {
                (self.rest, self.at) = (rest, place + length);
                Ok(Record { words: std::array::from_fn(|i| word(record, 4 + 2 * i)), place })
            }
            _ => self.refuse(self.broken(kind, length)),
        }
    }

    /// Whether the next bytes name that kind.
    #[inline(always)]
    pub fn is_next(&self, kind: u16) -> bool {
        self.rest.len() >= 4 && word(self.rest, 2) == kind
    }

    /// The first of rules 1 to 4 that the next bytes break, where they are no record of that kind.
    #[cold]
    fn broken(&self, kind: u16, length: usize) -> u64 {
        let rest = self.rest;
        if rest.len() < 4 {
            1
        } else if word(rest, 2) != kind {
            2
        } else if word(rest, 0) as usize != length {
            3
        } else {
            4
        }
    }

    pub fn end(&mut self) -> Result<(), Refusal> {
        self.record::<0>(END).map(|_| ())
    }

    /// Rule 13, behind the last end record.
    pub fn finish(&self) -> Result<(), Refusal> {
        if !self.rest.is_empty() {
            return self.refuse(13);
        }
        Ok(())
    }

    /// What is still unread.
    pub fn rest(&self) -> &'a [u8] {
        self.rest
    }

    fn refuse<T>(&self, rule: u64) -> Result<T, Refusal> {
        Err(Refusal { rule, place: self.at as u64 })
    }
}

impl<const WORDS: usize> Record<WORDS> {
    pub fn demand(&self, rule: u64, kept: bool) -> Result<(), Refusal> {
        if kept {
            return Ok(());
        }
        Err(Refusal { rule, place: self.place as u64 })
    }
}
