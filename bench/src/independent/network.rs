//! A network as its file states it, with rules 5 to 9 and 20.
use super::neighbours::Neighbours;
use super::reader::{number, Reader, Record, Refusal, ELEMENT, GUARDED, HEAD, LINK, WIDE_ELEMENT};

pub const ELEMENTS: usize = 64;
pub const LINKS: usize = 96;

#[derive(Clone, Copy, Default)]
pub struct Ratings {
    pub load: u32,
    pub capacity: u32,
}

pub struct Network {
    pub elements: usize,
    pub links: usize,
    /// of each element its own load and its capacity
    pub ratings: [Ratings; ELEMENTS],
    /// sources that aren't faulty
    pub sound: u64,
    pub faulty: u64,
    pub ends: [(u8, u8); LINKS],
    pub cost: [u16; LINKS],
    /// the switches that have a guard, and of each its guard
    pub guarded: u128,
    pub guard: [u8; LINKS],
    pub fixed: u128,
    /// the links closed at the start, fixed ones among them
    pub closed: u128,
    /// the starting configuration; in an accepted network, with the operable switches open
    pub neighbours: Neighbours,
}

impl Network {
    /// The records of a network file up to its end record.
    pub fn read(reader: &mut Reader) -> Result<Box<Network>, Refusal> {
        let head = reader.record(HEAD)?;
        let [elements, links] = head.words.map(usize::from);
        head.demand(5, (1..=ELEMENTS).contains(&elements) && links <= LINKS)?;
        let mut network = Box::new(Network::empty(elements, links));
        for element in 0..elements {
            if reader.is_next(WIDE_ELEMENT) {
                network.put_element::<5>(element, reader.record(WIDE_ELEMENT)?)?;
            } else {
                network.put_element::<3>(element, reader.record(ELEMENT)?)?;
            }
        }
        let mut bit = 1;
        for link in 0..links {
            if reader.is_next(GUARDED) {
                network.put_link::<5>(link, bit, reader.record(GUARDED)?)?;
            } else {
                network.put_link::<4>(link, bit, reader.record(LINK)?)?;
            }
            bit <<= 1;
        }
        reader.end()?;
        Ok(network)
    }

    fn empty(elements: usize, links: usize) -> Network {
        Network {
            elements,
            links,
            ratings: [Ratings::default(); ELEMENTS],
            sound: 0,
            faulty: 0,
            ends: [(0, 0); LINKS],
            cost: [0; LINKS],
            guarded: 0,
            guard: [0; LINKS],
            fixed: 0,
            closed: 0,
            neighbours: Neighbours::none(),
        }
    }

    /// Load and capacity share what is left of a record's words beside its flags.
    fn put_element<const WORDS: usize>(&mut self, element: usize, record: Record<WORDS>) -> Result<(), Refusal> {
        let (ratings, flags) = (&record.words[..WORDS - 1], record.words[WORDS - 1]);
        record.demand(6, flags <= 3)?;
        let (load, capacity) = ratings.split_at(WORDS / 2);
        self.ratings[element] = Ratings { load: number(load), capacity: number(capacity) };
        self.sound |= ((flags == 1) as u64) << element;
        self.faulty |= ((flags >= 2) as u64) << element;
        Ok(())
    }

    /// A fifth word is the guard of a switch.
    fn put_link<const WORDS: usize>(&mut self, link: usize, bit: u128, record: Record<WORDS>) -> Result<(), Refusal> {
        let (a, b, form, cost) = (record.words[0], record.words[1], record.words[2], record.words[3]);
        record.demand(7, a.max(b) < self.elements as u16 && a != b)?;
        record.demand(8, form <= 2 && (WORDS == 4 || form != 0))?;
        record.demand(9, (form == 0) == (cost == 0))?;
        if let Some(&guard) = record.words.get(4) {
            record.demand(20, (guard as usize) < link && self.fixed >> guard & 1 == 0)?;
            self.guard[link] = guard as u8;
            self.guarded |= bit;
        }
        self.ends[link] = (a as u8, b as u8);
        self.cost[link] = cost;
        self.fixed |= if form == 0 { bit } else { 0 };
        if form != 1 {
            self.closed |= bit;
            self.neighbours.close((a as usize, b as usize));
        }
        Ok(())
    }

    pub fn ends(&self, link: usize) -> (usize, usize) {
        let (a, b) = self.ends[link];
        (a as usize, b as usize)
    }

    pub fn all(&self) -> u64 {
        u64::MAX >> (ELEMENTS - self.elements)
    }

    /// The links that aren't fixed.
    pub fn switches(&self) -> u128 {
        ((1 << self.links) - 1) & !self.fixed
    }

    pub fn load_of(&self, elements: u64) -> u64 {
        super::bits(elements as u128).map(|e| self.ratings[e].load as u64).sum()
    }
}
