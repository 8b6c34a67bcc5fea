//! A network or a plan that is being drawn, and its file.
use crate::random::Random;

#[derive(Clone, Copy)]
pub struct Element {
    pub load: u32,
    pub capacity: u32,
    pub flags: u16,
    /// whether its record is wide though its numbers fit a narrow one
    pub wide: bool,
}

/// The most that a number of two bytes holds.
pub const NARROW: u32 = u16::MAX as u32;

impl Element {
    pub fn is_wide(&self) -> bool {
        self.wide || self.load.max(self.capacity) > NARROW
    }
}

#[derive(Clone, Copy)]
pub struct Link {
    pub ends: (usize, usize),
    pub form: u16,
    pub cost: u16,
    /// the link that is its guard, if it has one
    pub guard: Option<usize>,
}

impl Link {
    pub fn is_switch(&self) -> bool {
        self.form != FIXED
    }
}

pub const FIXED: u16 = 0;
pub const OPEN: u16 = 1;
pub const CLOSED: u16 = 2;

#[derive(Clone, Default)]
pub struct Draft {
    pub elements: Vec<Element>,
    pub links: Vec<Link>,
}

impl Draft {
    /// An element whose record is as narrow as its numbers let it be.
    pub fn add_element(&mut self, load: u32, capacity: u32, flags: u16) {
        self.elements.push(Element { load, capacity, flags, wide: false });
    }

    /// A link; a fixed one costs nothing whatever is given.
    pub fn add_link(&mut self, ends: (usize, usize), form: u16, cost: u16) {
        self.links.push(Link { ends, form, cost: if form == FIXED { 0 } else { cost }, guard: None });
    }

    pub fn file(&self) -> Vec<u8> {
        let mut file = vec![];
        put(&mut file, &[8, 1, self.elements.len() as u16, self.links.len() as u16]);
        self.elements.iter().for_each(|element| put_element(&mut file, element));
        self.links.iter().for_each(|link| put_link(&mut file, link));
        put(&mut file, &[4, 4]);
        file
    }

    /// The same network with other numbers for its elements and links, none of which has a guard yet.
    pub fn renumbered(mut self, r: &mut Random) -> Draft {
        let mut place: Vec<usize> = (0..self.elements.len()).collect();
        r.shuffle(&mut place);
        let old = self.elements.clone();
        old.iter().zip(&place).for_each(|(&element, &to)| self.elements[to] = element);
        for link in &mut self.links {
            let (a, b) = (place[link.ends.0], place[link.ends.1]);
            link.ends = if r.one_in(2) { (a, b) } else { (b, a) };
        }
        r.shuffle(&mut self.links);
        self
    }
}

/// A plan file of steps: link and state wanted.
pub fn plan_file(steps: &[(usize, u16)]) -> Vec<u8> {
    let mut file = vec![];
    put(&mut file, &[6, 5, steps.len() as u16]);
    for &(link, state) in steps {
        put(&mut file, &[8, 6, link as u16, state]);
    }
    put(&mut file, &[4, 4]);
    file
}

/// An element's record: load and capacity have four bytes each in a wide one, else two.
pub fn put_element(file: &mut Vec<u8>, element: &Element) {
    let (kind, width) = if element.is_wide() { (7, 4) } else { (2, 2) };
    put(file, &[6 + 2 * width as u16, kind]);
    file.extend(&element.load.to_le_bytes()[..width]);
    file.extend(&element.capacity.to_le_bytes()[..width]);
    put(file, &[element.flags]);
}

/// A link's record: a guard comes last.
fn put_link(file: &mut Vec<u8>, link: &Link) {
    let (length, kind) = if link.guard.is_some() { (14, 8) } else { (12, 3) };
    put(file, &[length, kind, link.ends.0 as u16, link.ends.1 as u16, link.form, link.cost]);
    link.guard.iter().for_each(|&guard| put(file, &[guard as u16]));
}

fn put(file: &mut Vec<u8>, numbers: &[u16]) {
    numbers.iter().for_each(|n| file.extend(n.to_le_bytes()));
}
