//! A network: elements, links, and which links an element has.

pub struct Element {
    pub load: u64,
    pub capacity: u64,
    pub source: bool,
    pub faulty: bool,
}

impl Element {
    pub fn is_sound_source(&self) -> bool {
        self.source && !self.faulty
    }
}

#[derive(Clone, Copy, PartialEq)]
pub enum Form {
    Fixed,
    Open,
    Closed,
}

pub struct Link {
    pub ends: [usize; 2],
    pub form: Form,
    pub cost: u64,
    /// the link that is its guard, if it has one
    pub guard: Option<usize>,
}

impl Link {
    pub fn is_switch(&self) -> bool {
        self.form != Form::Fixed
    }

    /// The end that isn't the element given.
    pub fn far_end(&self, near: usize) -> usize {
        if self.ends[0] == near {
            return self.ends[1];
        }
        self.ends[0]
    }
}

pub struct Network {
    pub elements: Vec<Element>,
    pub links: Vec<Link>,
    links_at: Vec<Vec<usize>>,
}

impl Network {
    pub fn new(elements: Vec<Element>, links: Vec<Link>) -> Network {
        let mut links_at = vec![vec![]; elements.len()];
        for (number, link) in links.iter().enumerate() {
            link.ends.iter().for_each(|&end| links_at[end].push(number));
        }
        Network { elements, links, links_at }
    }

    /// The links with an end at that element, by rising number.
    pub fn links_at(&self, element: usize) -> &[usize] {
        &self.links_at[element]
    }

    /// The elements that a test holds of, by rising number.
    pub fn elements_where(&self, test: impl Fn(&Element) -> bool) -> Vec<usize> {
        (0..self.elements.len()).filter(|&number| test(&self.elements[number])).collect()
    }
}
