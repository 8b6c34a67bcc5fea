//! What the starting configuration decides: rules 14 to 16, what is live, restorable and operable.
use super::bits;
use super::neighbours::Neighbours;
use super::network::Network;
use super::reader::Refusal;
use super::walk::Walk;

#[derive(Clone, Copy)]
pub struct Start {
    pub live: u64,
    pub restorable: u64,
    pub operable: u128,
}

impl Start {
    /// With the live parts walked from their sources.
    pub fn of(network: &Network) -> Result<(Start, Walk), Refusal> {
        let neighbours = &network.neighbours;
        let (mut live, mut together, mut parts, mut walk) = (0, 0, 0, Walk::new());
        for source in bits(network.sound as u128) {
            if live >> source & 1 == 0 {
                let part = walk.add(neighbours, source);
                together |= several(part & network.sound);
                live |= part;
                parts += 1;
            }
        }
        parts += neighbours.parts(network.all() & !live).count();
        refuse_lowest(14, looped(network, parts))?;
        refuse_lowest(15, together)?;
        refuse_lowest(16, live & network.faulty)?;
        Ok((Start::beside(network, live), walk))
    }

    /// What is restorable and operable beside what is live: only switches with a dark end matter.
    fn beside(network: &Network, live: u64) -> Start {
        let dark = network.all() & !live;
        if dark == 0 || live == 0 {
            return Start { live, restorable: live, operable: 0 };
        }
        let switches = with_an_end_in(dark, network, network.switches());
        let restorable = live | restorable_in(dark, network, switches);
        Start { live, restorable, operable: with_an_end_in(restorable & dark, network, switches) }
    }

    /// The dark elements that are restorable.
    pub fn waiting(&self) -> u64 {
        self.restorable & !self.live
    }
}

/// The set, if it has more than one element.
fn several(set: u64) -> u64 {
    if set & set.wrapping_sub(1) == 0 {
        return 0;
    }
    set
}

/// Refuses with the lowest of these elements, if there is one.
pub fn refuse_lowest(rule: u64, elements: u64) -> Result<(), Refusal> {
    if elements == 0 {
        return Ok(());
    }
    Err(Refusal { rule, place: elements.trailing_zeros() as u64 })
}

/// The elements of parts that aren't trees: a tree has one link fewer than elements, and each other part has more.
fn looped(network: &Network, parts: usize) -> u64 {
    if network.closed.count_ones() as usize + parts == network.elements {
        return 0;
    }
    let links = |part: u64| bits(network.closed).filter(|&l| part >> network.ends[l].0 & 1 == 1).count();
    let parts = network.neighbours.parts(network.all());
    parts.filter(|&part| links(part) >= part.count_ones() as usize).fold(0, |all, part| all | part)
}

/// The links of these with an end in a set.
fn with_an_end_in(set: u64, network: &Network, links: u128) -> u128 {
    let inside = |element: u8| set >> element & 1 == 1;
    bits(links).filter(|&l| inside(network.ends[l].0) || inside(network.ends[l].1)).fold(0, |found, l| found | 1 << l)
}

/// The dark elements that unspoiled ones join to a live one; no live element is spoiled, as its part would have a
/// fault.
fn restorable_in(dark: u64, network: &Network, switches: u128) -> u64 {
    let (mut any, mut gates) = (network.neighbours.clone(), 0);
    for link in bits(switches) {
        let (a, b) = network.ends(link);
        any.close((a, b));
        gates |= (1 << a | 1 << b) & !dark;
    }
    any.reach(gates, dark & !spoiled(network)) & dark
}

fn spoiled(network: &Network) -> u64 {
    match network.faulty {
        0 => 0,
        faulty => Neighbours::over(network, network.fixed).reach(faulty, u64::MAX),
    }
}
