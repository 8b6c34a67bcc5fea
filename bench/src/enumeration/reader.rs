//! Network files and plan files: rules 5 to 12 and 20, each within its record.
use super::network::{Element, Form, Link, Network};
use super::records::{Kind, Record, Records};
use super::refusal::Refusal;

const NETWORK_HEAD: Kind = Kind { number: 1, length: 8 };
const NARROW_ELEMENT: Kind = Kind { number: 2, length: 10 };
const LINK: Kind = Kind { number: 3, length: 12 };
const END: Kind = Kind { number: 4, length: 4 };
const PLAN_HEAD: Kind = Kind { number: 5, length: 6 };
const STEP: Kind = Kind { number: 6, length: 8 };
const WIDE_ELEMENT: Kind = Kind { number: 7, length: 14 };
const GUARDED_SWITCH: Kind = Kind { number: 8, length: 14 };

/// The kinds that may come where an element is due, and where a link is.
const ELEMENTS: [Kind; 2] = [NARROW_ELEMENT, WIDE_ELEMENT];
const LINKS: [Kind; 2] = [LINK, GUARDED_SWITCH];

const MOST_ELEMENTS: u64 = 64;
const MOST_LINKS: u64 = 96;
const MOST_STEPS: u64 = 255;

/// The state wanted of a link.
#[derive(Clone, Copy)]
pub struct Step {
    pub link: usize,
    pub closed: bool,
}

/// What the planning program reads.
pub fn read_network(input: &[u8]) -> Result<Network, Refusal> {
    let mut records = Records::of(input);
    let network = network_file(&mut records)?;
    records.end()?;
    Ok(network)
}

/// What the judging program reads.
pub fn read_network_and_plan(input: &[u8]) -> Result<(Network, Vec<Step>), Refusal> {
    let mut records = Records::of(input);
    let network = network_file(&mut records)?;
    let steps = plan_file(&mut records, network.links.len() as u64)?;
    records.end()?;
    Ok((network, steps))
}

pub fn network_file(records: &mut Records) -> Result<Network, Refusal> {
    let head = records.next(&[NETWORK_HEAD])?;
    let (elements, links) = (head.field(0), head.field(1));
    head.refuse_if(elements < 1 || MOST_ELEMENTS < elements || MOST_LINKS < links, 5)?;
    let read_elements: Result<_, _> = (0..elements).map(|_| element(records.next(&ELEMENTS)?)).collect();
    let read_elements = read_elements?;
    let mut read_links = vec![];
    for _ in 0..links {
        let link = link(records.next(&LINKS)?, elements, &read_links)?;
        read_links.push(link);
    }
    records.next(&[END])?;
    Ok(Network::new(read_elements, read_links))
}

fn element(record: Record) -> Result<Element, Refusal> {
    let width = if record.kind == WIDE_ELEMENT { 4 } else { 2 };
    let (load, capacity) = (record.number(4, width), record.number(4 + width, width));
    let flags = record.number(4 + 2 * width, 2);
    record.refuse_if(3 < flags, 6)?;
    Ok(Element { load, capacity, source: flags == 1 || flags == 3, faulty: flags == 2 || flags == 3 })
}

/// A link with those that come before it in the file.
fn link(record: Record, elements: u64, earlier: &[Link]) -> Result<Link, Refusal> {
    let (one, other, form, cost) = (record.field(0), record.field(1), record.field(2), record.field(3));
    let is_guarded = record.kind == GUARDED_SWITCH;
    record.refuse_if(elements <= one || elements <= other || one == other, 7)?;
    record.refuse_if(2 < form || is_guarded && form == 0, 8)?;
    let form = [Form::Fixed, Form::Open, Form::Closed][form as usize];
    record.refuse_if((form == Form::Fixed) != (cost == 0), 9)?;
    let guard = if is_guarded { Some(guard(&record, earlier)?) } else { None };
    Ok(Link { ends: [one as usize, other as usize], form, cost, guard })
}

/// Rule 20: a guard is an earlier link, and a switch.
fn guard(record: &Record, earlier: &[Link]) -> Result<usize, Refusal> {
    let guard = record.field(4) as usize;
    record.refuse_if(!earlier.get(guard).is_some_and(Link::is_switch), 20)?;
    Ok(guard)
}

pub fn plan_file(records: &mut Records, links: u64) -> Result<Vec<Step>, Refusal> {
    let head = records.next(&[PLAN_HEAD])?;
    let steps = head.field(0);
    head.refuse_if(MOST_STEPS < steps, 10)?;
    let read: Result<_, _> = (0..steps).map(|_| step(records.next(&[STEP])?, links)).collect();
    let read = read?;
    records.next(&[END])?;
    Ok(read)
}

fn step(record: Record, links: u64) -> Result<Step, Refusal> {
    let (link, state) = (record.field(0), record.field(1));
    record.refuse_if(links <= link, 11)?;
    record.refuse_if(1 < state, 12)?;
    Ok(Step { link: link as usize, closed: state == 1 })
}
