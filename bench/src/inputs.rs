//! The inputs that planner and judge are compared on.
use crate::brim;
use crate::damage::{damaged, random_bytes};
use crate::draft::{plan_file, Draft};
use crate::guarded;
use crate::heavy;
use crate::independent::ELEMENTS;
use crate::longest;
use crate::networks::{self, Kind};
use crate::plans;
use crate::random::Random;
use crate::regions;
use crate::wide;

/// More bytes than those that decide.
pub const LONGEST: usize = 12_000;

/// A network of any shape.
pub fn network(r: &mut Random) -> Draft {
    let draft = match r.below(40) {
        0 => brim::network(r),
        1 => heavy::network(r, ELEMENTS),
        2..12 => widened(r, regions::network),
        _ => widened(r, networks::network),
    };
    guarded::mixed(r, draft)
}

/// A small network of any shape that can be small.
pub fn brief(r: &mut Random) -> Draft {
    let draft = match r.below(40) {
        0 => brim::network(r),
        1 => heavy::network(r, 6),
        2..12 => widened(r, regions::brief),
        _ => widened(r, networks::brief),
    };
    guarded::mixed(r, draft)
}

fn widened(r: &mut Random, network: fn(&mut Random) -> Draft) -> Draft {
    let draft = network(r);
    wide::mixed(r, draft)
}

/// Networks, networks with a plan behind, and damaged ones.
pub fn input(r: &mut Random) -> Vec<u8> {
    match r.below(1000) {
        0..380 => network(r).file(),
        380..700 => with_plan(r, network),
        700..960 => {
            let file = either(r, brief);
            damaged(r, file)
        }
        960..980 => {
            let file = either(r, network);
            damaged(r, file)
        }
        980..985 => random_bytes(r, 60),
        985..988 => random_bytes(r, LONGEST),
        988..992 => long(r),
        992..994 => longest::input(r),
        _ => large(r),
    }
}

/// The same mix from small networks, so that a thousand inputs stay small.
pub fn brief_input(r: &mut Random) -> Vec<u8> {
    match r.below(1000) {
        0..200 => brief(r).file(),
        200..480 => with_plan(r, brief),
        480..900 => {
            let file = either(r, brief);
            damaged(r, file)
        }
        900..912 => random_bytes(r, 60),
        912..960 => with_plan(r, network),
        960..996 => network(r).file(),
        996 => large(r),
        997 => long(r),
        _ => vec![],
    }
}

fn with_plan(r: &mut Random, network: fn(&mut Random) -> Draft) -> Vec<u8> {
    let file = network(r).file();
    behind(r, file)
}

fn behind(r: &mut Random, mut file: Vec<u8>) -> Vec<u8> {
    let steps = plans::steps(r, &file);
    file.extend(plan_file(&steps));
    file
}

fn either(r: &mut Random, network: fn(&mut Random) -> Draft) -> Vec<u8> {
    if r.one_in(3) {
        return network(r).file();
    }
    with_plan(r, network)
}

/// The largest networks, alone or with a plan.
fn large(r: &mut Random) -> Vec<u8> {
    let kind = r.pick(&[Kind::SmallElement, Kind::SmallSources, Kind::Planned, Kind::Planned]);
    let draft = networks::large(r, kind);
    let draft = wide::mixed(r, draft);
    let file = guarded::mixed(r, draft).file();
    if r.one_in(2) {
        return behind(r, file);
    }
    file
}

/// A file with thousands of bytes behind it.
pub fn long(r: &mut Random) -> Vec<u8> {
    let mut file = either(r, network);
    let length = r.from(file.len() + 1, LONGEST);
    let filler = file.clone();
    while file.len() < length {
        file.extend_from_slice(&filler);
    }
    file.truncate(length);
    file
}
