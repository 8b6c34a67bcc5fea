//! How many whole LOAD lines a batch prints a second: networks planned one after the other, from their bytes to the
//! printed lines.
use crate::library;
use bench::networks::{self, Kind};
use bench::random::Random;
use std::hint::black_box;
use std::time::Instant;

const BATCH: usize = 1000;
const ROUNDS: usize = 63;
const ROOM: usize = 4096;

/// Networks of many sizes, then networks of 64 elements.
pub fn run(seed: u64) {
    let mut r = Random::new(seed);
    measure("random networks", &batch(|| networks::network(&mut r).file()));
    measure("64 elements", &batch(|| networks::large(&mut r, Kind::Planned).file()));
}

/// As many of the networks drawn as get a LOAD line.
fn batch(draw: impl FnMut() -> Vec<u8>) -> Vec<Vec<u8>> {
    std::iter::repeat_with(draw).filter(|network| has_load_line(network)).take(BATCH).collect()
}

fn has_load_line(network: &[u8]) -> bool {
    let mut out = vec![0; ROOM];
    let length = library::plan_text(network, &mut out);
    out[..length].split(|&byte| byte == b'\n').any(|line| line.starts_with(b"LOAD "))
}

/// The least time of all rounds, since what else the machine does only ever adds time.
fn measure(name: &str, batch: &[Vec<u8>]) {
    let least = (0..ROUNDS).map(|_| seconds(batch)).fold(f64::MAX, f64::min);
    let lines = batch.len() as f64;
    println!("{name}: {:.0} ns a LOAD line, {:.0} lines a second", 1e9 * least / lines, lines / least);
}

fn seconds(batch: &[Vec<u8>]) -> f64 {
    let mut out = vec![0; ROOM];
    let start = Instant::now();
    for network in batch {
        black_box(library::plan_text(black_box(network), &mut out));
    }
    start.elapsed().as_secs_f64()
}
