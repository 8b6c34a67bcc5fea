//! Finals on the tried networks, with what the documents say of them.
use super::files::Files;
use super::tried_refusals;
use crate::draft::{plan_file, Draft};
use crate::enumeration::finals::{lent_apart, of_one_input};
use crate::plans::Step;
use crate::tried::{network_b, network_d};
use crate::tried_guards::guarded_b;

/// What is printed, and the part: which file's, offset in that file and length.
type Said = (&'static str, [u64; 3]);

const FIRST: u64 = 0;
const SECOND: u64 = 1;
const NEITHER: u64 = 2;

pub fn files(network: &Draft, first: &[Step], second: &[Step]) -> Files {
    Files { network: network.file(), plans: [plan_file(first), plan_file(second)] }
}

/// Network B: closing 4 costs 2, closing 3 costs 4, and to close 4, open it and close 3 costs 8.
fn on_b() -> Vec<(Files, Said)> {
    let b = |first: &[Step], second: &[Step]| files(&network_b(), first, second);
    let (three, four, detour) = ([(3, 1)], [(4, 1)], [(4, 1), (4, 0), (3, 1)]);
    vec![
        (b(&three, &four), ("VALID 4 2\nVALID 2 0\n", [SECOND, 6, 8])),
        (b(&four, &three), ("VALID 2 0\nVALID 4 2\n", [FIRST, 6, 8])),
        (b(&detour, &three), ("VALID 8 6\nVALID 4 2\n", [SECOND, 6, 8])),
        (b(&three, &detour), ("VALID 4 2\nVALID 8 6\n", [FIRST, 6, 8])),
        (b(&four, &four), ("VALID 2 0\nVALID 2 0\n", [FIRST, 6, 8])),
        (b(&detour, &[]), ("VALID 8 6\nSHORT 3\n", [FIRST, 6, 24])),
        (b(&[], &detour), ("SHORT 3\nVALID 8 6\n", [SECOND, 6, 24])),
        (b(&[], &[(0, 0)]), ("SHORT 3\nBROKEN 1 1\n", [NEITHER, 6, 0])),
        (b(&[(4, 1), (4, 1)], &[]), ("BROKEN 2 2\nSHORT 3\n", [NEITHER, 6, 0])),
        (b(&[(4, 0)], &four), ("BROKEN 1 2\nVALID 2 0\n", [SECOND, 6, 8])),
    ]
}

/// With link 4 guarded, closing it costs as much as closing 3. Network D: closings in either order.
fn others() -> Vec<(Files, Said)> {
    let guarded = |first: &[Step], second: &[Step]| files(&guarded_b(), first, second);
    let d = |first: &[Step], second: &[Step]| files(&network_d(), first, second);
    let (three, four) = ([(3, 1)], [(4, 1)]);
    let (up, down) = ([(1, 0), (0, 1), (2, 1)], [(1, 0), (2, 1), (0, 1)]);
    let mut alone = Draft::default();
    alone.add_element(0, 0, 1);
    vec![
        (guarded(&three, &four), ("VALID 4 0\nVALID 4 0\n", [FIRST, 6, 8])),
        (guarded(&four, &three), ("VALID 4 0\nVALID 4 0\n", [FIRST, 6, 8])),
        (guarded(&[(4, 1), (4, 0), (3, 1)], &three), ("VALID 10 6\nVALID 4 0\n", [SECOND, 6, 8])),
        (d(&down, &up), ("VALID 3 0\nVALID 3 0\n", [FIRST, 6, 24])),
        (d(&[(0, 1)], &up), ("BROKEN 1 3\nVALID 3 0\n", [SECOND, 6, 24])),
        (d(&up[..2], &up[1..]), ("SHORT 2\nBROKEN 1 3\n", [NEITHER, 6, 0])),
        (files(&alone, &[], &[]), ("VALID 0 0\nVALID 0 0\n", [FIRST, 6, 0])),
    ]
}

/// Holds the enumeration to the documents: files in one input and lent apart.
pub fn check() -> Result<(), String> {
    for (files, (text, [better, offset, length])) in on_b().into_iter().chain(others()) {
        let (network, [first, second]) = (files.network.len(), files.plans());
        let before = (network + if better == SECOND { first.len() } else { 0 }) as u64;
        let one = of_one_input(&files.input());
        let apart = lent_apart(&files.network, first, second);
        equal((one.text(), &one.values().1[6..]), (text.to_string(), &[better, before + offset, length]))?;
        equal((apart.text(), &apart.values().1[6..]), (text.to_string(), &[better, offset, length]))?;
    }
    for (files, one, apart) in tried_refusals::all() {
        let [first, second] = files.plans();
        equal((of_one_input(&files.input()).text(), &[]), (one.to_string(), &[]))?;
        equal((lent_apart(&files.network, first, second).text(), &[]), (apart.to_string(), &[]))?;
    }
    Ok(())
}

fn equal(enumerated: (String, &[u64]), said: (String, &[u64])) -> Result<(), String> {
    if enumerated == said {
        return Ok(());
    }
    Err(format!("the documents say\n{said:?}\nand the enumeration\n{enumerated:?}"))
}
