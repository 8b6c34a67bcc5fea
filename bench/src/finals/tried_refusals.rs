//! Finals that are refused, on network B: its file has 122 bytes, an element at 8, its end at 118; a plan file of one
//! step has 18.
use super::files::Files;
use super::tried::files;
use crate::draft::{plan_file, CLOSED};
use crate::tried::{changed, network_b};

/// Files, the line for one input, and the one for files lent apart.
type Said = (Files, &'static str, &'static str);

pub fn all() -> Vec<Said> {
    [in_order(), cut_off(), behind(), at_start()].concat()
}

fn good() -> Files {
    files(&network_b(), &[(3, 1)], &[(4, 1)])
}

fn with(change: impl Fn(&mut Files)) -> Files {
    let mut files = good();
    change(&mut files);
    files
}

/// The network's refusals come before the first file's, and these before the second's; places count on.
fn in_order() -> Vec<Said> {
    let flags = |files: &mut Files| files.network[16] = 4;
    let link = |files: &mut Files| files.plans[0][10] = 5;
    let state = |files: &mut Files| files.plans[1][12] = 2;
    let many = |files: &mut Files| files.plans[1][5] = 1;
    let same = |files, line| (files, line, line);
    vec![
        same(with(flags), "REFUSED 6 8\n"),
        same(with(link), "REFUSED 11 128\n"),
        same(with(state), "REFUSED 12 146\n"),
        same(with(many), "REFUSED 10 140\n"),
        same(with(|files| (flags(files), link(files), state(files)).2), "REFUSED 6 8\n"),
        same(with(|files| (link(files), many(files)).1), "REFUSED 11 128\n"),
    ]
}

/// In one input a file that is cut off runs into the next one.
fn cut_off() -> Vec<Said> {
    let no_first = Files { plans: [vec![], good().plans[1].clone()], ..good() };
    let no_second = Files { plans: [good().plans[0].clone(), vec![]], ..good() };
    let both_in_first = Files { plans: [good().plans.concat(), vec![]], ..good() };
    let moved = Files::cut(&good().input(), [122, 136]);
    vec![
        (with(|files| files.network.truncate(118)), "REFUSED 2 118\n", "REFUSED 1 118\n"),
        (with(|files| files.plans[0].truncate(14)), "REFUSED 2 136\n", "REFUSED 1 136\n"),
        (with(|files| files.plans[0].truncate(13)), "REFUSED 12 128\n", "REFUSED 4 128\n"),
        (with(|files| files.plans[1].truncate(17)), "REFUSED 1 154\n", "REFUSED 1 154\n"),
        (with(|files| files.plans[1].truncate(13)), "REFUSED 4 146\n", "REFUSED 4 146\n"),
        (with(|files| files.plans[1].truncate(14)), "REFUSED 1 154\n", "REFUSED 1 154\n"),
        (no_first, "REFUSED 1 140\n", "REFUSED 1 122\n"),
        (no_second, "REFUSED 1 140\n", "REFUSED 1 140\n"),
        (both_in_first, "VALID 4 2\nVALID 2 0\n", "REFUSED 13 140\n"),
        (moved, "VALID 4 2\nVALID 2 0\n", "REFUSED 1 136\n"),
        (Files { network: vec![], plans: [vec![], vec![]] }, "REFUSED 1 0\n", "REFUSED 1 0\n"),
    ]
}

/// A byte behind a file: in one input rule 13 is the second's alone.
fn behind() -> Vec<Said> {
    vec![
        (with(|files| files.network.push(6)), "REFUSED 2 122\n", "REFUSED 13 122\n"),
        (with(|files| files.plans[0].push(6)), "REFUSED 2 140\n", "REFUSED 13 140\n"),
        (with(|files| files.plans[1].push(6)), "REFUSED 13 158\n", "REFUSED 13 158\n"),
        (with(|files| files.plans[1].resize(9000, 0)), "REFUSED 13 158\n", "REFUSED 13 158\n"),
    ]
}

/// Rules 14 to 18 come after both files.
fn at_start() -> Vec<Said> {
    let network = changed(network_b(), |b| b.links[1].form = CLOSED).file();
    let broken = Files { network: network.clone(), ..good() };
    let mut second = plan_file(&[(4, 1)]);
    second[14] = 5;
    let both = Files { network, plans: [good().plans[0].clone(), second] };
    vec![(broken, "REFUSED 16 2\n", "REFUSED 16 2\n"), (both, "REFUSED 3 154\n", "REFUSED 3 154\n")]
}
