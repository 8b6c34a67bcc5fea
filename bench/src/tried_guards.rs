//! Networks B and D with guards, and what the documents say of them.
use crate::draft::{Draft, FIXED};
use crate::tried::{changed, network_b, network_d};

/// A network with these switches guarded by these others.
fn guarded(draft: Draft, guards: &[(usize, usize)]) -> Draft {
    changed(draft, |draft| guards.iter().for_each(|&(link, guard)| draft.links[link].guard = Some(guard)))
}

/// Closing link 4 costs 2 and twice the 1 of link 0.
pub fn guarded_b() -> Draft {
    guarded(network_b(), &[(4, 0)])
}

fn guarded_d() -> Draft {
    guarded(network_d(), &[(1, 0), (2, 0)])
}

/// Link 4 has a guard that has one too, which is dear.
fn chained_b() -> Draft {
    let dear = |b: &mut Draft| (b.links[0].cost, b.links[3].cost) = (9, 5);
    changed(guarded(network_b(), &[(1, 0), (4, 1)]), dear)
}

/// What the planner's lines begin with.
pub fn replies() -> Vec<(Draft, &'static str)> {
    let fixed = |b: &mut Draft| (b.links[3].form, b.links[3].cost) = (FIXED, 0);
    vec![
        (guarded_b(), "PLAN 1 4\nCLOSE 3\nLOAD 5 0 1\n"),
        (changed(guarded_b(), |b| b.links[3].cost = 5), "PLAN 1 4\nCLOSE 4\nLOAD 5 0 1\n"),
        (changed(guarded_b(), |b| b.links[0].cost = 65_535), "PLAN 1 4\nCLOSE 3\nLOAD"),
        (changed(chained_b(), |b| b.elements[4].capacity = 2), "PLAN 1 4\nCLOSE 4\nLOAD"),
        (chained_b(), "PLAN 1 4\nCLOSE 4\nLOAD"),
        (guarded_d(), "PLAN 3 5\nOPEN 1\nCLOSE 0\nCLOSE 2\nLOAD"),
        (guarded(network_d(), &[(1, 0), (2, 1)]), "PLAN 3 7\nOPEN 1\nCLOSE 0\nCLOSE 2\nLOAD"),
        (changed(guarded_b(), fixed), "PLAN 0 0\nLOAD"),
    ]
}

/// The planner's lines for network B with link 4 guarded and some bytes changed: element 1 stands at 18, link 0 at 58,
/// link 3 at 94, link 4 at 106.
pub fn edited() -> Vec<(Vec<u8>, &'static str)> {
    let file = guarded_b().file();
    let with = |changes: &[(usize, u8)]| {
        let mut bytes = file.clone();
        changes.iter().for_each(|&(at, byte)| bytes[at] = byte);
        bytes
    };
    let first = guarded(network_b(), &[(0, 0)]).file();
    let at_element = [&file[..18], &file[106..120], &file[18..]].concat();
    vec![
        (with(&[(118, 3)]), "PLAN 1 4\nCLOSE 3\nLOAD"),
        (with(&[(118, 4)]), "REFUSED 20 106\n"),
        (with(&[(118, 5)]), "REFUSED 20 106\n"),
        (with(&[(119, 1)]), "REFUSED 20 106\n"),
        (with(&[(118, 255), (119, 255)]), "REFUSED 20 106\n"),
        (with(&[(102, 0), (104, 0), (118, 3)]), "REFUSED 20 106\n"),
        (first, "REFUSED 20 58\n"),
        (with(&[(116, 0), (118, 4)]), "REFUSED 9 106\n"),
        (with(&[(114, 0), (116, 0), (118, 4)]), "REFUSED 8 106\n"),
        (with(&[(114, 3)]), "REFUSED 8 106\n"),
        (with(&[(110, 3), (114, 0), (118, 4)]), "REFUSED 7 106\n"),
        (with(&[(106, 12)]), "REFUSED 3 106\n"),
        (with(&[(108, 3)]), "REFUSED 3 106\n"),
        (with(&[(94, 14)]), "REFUSED 3 94\n"),
        (at_element, "REFUSED 2 18\n"),
        (file[..118].to_vec(), "REFUSED 4 106\n"),
    ]
}

/// The judge's line.
pub fn marks() -> Vec<(Draft, Vec<(usize, u16)>, &'static str)> {
    let d = [(1, 0), (0, 1), (2, 1)];
    let again = [&d[..], &[(2, 0), (2, 1)]].concat();
    vec![
        (guarded_b(), vec![(3, 1)], "VALID 4 0\n"),
        (guarded_b(), vec![(4, 1)], "VALID 4 0\n"),
        (guarded_b(), vec![(4, 1), (4, 0), (3, 1)], "VALID 10 6\n"),
        (chained_b(), vec![(4, 1)], "VALID 4 0\n"),
        (guarded_d(), d.to_vec(), "VALID 5 0\n"),
        (guarded_d(), again, "VALID 7 2\n"),
        (guarded_d(), vec![(1, 0), (0, 1)], "SHORT 2\n"),
        (guarded(guarded_b(), &[(2, 2)]), vec![(4, 1)], "REFUSED 20 82\n"),
    ]
}
