//! The stack that the library's functions use, on a chain of 64 elements and on the largest network with the longest
//! plan; in finals that plan stands against itself.
use crate::{library, library_finals};
use bench::draft::{plan_file, Draft, FIXED, OPEN};
use bench::finals::Files;
use bench::independent::{ELEMENTS, SWITCHES};
use std::path::Path;

/// What the header says suffices.
const ENOUGH: usize = 64 << 10;

/// Where the frames of `written` and of what it calls for itself end, and where the filled bytes end.
const FILLED: std::ops::Range<usize> = 1 << 10..2 * ENOUGH;
const PATTERN: u8 = 0xA5;

/// A network file and a valid plan for it.
type Pair = [Vec<u8>; 2];

/// Runs a call, and says how many bytes of stack it used.
type Measure = fn(&mut dyn FnMut()) -> usize;

pub fn run(folder: &Path) -> Result<(), String> {
    let read = |name: &str| {
        let path = folder.join(name);
        std::fs::read(&path).map_err(|error| format!("{}: {error}", path.display()))
    };
    let pairs = [chain(), [read("largest.net")?, read("largest.plan")?]];
    let most = on_thread(2 * FILLED.end, pairs.clone(), written)?;
    println!("stack: {most} bytes at most");
    if most > ENOUGH {
        return Err(format!("more than {ENOUGH}"));
    }
    on_thread(ENOUGH, pairs, |call| {
        call();
        0
    })?;
    println!("a thread with a stack of {ENOUGH} bytes ran all eight functions");
    Ok(())
}

/// One source, fixed links, and at the end open switches, which the plan closes.
fn chain() -> Pair {
    let mut draft = Draft::default();
    (0..ELEMENTS).for_each(|e| draft.add_element(1, ELEMENTS as u32, (e == 0) as u16));
    let switches = ELEMENTS - 1 - SWITCHES..ELEMENTS - 1;
    (0..ELEMENTS - 1).for_each(|l| draft.add_link((l, l + 1), if switches.contains(&l) { OPEN } else { FIXED }, 1));
    let steps: Vec<(usize, u16)> = switches.map(|link| (link, 1)).collect();
    [draft.file(), plan_file(&steps)]
}

/// The most that a function used on one of the pairs, in a thread of its own.
fn on_thread(stack: usize, pairs: [Pair; 2], measure: Measure) -> Result<usize, String> {
    let most = move || pairs.iter().map(|pair| most_used(pair, measure)).max().unwrap_or(0);
    let thread = std::thread::Builder::new().stack_size(stack).spawn(most).map_err(|error| error.to_string())?;
    thread.join().map_err(|_| "a wrong reply or mark".to_string())
}

fn most_used(pair: &Pair, measure: Measure) -> usize {
    alone(pair, measure).max(against_itself(pair, measure))
}

/// Planner and judge.
fn alone(pair: &Pair, measure: Measure) -> usize {
    let (network, both, mut out) = (&pair[0], pair.concat(), vec![0; 4096]);
    let (mut reply, mut mark, mut values, mut lengths) = (0, 0, [0; 5], [0; 2]);
    let used = [
        measure(&mut || reply = library::plan(network, &mut out, &mut values).0),
        measure(&mut || lengths[0] = library::plan_text(network, &mut out)),
        measure(&mut || mark = library::mark(&both, &mut values).0),
        measure(&mut || lengths[1] = library::mark_text(&both, &mut out)),
    ];
    assert!(reply == 1 && mark == 3 && lengths.iter().all(|&length| length > 0), "a plan, and a valid one");
    used.into_iter().max().unwrap_or(0)
}

/// Finals of one input and of files lent apart.
fn against_itself([network, plan]: &Pair, measure: Measure) -> usize {
    let files = Files { network: network.clone(), plans: [plan.clone(), plan.clone()] };
    let (input, mut out) = (files.input(), vec![0; 4096]);
    let (mut kinds, mut values, mut lengths) = ([0; 2], [0; library_finals::VALUES], [0; 2]);
    let used = [
        measure(&mut || kinds[0] = library_finals::of_one_input(&input, &mut values).0),
        measure(&mut || lengths[0] = library_finals::one_input_text(&input, &mut out)),
        measure(&mut || kinds[1] = library_finals::lent_apart(&files, &mut values).0),
        measure(&mut || lengths[1] = library_finals::apart_text(&files, &mut out)),
    ];
    assert!(kinds == [1; 2] && values[6] == 0 && lengths.iter().all(|&length| length > 0), "finals, won by the first");
    used.into_iter().max().unwrap_or(0)
}

/// Fills the stack below this frame, runs the call and looks for the lowest byte that it wrote.
#[inline(never)]
fn written(call: &mut dyn FnMut()) -> usize {
    let here = 0u8;
    let top = std::hint::black_box(&here as *const u8) as usize;
    // Safety: the thread's stack has twice as many bytes, and nothing lives this far below the frame.
    FILLED.for_each(|below| unsafe { ((top - below) as *mut u8).write_volatile(PATTERN) });
    call();
    let is_written = |&below: &usize| unsafe { ((top - below) as *const u8).read_volatile() } != PATTERN;
    FILLED.rev().find(is_written).unwrap_or(FILLED.start)
}
