//! The time from an input's bytes to the printed bytes, proved and independent in turns.
use crate::library;
use bench::draft::{plan_file, Draft};
use bench::hard::{self, Costs, Tight};
use bench::independent::{self, Reply, LINKS, SWITCHES};
use bench::networks::{self, Kind};
use bench::plans;
use bench::random::Random;
use std::hint::black_box;
use std::time::Instant;

const ROUNDS: usize = 63;
const FEW: usize = 3;
const DRAWN: usize = 2000;
const KEPT: usize = 100;

/// A function from an input to printed bytes; the room is the same one at each call.
type Program = fn(&[u8], &mut Vec<u8>);

/// The proved function first.
type Pair = [Program; 2];

const PLANNERS: Pair = [proved_plan, independent_plan];
const JUDGES: Pair = [proved_mark, independent_mark];
const ROOM: usize = 4096;

fn proved_plan(input: &[u8], out: &mut Vec<u8>) {
    out.resize(ROOM, 0);
    library::plan_text(input, out);
}

fn independent_plan(input: &[u8], out: &mut Vec<u8>) {
    out.clear();
    independent::plan_text(input, out);
}

fn proved_mark(input: &[u8], out: &mut Vec<u8>) {
    out.resize(ROOM, 0);
    library::mark_text(input, out);
}

fn independent_mark(input: &[u8], out: &mut Vec<u8>) {
    out.clear();
    independent::mark_text(input, out);
}

/// Nanoseconds for one input, proved and independent.
#[derive(Clone, Copy)]
struct Times([f64; 2]);

impl Times {
    fn ratio(self) -> f64 {
        self.0[0] / self.0[1]
    }

    /// Both groups one after the other.
    fn and(self, other: Times) -> Times {
        Times([self.0[0] + other.0[0], self.0[1] + other.0[1]])
    }
}

/// Nanoseconds that a program takes for some inputs.
fn time(program: Program, inputs: &[Vec<u8>], out: &mut Vec<u8>) -> f64 {
    let start = Instant::now();
    for input in inputs {
        program(black_box(input), out);
        black_box(&out);
    }
    start.elapsed().as_nanos() as f64
}

/// The least times that the two programs take for some inputs, in turns: what else the machine does only ever adds
/// time.
fn least(programs: Pair, inputs: &[Vec<u8>], turns: usize, outs: &mut [Vec<u8>; 2]) -> [f64; 2] {
    let mut least = [f64::MAX; 2];
    for _ in 0..turns {
        for which in 0..2 {
            least[which] = least[which].min(time(programs[which], inputs, &mut outs[which]));
        }
    }
    least
}

/// The sum over every few inputs of the least times of all rounds.
fn rounds(programs: Pair, inputs: &[Vec<u8>]) -> Times {
    let mut outs = [vec![], vec![]];
    let mut least_of = vec![[f64::MAX; 2]; inputs.len().div_ceil(FEW)];
    for _ in 0..ROUNDS {
        for (few, so_far) in inputs.chunks(FEW).zip(&mut least_of) {
            let now = least(programs, few, 1, &mut outs);
            *so_far = [so_far[0].min(now[0]), so_far[1].min(now[1])];
        }
    }
    let sums = least_of.iter().fold([0.0; 2], |sums, times| [sums[0] + times[0], sums[1] + times[1]]);
    Times(sums.map(|sum| sum / inputs.len() as f64))
}

/// The least times on one input of three runs each.
fn quickest(programs: Pair, input: &Vec<u8>) -> [f64; 2] {
    least(programs, std::slice::from_ref(input), 3, &mut [vec![], vec![]])
}

/// Measures a group and prints its line.
fn measure(name: &str, unit: &str, programs: Pair, inputs: &[Vec<u8>]) -> Times {
    let times = rounds(programs, inputs);
    let ratios = inputs.iter().map(|input| quickest(programs, input)).map(|[proved, other]| proved / other);
    let worst = ratios.fold(0.0, f64::max);
    let Times([proved, other]) = times;
    println!(
        "{name}, {} inputs: proved {proved:.0} ns a {unit}, {:.0} {unit}s a second; \
         Rust {other:.0} ns, {:.0} a second; ratio {:.2}, worst input {worst:.2}",
        inputs.len(),
        1e9 / proved,
        1e9 / other,
        times.ratio()
    );
    times
}

/// Accepted networks of many sizes.
fn random_networks(r: &mut Random) -> Vec<Vec<u8>> {
    let mut files = vec![];
    while files.len() < 1000 {
        let file = networks::network(r).file();
        if independent::accept(&file).is_ok() {
            files.push(file);
        }
    }
    files
}

/// A network of 64 elements, 96 links and 12 operable switches, with a plan or without.
fn largest(r: &mut Random, planned: bool, draw: impl Fn(&mut Random) -> Draft) -> Vec<u8> {
    loop {
        let draft = draw(r);
        let file = draft.file();
        let Ok(accepted) = independent::accept(&file) else { continue };
        let has_plan = matches!(independent::plan(&file), Reply::Plan(..));
        let operable = accepted.start.operable.count_ones() as usize;
        if draft.links.len() == LINKS && operable == SWITCHES && has_plan == planned {
            return file;
        }
    }
}

/// Of the networks drawn, those that take the two planners longest together.
fn hardest(r: &mut Random, planned: bool, draw: impl Fn(&mut Random) -> Draft) -> Vec<Vec<u8>> {
    let mut drawn: Vec<(f64, Vec<u8>)> = vec![];
    for _ in 0..DRAWN {
        let file = largest(r, planned, &draw);
        let [proved, other] = quickest(PLANNERS, &file);
        drawn.push((proved + other, file));
    }
    drawn.sort_by(|a, b| b.0.total_cmp(&a.0));
    drawn.into_iter().take(KEPT).map(|(_, file)| file).collect()
}

/// Large networks, each with steps that are drawn for it.
fn judged(r: &mut Random, steps: fn(&mut Random, &[u8]) -> Vec<plans::Step>) -> Vec<Vec<u8>> {
    let mut inputs = vec![];
    while inputs.len() < KEPT {
        let mut file = largest(r, true, |r| networks::large(r, Kind::Planned));
        let steps = steps(r, &file);
        file.extend(plan_file(&steps));
        inputs.push(file);
    }
    inputs
}

fn longest(r: &mut Random, network: &[u8]) -> Vec<plans::Step> {
    plans::full(r, plans::printed(network))
}

fn any_good(r: &mut Random, network: &[u8]) -> Vec<plans::Step> {
    let accepted = independent::accept(network).expect("an accepted network");
    let mut steps = plans::good(r, &accepted, plans::MOST, false);
    steps.truncate(r.from(20, 200));
    assert!(steps.len() >= 20, "so many good steps are always drawn");
    steps
}

/// The kinds of hard networks by their names.
const TIGHT: [(&str, Tight); 4] = [
    ("sources to be shared out", Tight::Sources),
    ("sources of chains to be shared out", Tight::SourcesOfChains),
    ("branches of a source that suffices", Tight::Branches),
    ("passages in the dark", Tight::Passages),
];

/// Each kind without a plan; all of them together.
fn measure_hard(r: &mut Random) -> Times {
    let measure_kind = |(name, tight)| {
        let networks = hardest(r, false, |r| hard::network(r, tight, Costs::Mixed, true));
        measure(&format!("hardest, no plan, {name}"), "plan", PLANNERS, &networks)
    };
    sum(TIGHT.map(measure_kind))
}

/// Each kind with a plan that is found late, and with equal costs; all of them together.
fn measure_planned(r: &mut Random) -> Times {
    let mut measure_kind = |name: &str, tight: Tight, costs: Costs| {
        let networks = hardest(r, true, |r| hard::network(r, tight, costs, false));
        measure(&format!("hardest, with a plan, {name}"), "plan", PLANNERS, &networks)
    };
    let late = TIGHT.map(|(name, tight)| measure_kind(&format!("{name}, found late"), tight, Costs::Late));
    let equal = TIGHT.map(|(name, tight)| measure_kind(&format!("{name}, equal costs"), tight, Costs::Equal));
    sum(late).and(sum(equal))
}

fn sum(groups: [Times; 4]) -> Times {
    groups.into_iter().reduce(|all, group| all.and(group)).expect("four groups")
}

/// Each kind with a plan and with guards; all of them together.
fn measure_guarded(r: &mut Random) -> Times {
    let measure_kind = |(name, tight)| {
        let networks = hardest(r, true, |r| {
            let costs = r.pick(&[Costs::Mixed, Costs::Equal, Costs::Late]);
            hard::guarded(r, tight, costs)
        });
        measure(&format!("hardest, with guards, {name}"), "plan", PLANNERS, &networks)
    };
    sum(TIGHT.map(measure_kind))
}

fn measure_judge(r: &mut Random) -> Times {
    let full = measure("judge, large, valid, 254 or 255 steps", "mark", JUDGES, &judged(r, longest));
    let good = measure("judge, large, 20 to 200 good steps", "mark", JUDGES, &judged(r, any_good));
    let as_printed = judged(r, |_, network| plans::printed(network));
    let printed = measure("judge, large, the printed plan", "mark", JUDGES, &as_printed);
    let empty = measure("judge, large, no step", "mark", JUDGES, &judged(r, |_, _| vec![]));
    full.and(good).and(printed).and(empty)
}

/// The last line has the ratios; but for `random` they are of the sums over their groups.
pub fn run(seed: u64) {
    let mut r = Random::new(seed);
    let random = measure("random networks", "plan", PLANNERS, &random_networks(&mut r));
    let (hard, planned) = (measure_hard(&mut r), measure_planned(&mut r));
    let judge = measure_judge(&mut r);
    let guarded = measure_guarded(&mut r);
    let [random, hard, planned, judge, guarded] = [random, hard, planned, judge, guarded].map(Times::ratio);
    println!("ratio random={random:.2} hard={hard:.2} planned={planned:.2} judge={judge:.2} guarded={guarded:.2}");
}
