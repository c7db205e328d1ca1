//! The time of both calls, the library's against the oracle's: the same inputs, in turns, over and over. And of a run in stretches, and of a run with a
//! list of T, against the library's own calls.

use std::hint::black_box;
use std::time::Instant;

use oracle::case::Case;
use oracle::rng::Rng;
use oracle::time;

use crate::clock;
use crate::compare;
use crate::cuts::{self, Run};
use crate::lent::{Ask, Lent, LOGLIK, Y};
use crate::library::{self, Call, CALLS};
use crate::tally::Line;

/// The periods over which the growth is shown.
const GROWTH: [usize; 4] = [64, 256, 1024, 4096];
/// Calls are made in turns for so many milliseconds, and for so many turns at least.
const LEAST_MILLISECONDS: u128 = 1000;
const LEAST_TURNS: usize = 7;

fn once(call: impl FnOnce() -> u32) -> f64 {
    let start = clock::now();
    let refusal = black_box(call());
    let took = clock::now() - start;
    assert_eq!(refusal, 0, "a timed call is answered");
    took
}

/// What one call in a hundred stays under; of fewer than a hundred, the least. The least of many would be a slip of the clock now and then, by which
/// one call seems shorter than any is.
fn low(mut took: Vec<f64>) -> f64 {
    took.sort_by(f64::total_cmp);
    took[took.len() / 100]
}

/// The low time of each of the calls that a turn makes.
fn in_turns<const K: usize>(mut turn: impl FnMut() -> [f64; K]) -> [f64; K] {
    let mut turns = Vec::new();
    let whole = Instant::now();
    while turns.len() < LEAST_TURNS || whole.elapsed().as_millis() < LEAST_MILLISECONDS {
        turns.push(turn());
    }
    std::array::from_fn(|k| low(turns.iter().map(|took| took[k]).collect()))
}

/// Nanoseconds a period of the library's call and of the oracle's.
fn periods(which: Call, m: usize, p: usize, n: usize) -> (f64, f64) {
    let mut lent = Lent::of(&time::case(m, p, n), 0);
    let [library, oracle] = in_turns(|| [once(|| black_box(&mut lent).library(which)), once(|| black_box(&mut lent).oracle(which))]);
    (library / n as f64, oracle / n as f64)
}

/// The timed case with a list of n transitions. They are copies, so that nothing but the list differs.
fn listed(m: usize, p: usize, n: usize) -> Case {
    let mut case = time::case(m, p, n);
    case.list_t(n);
    case
}

/// Nanoseconds a period of the library's call, with a constant T and with a list.
fn by_list(which: Call, m: usize, p: usize, n: usize) -> [f64; 2] {
    let mut lent = [time::case(m, p, n), listed(m, p, n)].map(|case| Lent::of(&case, 0));
    in_turns(|| lent.each_mut().map(|one| once(|| black_box(one).library(which)))).map(|x| x / n as f64)
}

/// A run of one stretch after the other, each of `each` periods, from the bytes that the one before saved.
struct Chain {
    lent: Lent,
    y: Vec<f64>,
    /// Of exactly their length: one is read, the other written, in turns.
    saved: [Vec<u8>; 2],
    stretches: usize,
    width: usize,
}

impl Chain {
    fn of(m: usize, p: usize, n: usize, each: usize) -> Self {
        let case = time::case(m, p, n);
        let need = oracle::saved_len(m);
        let lent = Lent::new(&cuts::periods(&case, 0, each), &oracle::needed(p, m, each), &Ask::default(), 0);
        Chain { lent, y: case.y, saved: [vec![0; need], vec![0; need]], stretches: n / each, width: each * p }
    }

    /// All stretches: 0, or the first refusal.
    fn run(&mut self) -> u32 {
        let mut args = self.lent.args();
        for k in 0..self.stretches {
            // The call reads them.
            args.inputs[Y].0 = self.y[k * self.width..].as_ptr().cast_mut().cast();
            (args.begins, args.last) = (u8::from(k == 0), u8::from(k + 1 == self.stretches));
            let [a, b] = &mut self.saved;
            let (from, to) = if k % 2 == 0 { (a, b) } else { (b, a) };
            args.saved = if k == 0 { (std::ptr::null_mut(), 0) } else { (from.as_mut_ptr(), from.len()) };
            args.save = (to.as_mut_ptr(), to.len());
            let refusal = unsafe { library::call(Call::Stretch, &args) };
            if refusal != 0 {
                return refusal;
            }
        }
        0
    }
}

/// Nanoseconds a period: the filter's call, one stretch of all periods, and as many stretches as periods.
fn cut_up(m: usize, p: usize, n: usize) -> [f64; 3] {
    let mut lent = Lent::of(&time::case(m, p, n), 0);
    let (mut one, mut many) = (Chain::of(m, p, n, n), Chain::of(m, p, n, 1));
    let took = in_turns(|| [once(|| black_box(&mut lent).library(Call::Filter)), once(|| black_box(&mut one).run()), once(|| black_box(&mut many).run())]);
    took.map(|x| x / n as f64)
}

/// Compares the stretches that are timed with the oracle's run that is not cut. How many, and how many differ.
fn check_stretches() -> (u64, u64) {
    let mut line = Line::default();
    for (m, p) in time::SIZES {
        let case = time::case(m, p, time::PERIODS);
        let run = Run::of(&case).expect("a timed run starts");
        let every: Vec<usize> = (1..time::PERIODS).collect();
        for cuts in [&[][..], &every] {
            run.chain(&mut Rng::new(0), cuts, &format!("stretches, m = {m}, p = {p}"), &mut line);
        }
        for each in [time::PERIODS, 1] {
            let mut chain = Chain::of(m, p, time::PERIODS, each);
            let refusal = chain.run();
            let end = &run.states[time::PERIODS];
            let wanted: Vec<(usize, u64)> = [(LOGLIK, end.loglik.to_bits())].into_iter().chain(cuts::counts(end)).collect();
            let told: Vec<(usize, u64)> = wanted.iter().map(|&(part, _)| (part, chain.lent.word(part, 0))).collect();
            let difference = (refusal != 0 || told != wanted).then(|| format!("refusal {refusal}, answer {told:x?}, wanted 0, {wanted:x?}"));
            line.count(&format!("stretches of {each}, m = {m}, p = {p}"), difference);
        }
    }
    (line.compared, line.differ)
}

/// Compares the timed calls with the oracle's, at every size and length that is timed. Whether all agree.
pub fn check() -> bool {
    let (mut calls, mut differ) = (0, 0);
    for (m, p) in time::SIZES {
        let constant = GROWTH.into_iter().chain([time::PERIODS]).map(|n| time::case(m, p, n));
        for case in constant.chain([listed(m, p, time::PERIODS)]) {
            for which in CALLS {
                calls += 1;
                if let Some(what) = compare::against_oracle(which, &case, 0).1 {
                    println!("{}, m = {m}, p = {p}, n = {}, {} transitions listed: {what}", which.name(), case.n, case.listed_t());
                    differ += 1;
                }
            }
        }
    }
    let (stretches, other) = check_stretches();
    (calls, differ) = (calls + stretches, differ + other);
    println!("The timed calls answer and write what the oracle's do, bit for bit: {calls} calls, {differ} differ");
    differ == 0
}

pub fn print() {
    println!("m states, p elements in each of n periods, no gaps. Library: the proved calls. Oracle: the Rust, its checks and outputs included.");
    println!("Both on the same inputs, in turns, by the thread's processor time; what one call in a hundred stays under counts. Ratio: library over oracle; below 1 the library is faster.");
    println!();
    println!("Nanoseconds a period, n = {}", time::PERIODS);
    println!("       {:^29}   {:^29}", "filter", "smoother");
    let head = format!("{:>9} {:>9} {:>9}", "library", "oracle", "ratio");
    println!("{:>2} {:>2}  {head}   {head}", "m", "p");
    for (m, p) in time::SIZES {
        let row: Vec<String> = CALLS
            .iter()
            .map(|&which| {
                let (library, oracle) = periods(which, m, p, time::PERIODS);
                format!("{library:>9.0} {oracle:>9.0} {:>9.2}", library / oracle)
            })
            .collect();
        println!("{m:>2} {p:>2}  {}", row.join("   "));
    }
    println!();
    println!("A run of n = {} in stretches, the library's nanoseconds a period; ratio: to the filter's call", time::PERIODS);
    println!("       {:^9}   {:^19}   {:^19}", "filter", "one stretch", "a stretch a period");
    let head = format!("{:>9} {:>9}", "library", "ratio");
    println!("{:>2} {:>2}  {:>9}   {head}   {head}", "m", "p", "library");
    for (m, p) in time::SIZES {
        let [filter, one, many] = cut_up(m, p, time::PERIODS);
        println!("{m:>2} {p:>2}  {filter:>9.0}   {one:>9.0} {:>9.3}   {many:>9.0} {:>9.3}", one / filter, many / filter);
    }
    println!();
    println!("A list of n = {} transitions, the library's nanoseconds a period; ratio: to a constant T", time::PERIODS);
    println!("       {:^29}   {:^29}", "filter", "smoother");
    let head = format!("{:>9} {:>9} {:>9}", "constant", "list", "ratio");
    println!("{:>2} {:>2}  {head}   {head}", "m", "p");
    for (m, p) in time::SIZES {
        let row: Vec<String> = CALLS
            .iter()
            .map(|&which| {
                let [constant, list] = by_list(which, m, p, time::PERIODS);
                format!("{constant:>9.0} {list:>9.0} {:>9.3}", list / constant)
            })
            .collect();
        println!("{m:>2} {p:>2}  {}", row.join("   "));
    }
    for which in CALLS {
        println!();
        println!("Growth of the {} with n: the library's nanoseconds a period, and the ratio to the oracle's at that n", which.name());
        println!("(even along a row: the time of a call goes by n)");
        let head: Vec<String> = GROWTH.iter().map(|n| format!("{:>16}", format!("n = {n}"))).collect();
        println!("{:>2} {:>2}  {}", "m", "p", head.join(""));
        for (m, p) in time::SIZES {
            let row: Vec<String> = GROWTH
                .iter()
                .map(|&n| {
                    let (library, oracle) = periods(which, m, p, n);
                    format!("{library:>10.0} {:>5.2}", library / oracle)
                })
                .collect();
            println!("{m:>2} {p:>2}  {}", row.join(""));
        }
    }
}
