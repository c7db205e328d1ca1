//! Nanoseconds per period of the filter and the smoother.

use std::hint::black_box;
use std::time::Instant;

use tsecon_ssm::call::{model_of, readings_of};
use tsecon_ssm::filter::filter_univariate;
use tsecon_ssm::smoother::smooth_univariate;

use crate::case::{Buffers, Case};
use crate::rng::Rng;

/// Periods of a timed run.
pub const PERIODS: usize = 512;
/// The sizes (m, p).
pub const SIZES: [(usize, usize); 5] = [(1, 1), (2, 1), (2, 2), (4, 2), (8, 8)];

/// The timed case: all states diffuse, r = m, no gaps, every element with
/// noise of its own.
pub fn case(m: usize, p: usize, n: usize) -> Case {
    let mut rng = Rng::new((m * 8 + p) as u64);
    let mut case = Case {
        p,
        m,
        r: m,
        n,
        z: (0..p * m).map(|_| 0.5 + rng.unit()).collect(),
        h: vec![0.0; p * p],
        t: vec![0.0; m * m],
        rr: vec![0.0; m * m],
        q: vec![0.0; m * m],
        c: vec![0.0; m],
        d: vec![0.0; p],
        a1: vec![0.0; m],
        p_star: vec![0.0; m * m],
        flags: vec![1; m],
        y: (0..n * p).map(|_| rng.plain()).collect(),
        ..Case::default()
    };
    for i in 0..p {
        case.h[i * p + i] = 0.5 + rng.unit();
    }
    for i in 0..m {
        for j in 0..m {
            case.t[i * m + j] = rng.plain() * 0.25 / m as f64;
        }
        case.t[i * m + i] += 0.75;
        case.rr[i * m + i] = 1.0;
        case.q[i * m + i] = 0.25 + rng.unit();
    }
    case.lend_needed();
    case
}

/// The least time of many runs, in ns per period.
fn least(mut run: impl FnMut()) -> f64 {
    let mut best = f64::INFINITY;
    let whole = Instant::now();
    while whole.elapsed().as_millis() < 600 {
        let start = Instant::now();
        run();
        best = best.min(start.elapsed().as_nanos() as f64);
    }
    best / PERIODS as f64
}

/// `oracle time`.
pub fn command() {
    println!("ns per period, n = {PERIODS}, least of many runs");
    println!("run: filter_univariate, smooth_univariate on a built model");
    println!("call: filter_call, smooth_call with checks, model and outputs");
    println!(
        "{:>2} {:>2} {:>12} {:>12} {:>14} {:>14}",
        "m", "p", "filter run", "filter call", "smoother run", "smoother call"
    );
    for (m, p) in SIZES {
        let case = case(m, p, PERIODS);
        let i = case.inputs();
        let model = model_of(&i).unwrap();
        let y = readings_of(&i);
        let mut b = Buffers::patterned(&case.lent);
        let filter_run = least(|| {
            black_box(filter_univariate(black_box(&model), y.as_ref()).unwrap());
        });
        let filter_call = least(|| {
            black_box(tsecon_ssm::filter_call(black_box(&i), &mut b.lend().0).unwrap());
        });
        let smooth_run = least(|| {
            black_box(smooth_univariate(black_box(&model), y.as_ref()).unwrap());
        });
        let smooth_call = least(|| {
            let (mut o, mut s) = b.lend();
            black_box(tsecon_ssm::smooth_call(black_box(&i), &mut o, &mut s).unwrap());
        });
        println!(
            "{m:>2} {p:>2} {filter_run:>12.1} {filter_call:>12.1} {smooth_run:>14.1} {smooth_call:>14.1}"
        );
    }
}
