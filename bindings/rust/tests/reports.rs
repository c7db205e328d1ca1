//! Numbers that ran off: the two reports of every call, what they leave out, and how they are carried. Every expected value follows from a rule of
//! document 01 or 02, as a comment says. `(cov_off, mean_off)` throughout; C's are these plus 1.

use goxundar::{begin, filter, smooth, Cause, Design, Model, Record, Refusal, Run, Saved, Transition};

const GAP: f64 = f64::NAN;

/// Twice that overflows.
const LARGE: f64 = 1.5e308;

type Off = (Option<usize>, Option<usize>);

const NONE: Off = (None, None);

fn off(run: &Run) -> Off {
    (run.cov_off(), run.mean_off())
}

/// The reports as the handed out numbers have them: the first of n periods in which one is not finite.
fn by_the_numbers(run: &Run) -> Off {
    let some = |part: &[f64]| part.iter().any(|x| !x.is_finite());
    let cov = |t: &usize| some(run.predicted(*t).cov) || some(run.predicted(*t).diffuse_cov) || some(run.filtered(*t).cov);
    let mean = |t: &usize| some(run.predicted(*t).mean) || some(run.filtered(*t).mean);
    ((0..run.periods()).find(cov), (0..run.periods()).find(mean))
}

/// The reports of a run: by the filter, by the smoother, by the numbers, and by two stretches, however it is cut.
fn reports(model: &Model, readings: &[f64]) -> Off {
    let p = model.p;
    let n = readings.len() / p;
    let run = filter(model, n, readings).unwrap();
    let told = off(&run);
    assert_eq!(off(smooth(model, n, readings).unwrap().run()), told);
    assert_eq!(by_the_numbers(&run), told);
    for cut in 0..=n {
        let (first, saved) = begin(model, cut, &readings[..cut * p]).unwrap();
        assert_eq!(off(&first), by_the_numbers(&first), "cut after {cut}");
        let (none, again) = saved.resume(model, 0, &[]).unwrap();
        assert_eq!((off(&none), &again), (off(&first), &saved), "cut after {cut}");
        assert_eq!(off(&saved.finish(model, n - cut, &readings[cut * p..]).unwrap()), told, "cut after {cut}");
    }
    told
}

/// A known level that grows, with no noise: without readings its mean is T^t in period t, its covariance T^2t.
fn growing(growth: f64) -> Model {
    Model {
        design: Design::Constant(vec![1.0]),
        h: vec![1.0],
        transition: Transition::Constant(vec![growth]),
        a1: vec![1.0],
        p_star: vec![1.0],
        ..Model::zeros(1, 1, 1)
    }
}

/// The covariance is 2^1024 in period 2, the mean in period 4. What is predicted after the last period is left out.
#[test]
fn the_first_period_and_not_the_place_after_the_last() {
    let level = growing(2f64.powi(256));
    for n in 1..=6 {
        let want = ((n > 2).then_some(2), (n > 4).then_some(4));
        assert_eq!(reports(&level, &vec![GAP; n]), want, "{n} periods");
    }
    assert_eq!(filter(&level, 2, &[GAP; 2]).unwrap().predicted(2).cov, [f64::INFINITY]);
    assert_eq!(filter(&level, 4, &[GAP; 4]).unwrap().predicted(4).mean, [f64::INFINITY]);
}

/// 98^154 is 10^306.6, 98^155 10^308.6, and doubles end at 10^308.3.
#[test]
fn a_mistyped_rate() {
    assert_eq!(reports(&growing(98.0), &[GAP; 160]), (Some(78), Some(155)));
    assert_eq!(reports(&growing(0.98), &[GAP; 160]), NONE);
}

/// It is 2^1024 in period 2; the bounded part and the mean stay 0.
#[test]
fn a_diffuse_covariance() {
    let level = Model { a1: vec![0.0], p_star: vec![0.0], diffuse: vec![true], ..growing(2f64.powi(256)) };
    assert_eq!(reports(&level, &[GAP; 3]), (Some(2), None));
    assert_eq!(filter(&level, 3, &[GAP; 3]).unwrap().predicted(2).cov, [0.0]);
}

/// docs/DIFFERENCES.md 1: the scale is finite, F* infinite, and the reading is used. M* is (2^960, ∞), so the gain is (0, NaN).
#[test]
fn a_filtered_covariance() {
    let far = 2f64.powi(1000);
    let two = Model {
        design: Design::Constant(vec![2f64.powi(40), 2f64.powi(-40)]),
        transition: Transition::Constant(vec![1.0, 0.0, 0.0, 1.0]),
        p_star: vec![0.0, far, far, 0.0],
        ..Model::zeros(1, 2, 1)
    };
    assert_eq!(reports(&two, &[0.0]), (Some(0), Some(0)));
    assert!(matches!(filter(&two, 1, &[0.0]).unwrap().record(0, 0), Record::Usual { .. }));
}

/// v overflows, and half of it is added to the mean. The covariance does not go by the reading, nor by the start's mean.
#[test]
fn a_filtered_mean_by_the_reading() {
    let level = Model { a1: vec![LARGE], ..growing(1.0) };
    assert_eq!(reports(&level, &[-LARGE]), (None, Some(0)));
    assert_eq!(reports(&level, &[0.0]), NONE);
    assert_eq!(reports(&Model { a1: vec![0.0], ..level }, &[-LARGE]), NONE);
}

/// Without noise input 0 tells all, and input 1 nothing: what it reads has no part in the report.
#[test]
fn not_by_a_reading_that_is_no_news() {
    let twice = Model {
        design: Design::Constant(vec![1.0, 1.0]),
        transition: Transition::Constant(vec![1.0]),
        a1: vec![LARGE],
        p_star: vec![1.0],
        ..Model::zeros(2, 1, 1)
    };
    for any in [-LARGE, 0.0, LARGE] {
        assert_eq!(reports(&twice, &[LARGE, any]), NONE);
        assert_eq!(reports(&twice, &[-LARGE, any]), (None, Some(0)));
    }
}

// ---- what is left out

/// T·T' is (∞, NaN; NaN, ∞). The sum of its squares is a NaN, so the diffuse start is over, and zeros are handed out.
#[test]
fn a_nan_that_ends_the_diffuse_start() {
    let x = 2f64.powi(600);
    let two = Model {
        design: Design::Constant(vec![1.0, 0.0]),
        transition: Transition::Constant(vec![x, -x, x, x]),
        diffuse: vec![true; 2],
        ..Model::zeros(1, 2, 1)
    };
    assert_eq!(reports(&two, &[GAP; 2]), NONE);
    let run = filter(&two, 2, &[GAP; 2]).unwrap();
    assert_eq!((run.d_diffuse(), run.predicted(1).diffuse_cov), (1, &[0.0; 4][..]));
}

/// In period 1 the covariance is infinite, and no reading passes a test.
#[test]
fn an_overflow_that_ends_in_a_refusal() {
    let level = growing(2f64.powi(600));
    assert_eq!(filter(&level, 2, &[GAP, 1.0]).unwrap_err(), Refusal::NoInformation);
    assert_eq!(smooth(&level, 2, &[GAP, 1.0]).unwrap_err(), Refusal::NoInformation);
    // A stretch that is not the last is not judged, and tells.
    let (run, saved) = begin(&level, 2, &[GAP, 1.0]).unwrap();
    assert_eq!(off(&run), (Some(1), None));
    assert_eq!(saved.finish(&level, 0, &[]).unwrap_err(), Refusal::NoInformation);
}

/// Input 0 halves the covariance. The square of input 1's design, times that, overflows.
#[test]
fn an_infinite_scale() {
    let far = 2f64.powi(1000);
    let twice = Model {
        design: Design::Constant(vec![1.0, 2f64.powi(40)]),
        h: vec![far, 0.0, 0.0, 0.0],
        transition: Transition::Constant(vec![1.0]),
        p_star: vec![far],
        ..Model::zeros(2, 1, 1)
    };
    assert_eq!(reports(&twice, &[1.0, 1.0]), NONE);
    let run = filter(&twice, 1, &[1.0, 1.0]).unwrap();
    assert_eq!((run.news(), run.record(0, 1), run.filtered(0).cov), (1, Record::Skipped(Cause::TooSmall), &[far / 2.0][..]));
}

// ---- in stretches

/// The reports count from the run's first period, and what was told stays.
#[test]
fn from_the_first_period_of_the_run() {
    let level = growing(2f64.powi(256));
    let (run, saved) = begin(&level, 2, &[GAP; 2]).unwrap();
    assert_eq!(off(&run), NONE);
    let (run, saved) = saved.resume(&level, 2, &[GAP; 2]).unwrap();
    assert_eq!(off(&run), (Some(2), None));
    let (run, saved) = saved.resume(&level, 2, &[GAP; 2]).unwrap();
    assert_eq!(off(&run), (Some(2), Some(4)));
    // The last two numbers of the bytes: the period plus 1.
    assert_eq!(saved.as_bytes()[144..], [3u64.to_be_bytes(), 5u64.to_be_bytes()].concat());
    // Where later numbers are finite again, only the bytes know. No run leaves such bytes, so they are made.
    let mut bytes = saved.into_bytes();
    bytes[40..48].copy_from_slice(&1f64.to_be_bytes());
    bytes[52..60].copy_from_slice(&1f64.to_be_bytes());
    let run = Saved::from_bytes(bytes).finish(&growing(1.0), 1, &[GAP]).unwrap();
    assert_eq!((by_the_numbers(&run), off(&run)), (NONE, (Some(2), Some(4))));
}
