//! Why a reading was skipped. Each number was worked out by hand from document 01's tests, as a comment says; and the rules that hold of every call's
//! records: the six kinds come to n·p, a gap is where the reading is NaN, news are the records that are not skipped.

mod same;

use goxundar::lent::{self, Inputs, Outputs};
use goxundar::{begin, filter, smooth, Cause, Design, Model, Record, Refusal, Run, Transition};
use same::{answer, is_part};

const GAP: f64 = f64::NAN;

/// Gap, usual, diffuse, too small, below the dust line, failed on replay.
fn kind(record: Record<'_>) -> usize {
    match record {
        Record::Skipped(Cause::Gap) => 0,
        Record::Usual { .. } => 1,
        Record::Diffuse { .. } => 2,
        Record::Skipped(Cause::TooSmall) => 3,
        Record::Skipped(Cause::BelowDust) => 4,
        Record::Skipped(Cause::FailedReplay) => 5,
    }
}

fn kinds(run: &Run) -> Vec<usize> {
    let places = (0..run.periods()).flat_map(|t| (0..run.elements()).map(move |i| (t, i)));
    places.map(|(t, i)| kind(run.record(t, i))).collect()
}

/// The rules, over the readings of a run since its begin.
fn held(run: &Run, readings: &[f64]) {
    let kinds = kinds(run);
    let count = |kind: usize| kinds.iter().filter(|&&k| k == kind).count();
    assert_eq!((0..6).map(count).sum::<usize>(), run.periods() * run.elements());
    assert_eq!(kinds.len(), readings.len());
    for (kind, reading) in kinds.iter().zip(readings) {
        assert_eq!(*kind == 0, reading.is_nan());
    }
    assert_eq!(run.heard(), readings.len() - count(0));
    assert_eq!(run.news(), count(1) + count(2));
}

/// The kinds, by the filter, the smoother, and a stretch.
fn told(model: &Model, readings: &[f64]) -> Vec<usize> {
    let n = readings.len() / model.p;
    let run = filter(model, n, readings).unwrap();
    held(&run, readings);
    let smoothed = smooth(model, n, readings).unwrap();
    let (stretch, _) = begin(model, n, readings).unwrap();
    for other in [smoothed.run(), &stretch] {
        assert_eq!(answer(other), answer(&run));
        is_part(other, &run, 0);
    }
    kinds(&run)
}

/// States that stay as they are, whose covariance this is; rows of the design; the inputs' noise. The flagged states are not known.
fn still(rows: &[f64], noise: &[f64], p_star: &[f64], flags: &[bool]) -> Model {
    let (p, m) = (noise.len(), flags.len());
    let diagonal = |k: usize, of: &dyn Fn(usize) -> f64| (0..k * k).map(|at| if at / k == at % k { of(at / k) } else { 0.0 }).collect();
    Model {
        design: Design::Constant(rows.to_vec()),
        h: diagonal(p, &|i| noise[i]),
        transition: Transition::Constant(diagonal(m, &|_| 1.0)),
        p_star: p_star.to_vec(),
        diffuse: flags.to_vec(),
        ..Model::zeros(p, m, 1)
    }
}

/// Both inputs see one level, without noise. Once input 0 is used, F* is 0: against its scale, 0, and against the reference, 1. The first is told.
#[test]
fn too_small_and_below_too() {
    let level = still(&[1.0, 1.0], &[0.0, 0.0], &[1.0], &[false]);
    assert_eq!(told(&level, &[2.0, 7.0]), [1, 3]);
    assert_eq!(told(&level, &[GAP, 7.0]), [0, 1]);
    assert_eq!(told(&level, &[2.0, GAP]), [1, 0]);
}

/// What an input sees cancels: F* = 2^-36, against its scale, 4 + 2^-36. Behind input 0 the dust test would not call it below, before it takes all.
#[test]
fn too_small_though_not_below() {
    let covariance = [1.0, 0.0, 0.0, 0.0, 1.0, -1.0, 0.0, -1.0, 1.0];
    let h = 2f64.powi(-36);
    let two = still(&[1.0, 0.0, 0.0, 0.0, 1.0, 1.0], &[0.0, h], &covariance, &[false; 3]);
    assert_eq!(told(&two, &[2.0, 7.0]), [1, 3]);
    let two = still(&[0.0, 1.0, 1.0, 1.0, 0.0, 0.0], &[h, 0.0], &covariance, &[false; 3]);
    assert_eq!(told(&two, &[2.0, 7.0]), [3, 1]);
}

/// The square of the design overflows, though P* is 1: no variance is above an infinite scale. Where P* is 0 the scale is NaN.
#[test]
fn a_scale_that_overflows() {
    let far = 2f64.powi(1023);
    assert_eq!(told(&still(&[far, 1.0], &[1.0, 1.0], &[1.0], &[false]), &[2.0, 7.0]), [3, 1]);
    assert_eq!(told(&still(&[1.0, far], &[1.0, 1.0], &[1.0], &[false]), &[2.0, 7.0]), [1, 3]);
    assert_eq!(told(&still(&[far, 0.0, 0.0, 1.0], &[1.0, 1.0], &[0.0, 0.0, 0.0, 1.0], &[false; 2]), &[2.0, 7.0]), [3, 1]);
}

/// F* is the noise h of input 1, at 1e-14 of the reference, 1 + h: not above it. State 1 is not settled, so the period is diffuse.
#[test]
fn below_at_the_tolerance() {
    let with = |h: u64| still(&[1.0, 0.0, 1.0, 0.0], &[0.0, f64::from_bits(h)], &[1.0, 0.0, 0.0, 0.0], &[false, true]);
    let at = 0x3D06_849B_86A1_2BDA;
    assert_eq!(told(&with(at), &[2.0, 7.0]), [1, 4]);
    // The next number is above: suspect, and accepted in a diffuse period.
    assert_eq!(told(&with(at + 1), &[2.0, 7.0]), [1, 1]);
    assert_eq!(filter(&with(at), 1, &[2.0, 7.0]).unwrap().d_diffuse(), 1);
}

/// Below and too small in one diffuse period: h = 2^-50 against 1 + h, and 0.
#[test]
fn both_in_a_diffuse_period() {
    let noise = [0.0, 2f64.powi(-50), 0.0];
    let three = still(&[1.0, 0.0, 1.0, 0.0, 1.0, 0.0], &noise, &[1.0, 0.0, 0.0, 0.0], &[false, true]);
    assert_eq!(told(&three, &[2.0, 7.0, 2.0]), [1, 4, 3]);
}

/// Input 0 sees state 0, and input 1 all three. States 1 and 2 have the covariance b alone. Once input 0 is used, F* = 2 b + h.
fn hidden(b: f64, h: f64) -> Model {
    still(&[1.0, 0.0, 0.0, 1.0, 1.0, 1.0], &[0.0, h], &[1.0, 0.0, 0.0, 0.0, 0.0, b, 0.0, b, 0.0], &[false; 3])
}

/// The bound's square is 1: at 1e-6 of it F* is not clear. By the reference, 1 + 2 b, it is suspect. The root does not see the covariance: F is h.
#[test]
fn failed_on_replay() {
    assert_eq!(told(&hidden(5e-7, 0.0), &[2.0, 7.0]), [1, 5]);
    assert_eq!(told(&hidden(f64::from_bits(5e-7f64.to_bits() + 1), 0.0), &[2.0, 7.0]), [1, 1]);
    // h at 1e-14 of the reference, and the next number above that.
    let at = 0x3D06_849B_8755_50B7;
    assert_eq!(told(&hidden(2f64.powi(-30), f64::from_bits(at)), &[2.0, 7.0]), [1, 5]);
    assert_eq!(told(&hidden(2f64.powi(-30), f64::from_bits(at + 1)), &[2.0, 7.0]), [1, 1]);
}

/// All six, in four periods of two inputs, input 0 without noise, input 1 with h = 2^-50. Nothing is known of state 4; states 0 and 3 have variance 1,
/// states 1 and 2 the covariance 2^-30 alone.
fn all_six() -> (Model, Vec<f64>) {
    let mut p_star = vec![0.0; 25];
    (p_star[0], p_star[18]) = (1.0, 1.0);
    (p_star[7], p_star[11]) = (2f64.powi(-30), 2f64.powi(-30));
    let mut model = still(&[], &[0.0, 2f64.powi(-50)], &p_star, &[false, false, false, false, true]);
    let designs = [
        // A gap; it settles state 4, whose variance is h then.
        [[1.0, 0.0, 0.0, 0.0, 0.0], [0.0, 0.0, 0.0, 0.0, 1.0]],
        // It pins state 0; F* = 2^-29 + h, suspect, and by the root h, not above 1e-14 of the reference, 1 + 2^-29 + h.
        [[1.0, 0.0, 0.0, 0.0, 0.0], [1.0, 1.0, 1.0, 0.0, 0.0]],
        // It pins state 3; F* = h is its scale, and not above 1e-14 of the reference, 1 + h.
        [[0.0, 0.0, 0.0, 1.0, 0.0], [0.0, 0.0, 0.0, 1.0, 0.0]],
        // F* and its scale are 0; F* = 2 h, and nothing was used before.
        [[1.0, 0.0, 0.0, 0.0, 0.0], [0.0, 0.0, 0.0, 0.0, 1.0]],
    ];
    model.design = Design::Listed(designs.concat().concat());
    (model, vec![GAP, 1.0, 2.0, 3.0, 4.0, 5.0, 6.0, 7.0])
}

#[test]
fn all_six_kinds() {
    let (model, readings) = all_six();
    assert_eq!(told(&model, &readings), [0, 2, 1, 5, 1, 4, 3, 1]);
    let run = filter(&model, 4, &readings).unwrap();
    assert_eq!((run.heard(), run.news(), run.d_diffuse()), (7, 4, 1));
    // Cut anywhere, each stretch tells its own.
    for cut in 0..=4 {
        let (first, saved) = begin(&model, cut, &readings[..2 * cut]).unwrap();
        held(&first, &readings[..2 * cut]);
        let rest = saved.finish(&model, 4 - cut, &readings[2 * cut..]).unwrap();
        assert_eq!([kinds(&first), kinds(&rest)].concat(), kinds(&run), "cut after {cut}");
        assert_eq!(answer(&rest), answer(&run));
    }
}

/// A reading that was skipped may be any number, and nothing moves. As a gap it moves `heard`, by one, and its own cause.
#[test]
fn a_skipped_reading_could_be_a_gap() {
    let (model, readings) = all_six();
    let run = filter(&model, 4, &readings).unwrap();
    let before = kinds(&run);
    let skipped: Vec<usize> = (0..8).filter(|&k| before[k] > 2).collect();
    assert_eq!(skipped, [3, 5, 6]);
    for k in skipped {
        let with = |reading: f64| {
            let mut readings = readings.clone();
            readings[k] = reading;
            filter(&model, 4, &readings).unwrap()
        };
        for any in [0.0, -1e300] {
            is_part(&with(any), &run, 0);
            assert_eq!(answer(&with(any)), answer(&run));
        }
        let gap = with(GAP);
        let mut wanted = before.clone();
        wanted[k] = 0;
        assert_eq!(kinds(&gap), wanted);
        let (loglik, d_diffuse, heard, news, cov_off, mean_off) = answer(&run);
        assert_eq!(answer(&gap), (loglik, d_diffuse, heard - 1, news, cov_off, mean_off));
        for t in 0..4 {
            assert_eq!((gap.filtered(t), gap.predicted(t)), (run.filtered(t), run.predicted(t)));
        }
        assert_eq!(gap.predicted(4), run.predicted(4));
    }
}

/// Refusal 12 tells no cause: every record that was lent is a gap. A stretch that is not the last is not judged, and tells them.
#[test]
fn blanked_records_are_gaps() {
    // A level that is known; input 1's design overflows by its square.
    let known = still(&[1.0, 2f64.powi(1023)], &[0.0, 1.0], &[0.0], &[false]);
    assert_eq!(filter(&known, 1, &[2.0, 7.0]).unwrap_err(), Refusal::NoInformation);
    let (run, saved) = begin(&known, 1, &[2.0, 7.0]).unwrap();
    held(&run, &[2.0, 7.0]);
    assert_eq!(kinds(&run), [3, 3]);
    assert_eq!(saved.finish(&known, 0, &[]).unwrap_err(), Refusal::NoInformation);

    let (one, zero) = (&[1.0][..], &[0.0][..]);
    let design = [1.0, 2f64.powi(1023)];
    let inputs = Inputs { p: 2, m: 1, r: 1, n: 1, z: &design, h: &[0.0, 0.0, 0.0, 1.0], t: one, rr: one, q: zero, c: zero, ..Inputs::default() };
    let inputs = Inputs { d: &[0.0; 2], a1: zero, p_star: zero, flags: &[0], y: &[2.0, 7.0], ..inputs };
    let (mut pred, mut filt, mut pairs, mut kinds) = ([[7.0; 2]; 3], [[7.0; 1]; 2], [[7.0; 2]; 5], [7; 3]);
    let [pred_mean, pred_cov, pred_inf] = &mut pred;
    let [filt_mean, filt_cov] = &mut filt;
    let [v, f_star, f_inf, m_star, m_inf] = &mut pairs;
    let mut outputs = Outputs { pred_mean, pred_cov, pred_inf, filt_mean, filt_cov, kinds: &mut kinds, v, f_star, f_inf, m_star, m_inf };
    assert_eq!(lent::filter(&inputs, &mut outputs), Err(Refusal::NoInformation));
    assert_eq!((kinds, pairs), ([0, 0, 7], [[0.0; 2]; 5]));
}
