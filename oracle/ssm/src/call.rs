//! The whole call of document 01: refusals in order, the run, the outputs
//! row by row into their lent parts, the answer. And a stretch's, document
//! 02's request e. The answer's two reports are request h's, refusal 14 is
//! request d's, lists of T are request g's, a skipped record's cause is
//! request a's.

use parts::{
    decode, encode, first_refusal, list_short, stretch_refusal, transitions_short, Answer, Carried,
    Inputs, Outcome, Outputs, Smoothed, Stretch,
};
use parts::{BELOW_DUST, DIFFUSE, FAILED_REPLAY, GAP, TOO_SMALL, USUAL};
use tsecon_linalg::faer::Mat;

use crate::between::Between;
use crate::error::SsmError;
use crate::filter::{filter_stretch, filter_univariate, Cause, FilterOutput};
use crate::model::{Initialization, LinearGaussianSSM, SystemMatrix};
use crate::smoother::{smooth_univariate, SmootherOutput};

/// A matrix from its rows.
fn from_rows(rows: usize, cols: usize, x: &[f64]) -> Mat<f64> {
    Mat::from_fn(rows, cols, |i, j| x[i * cols + j])
}

/// The matrices of a list.
fn listed(rows: usize, cols: usize, x: &[f64]) -> Vec<Mat<f64>> {
    let each = x.chunks(rows * cols);
    each.map(|one| from_rows(rows, cols, one)).collect()
}

/// A matrix row by row into its part.
fn put_rows(part: &mut [f64], a: &Mat<f64>) {
    let cols = a.ncols();
    for i in 0..a.nrows() {
        for j in 0..cols {
            part[i * cols + j] = a[(i, j)];
        }
    }
}

/// The model of inputs that refusals 1 to 10 let through.
pub fn model_of(i: &Inputs<'_>) -> Result<LinearGaussianSSM, SsmError> {
    let (p, m, r) = (i.p, i.m, i.r);
    let b = LinearGaussianSSM::builder(p, m, r);
    let b = if i.zs.is_empty() {
        b.z(from_rows(p, m, i.z))
    } else {
        b.z_varying(listed(p, m, i.zs))
    };
    let t = if i.ts.is_empty() {
        SystemMatrix::Constant(from_rows(m, m, i.t))
    } else {
        SystemMatrix::Varying(listed(m, m, i.ts))
    };
    b.h(from_rows(p, p, i.h))
        .t(t)
        .r(from_rows(m, r, i.rr))
        .q(from_rows(r, r, i.q))
        .state_intercept(i.c.to_vec())
        .obs_intercept(i.d.to_vec())
        .initialization(Initialization::Mixed {
            diffuse: i.flags.iter().map(|&f| f != 0).collect(),
            a1: i.a1.to_vec(),
            p_star: from_rows(m, m, i.p_star),
        })
        .build()
}

/// The readings of inputs that refusals 1 and 2 let through.
pub fn readings_of(i: &Inputs<'_>) -> Mat<f64> {
    from_rows(i.n, i.p, i.y)
}

/// Refusals 1 to 11 in order, with the lists' reach where it is due, all but
/// 11 judged already; then the model.
fn checked(i: &Inputs<'_>, refusal: Option<u32>) -> Result<LinearGaussianSSM, u32> {
    if let Some(k) = refusal {
        return Err(k);
    }
    let model = model_of(i).expect("refusals 1 to 10 leave nothing for `build` to refuse");
    model.rqr(0).map_err(|_| 11u32)?;
    Ok(model)
}

/// Writes each period's block into its place.
fn put_filter(i: &Inputs<'_>, fo: &FilterOutput, o: &mut Outputs<'_>) {
    let (p, m, n) = (i.p, i.m, i.n);
    for t in 0..=n {
        o.pred_mean[t * m..(t + 1) * m].copy_from_slice(&fo.predicted_state[t]);
        let mat = t * m * m..(t + 1) * m * m;
        put_rows(&mut o.pred_cov[mat.clone()], &fo.predicted_state_cov[t]);
        put_rows(&mut o.pred_inf[mat], &fo.predicted_diffuse_state_cov[t]);
    }
    for t in 0..n {
        o.filt_mean[t * m..(t + 1) * m].copy_from_slice(&fo.filtered_state[t]);
        let mat = t * m * m..(t + 1) * m * m;
        put_rows(&mut o.filt_cov[mat], &fo.filtered_state_cov[t]);
    }
    for k in 0..n * p {
        let step = &fo.steps[k];
        o.kinds[k] = match step.cause {
            Some(Cause::Gap) => GAP,
            Some(Cause::Scale) => TOO_SMALL,
            Some(Cause::Below) => BELOW_DUST,
            Some(Cause::Replay) => FAILED_REPLAY,
            None if step.diffuse => DIFFUSE,
            None => USUAL,
        };
        o.v[k] = step.v;
        o.f_star[k] = step.f_star;
        o.f_inf[k] = step.f_inf;
        let gain = k * m..(k + 1) * m;
        put_gain(&mut o.m_star[gain.clone()], &step.m_star);
        put_gain(&mut o.m_inf[gain], &step.m_inf);
    }
}

/// A gain vector into its place; one that the record does not use is +0.0.
fn put_gain(part: &mut [f64], gain: &[f64]) {
    if gain.is_empty() {
        part.fill(0.0);
    } else {
        part.copy_from_slice(gain);
    }
}

fn put_smoothed(i: &Inputs<'_>, so: &SmootherOutput, s: &mut Smoothed<'_>) {
    let m = i.m;
    for t in 0..i.n {
        s.sm_mean[t * m..(t + 1) * m].copy_from_slice(&so.smoothed_state[t]);
        let mat = t * m * m..(t + 1) * m * m;
        put_rows(&mut s.sm_cov[mat], &so.smoothed_state_cov[t]);
    }
}

fn some_off(x: &[f64]) -> bool {
    x.iter().any(|v| !v.is_finite())
}

fn some_off_in(a: &Mat<f64>) -> bool {
    (0..a.nrows()).any(|i| (0..a.ncols()).any(|j| !a[(i, j)].is_finite()))
}

/// Whether a covariance that is stored for period t is not finite: the
/// predicted one, its diffuse part as it is stored, the filtered one.
fn cov_is_off(fo: &FilterOutput, t: usize) -> bool {
    some_off_in(&fo.predicted_state_cov[t])
        || some_off_in(&fo.predicted_diffuse_state_cov[t])
        || some_off_in(&fo.filtered_state_cov[t])
}

/// Whether a mean that is stored for period t is not finite.
fn mean_is_off(fo: &FilterOutput, t: usize) -> bool {
    some_off(&fo.predicted_state[t]) || some_off(&fo.filtered_state[t])
}

/// The first period that is off, plus 1, or 0 for none. Place n of the
/// predicted moments is no period.
fn first_off(i: &Inputs<'_>, fo: &FilterOutput, off: fn(&FilterOutput, usize) -> bool) -> usize {
    (0..i.n).find(|&t| off(fo, t)).map_or(0, |t| t + 1)
}

/// The report of a run so far: what was told earlier stays, and a stretch's
/// own periods come after the `done` ones.
fn told(earlier: usize, done: usize, own: usize) -> usize {
    match (earlier, own) {
        (0, 0) => 0,
        (0, own) => done + own,
        (earlier, _) => earlier,
    }
}

fn answer(i: &Inputs<'_>, fo: &FilterOutput) -> Answer {
    Answer {
        loglik: fo.loglik,
        d_diffuse: fo.d_diffuse,
        heard: i.y.iter().filter(|v| !v.is_nan()).count(),
        news: fo.steps.iter().filter(|s| s.observed).count(),
        cov_off: first_off(i, fo, cov_is_off),
        mean_off: first_off(i, fo, mean_is_off),
    }
}

/// The filter's call.
pub fn filter_call(i: &Inputs<'_>, o: &mut Outputs<'_>) -> Outcome {
    let model = checked(i, first_refusal(i, &o.lengths()))?;
    match filter_univariate(&model, readings_of(i).as_ref()) {
        Ok(fo) => {
            put_filter(i, &fo, o);
            Ok(answer(i, &fo))
        }
        Err(SsmError::NoInformation) => {
            o.blank(i.p, i.m, i.n);
            Err(12)
        }
        Err(e) => panic!("refusals 1 to 11 leave only 12 to a run: {e:?}"),
    }
}

/// The smoother's call.
pub fn smooth_call(i: &Inputs<'_>, o: &mut Outputs<'_>, s: &mut Smoothed<'_>) -> Outcome {
    let mut lent = [0; parts::SMOOTH_PARTS];
    lent[..parts::FILTER_PARTS].copy_from_slice(&o.lengths());
    lent[parts::FILTER_PARTS..].copy_from_slice(&s.lengths());
    let model = checked(i, first_refusal(i, &lent))?;
    match smooth_univariate(&model, readings_of(i).as_ref()) {
        Ok(so) => {
            put_filter(i, &so.filter, o);
            put_smoothed(i, &so, s);
            Ok(answer(i, &so.filter))
        }
        Err(SsmError::NoInformation) => {
            o.blank(i.p, i.m, i.n);
            s.blank(i.p, i.m, i.n);
            Err(12)
        }
        Err(e) => panic!("refusals 1 to 11 leave only 12 to a run: {e:?}"),
    }
}

/// Refusal 15, or the run to go on with: none where it begins here.
fn loaded(i: &Inputs<'_>, s: &Stretch<'_>) -> Result<Option<Carried>, u32> {
    if s.begins == 0 {
        return decode(i.p, i.m, i.r, i.n, s.saved).map(Some).ok_or(15);
    }
    if s.saved.is_empty() {
        Ok(None)
    } else {
        Err(15)
    }
}

/// The call of a stretch. The answer counts since the run began.
pub fn stretch_call(
    i: &Inputs<'_>,
    s: &Stretch<'_>,
    o: &mut Outputs<'_>,
    save: &mut [u8],
) -> Outcome {
    let last = s.last != 0;
    let model = checked(i, stretch_refusal(i, &o.lengths(), last, save.len()))?;
    let from = loaded(i, s)?;
    let (done, cov_told, mean_told) = from
        .as_ref()
        .map_or((0, 0, 0), |c| (c.done, c.cov_off, c.mean_off));
    // Lists count from the run's first period.
    if transitions_short(i, done + i.n) {
        return Err(2);
    }
    if list_short(i, done + i.n) {
        return Err(14);
    }
    let from = from.as_ref().map(Between::loaded);
    match filter_stretch(&model, readings_of(i).as_ref(), done, from, last) {
        Ok((fo, left)) => {
            put_filter(i, &fo, o);
            let cov_off = told(cov_told, done, first_off(i, &fo, cov_is_off));
            let mean_off = told(mean_told, done, first_off(i, &fo, mean_is_off));
            if !last {
                let state = left.carried(done + i.n, cov_off, mean_off);
                let bytes = encode(i.p, i.m, i.r, &state);
                save[..bytes.len()].copy_from_slice(&bytes);
            }
            Ok(Answer {
                loglik: left.loglik,
                d_diffuse: left.d_diffuse,
                heard: left.n_observed,
                news: left.n_informative,
                cov_off,
                mean_off,
            })
        }
        Err(SsmError::NoInformation) => {
            o.blank(i.p, i.m, i.n);
            Err(12)
        }
        Err(e) => panic!("refusals 1 to 15 leave only 12 to a stretch: {e:?}"),
    }
}
