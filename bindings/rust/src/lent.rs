//! The calls on lent slices: nothing is allocated, nothing is checked here, and all that is lent reaches the library as it is.
//!
//! Matrices are row by row. Inputs have exact lengths; outputs are at least as long as [`Lengths`] says, and the rest of them stays as it was.

use crate::raw;
use crate::Refusal;

/// The largest p, m and r.
pub const MAX_SIZE: usize = 8;
/// The largest n, and the largest count of listed designs or transitions.
pub const MAX_PERIODS: usize = 4096;

/// What is handed in. [`crate::Model`] says what each part means.
#[derive(Debug, Clone, Copy, Default)]
pub struct Inputs<'a> {
    /// Elements: readings that a period has room for. 1 to 8.
    pub p: usize,
    /// States. 1 to 8.
    pub m: usize,
    /// Disturbances. 1 to 8.
    pub r: usize,
    /// Periods. 1 to 4096; of a stretch 0 to 4096.
    pub n: usize,
    /// p·m: the constant design, or empty.
    pub z: &'a [f64],
    /// k·p·m: k designs, or empty. Exactly one of `z` and `zs` is empty.
    pub zs: &'a [f64],
    /// Whether the last of `zs` is used again once they have run out. If not, a list that runs out is [`Refusal::ListShort`]. Void for `z`.
    pub repeats: bool,
    /// p·p: the readings' noise.
    pub h: &'a [f64],
    /// m·m: the constant transition, or empty.
    pub t: &'a [f64],
    /// k·m·m: k transitions, or empty. Exactly one of `t` and `ts` is empty. A list that runs out is [`Refusal::Length`], whatever `repeats` is.
    pub ts: &'a [f64],
    /// m·r: which disturbance moves which state.
    pub rr: &'a [f64],
    /// r·r: the disturbances' variances.
    pub q: &'a [f64],
    /// m: added to the states.
    pub c: &'a [f64],
    /// p: added to the readings.
    pub d: &'a [f64],
    /// m: the start's mean.
    pub a1: &'a [f64],
    /// m·m: the start's covariance.
    pub p_star: &'a [f64],
    /// m: 1 where nothing is known of the state at the start, else 0.
    pub flags: &'a [u8],
    /// n·p: the readings. A NaN is a gap.
    pub y: &'a [f64],
}

/// What the filter writes to. [`crate::Run`] says what each part means.
#[derive(Debug, Default)]
pub struct Outputs<'a> {
    /// (n+1)·m: predicted means.
    pub pred_mean: &'a mut [f64],
    /// (n+1)·m·m: predicted covariances, the bounded part.
    pub pred_cov: &'a mut [f64],
    /// (n+1)·m·m: predicted diffuse covariances, the unbounded part.
    pub pred_inf: &'a mut [f64],
    /// n·m: filtered means.
    pub filt_mean: &'a mut [f64],
    /// n·m·m: filtered covariances, the bounded part.
    pub filt_cov: &'a mut [f64],
    /// n·p: what became of each reading. 1 is usual, 2 diffuse. The others were skipped: 0 a gap, 3 too small, 4 below the dust line, 5 failed on
    /// replay. [`crate::Record`] and [`crate::Cause`] say what that means.
    pub kinds: &'a mut [u8],
    /// n·p: each reading less what was expected of it.
    pub v: &'a mut [f64],
    /// n·p: the variance of that, the bounded part.
    pub f_star: &'a mut [f64],
    /// n·p: the unbounded part.
    pub f_inf: &'a mut [f64],
    /// n·p·m: the covariance of the states with that, the bounded part.
    pub m_star: &'a mut [f64],
    /// n·p·m: the unbounded part.
    pub m_inf: &'a mut [f64],
}

/// What the smoother writes to besides.
#[derive(Debug, Default)]
pub struct SmoothedOutputs<'a> {
    /// n·m: smoothed means.
    pub sm_mean: &'a mut [f64],
    /// n·m·m: smoothed covariances.
    pub sm_cov: &'a mut [f64],
}

/// The answer of a call that is not refused.
#[derive(Debug, Clone, Copy, PartialEq, Default)]
pub struct Answer {
    /// The log-likelihood of the readings that were used.
    pub loglik: f64,
    /// How many periods began with some state not settled. They are the first ones.
    pub d_diffuse: usize,
    /// How many readings are not gaps.
    pub heard: usize,
    /// How many readings were used.
    pub news: usize,
    /// The first period, from 0, with a predicted, diffuse or filtered covariance that is not finite. [`crate::Run::cov_off`] says more.
    pub cov_off: Option<usize>,
    /// The first period, from 0, with a predicted or filtered mean that is not finite.
    pub mean_off: Option<usize>,
}

/// The answer as the library writes it: a report is a period plus 1, or 0 for none.
#[derive(Default)]
struct Places {
    loglik: f64,
    d_diffuse: usize,
    heard: usize,
    news: usize,
    cov_off: usize,
    mean_off: usize,
}

/// The needed lengths of the outputs. All are 0 where a size is out of its range: the call is refused, and writes nothing. 0 periods are in range,
/// for [`stretch`].
#[derive(Debug, Clone, Copy, PartialEq, Eq, Default)]
pub struct Lengths {
    /// Of `pred_mean`: (n+1)·m.
    pub pred_mean: usize,
    /// Of `pred_cov` and `pred_inf`: (n+1)·m·m.
    pub pred_cov: usize,
    /// Of `filt_mean` and `sm_mean`: n·m.
    pub mean: usize,
    /// Of `filt_cov` and `sm_cov`: n·m·m.
    pub cov: usize,
    /// Of `kinds`, `v`, `f_star` and `f_inf`: n·p.
    pub record: usize,
    /// Of `m_star` and `m_inf`: n·p·m.
    pub gain: usize,
}

impl Lengths {
    /// For p elements, m states and n periods.
    pub fn needed(p: usize, m: usize, n: usize) -> Lengths {
        let size = 1..=MAX_SIZE;
        // Beyond these ranges a product may overflow.
        if !(size.contains(&p) && size.contains(&m) && n <= MAX_PERIODS) {
            return Lengths::default();
        }
        Lengths { pred_mean: (n + 1) * m, pred_cov: (n + 1) * m * m, mean: n * m, cov: n * m * m, record: n * p, gain: n * p * m }
    }
}

/// How many bytes a saved run of m states has: 160 for one state, 2232 for eight. 0 where m is out of its range: the call is refused, and writes
/// nothing.
pub fn saved_len(m: usize) -> usize {
    match m {
        1..=MAX_SIZE => 120 + 8 * m + 32 * m * m,
        _ => 0,
    }
}

/// Where a stretch goes on from.
#[derive(Debug, Clone, Copy)]
pub enum Origin<'a> {
    /// The run begins: from the start that the inputs have.
    Start,
    /// What an earlier stretch has saved: [`saved_len`] bytes. Any fault of them is [`Refusal::BadSaved`], no bytes at all too.
    Saved(&'a [u8]),
}

/// What follows on a stretch.
#[derive(Debug)]
pub enum Ending<'a> {
    /// Another one, later: the run is saved here, in [`saved_len`] bytes. What is lent beyond stays as it was. Fewer are [`Refusal::Length`].
    Save(&'a mut [u8]),
    /// Nothing: this is the run's last. It alone is judged for [`Refusal::NoInformation`], over all readings of the run.
    Last,
}

/// The filter.
pub fn filter(i: &Inputs<'_>, o: &mut Outputs<'_>) -> Result<Answer, Refusal> {
    let mut a = Places::default();
    // Safety: slices are valid for their lengths, and no `&mut` overlaps anything.
    let number = unsafe {
        raw::goxundar_filter(
            i.p,
            i.m,
            i.r,
            i.n,
            i.z.as_ptr(),
            i.z.len(),
            i.zs.as_ptr(),
            i.zs.len(),
            u8::from(i.repeats),
            i.h.as_ptr(),
            i.h.len(),
            i.t.as_ptr(),
            i.t.len(),
            i.ts.as_ptr(),
            i.ts.len(),
            i.rr.as_ptr(),
            i.rr.len(),
            i.q.as_ptr(),
            i.q.len(),
            i.c.as_ptr(),
            i.c.len(),
            i.d.as_ptr(),
            i.d.len(),
            i.a1.as_ptr(),
            i.a1.len(),
            i.p_star.as_ptr(),
            i.p_star.len(),
            i.flags.as_ptr(),
            i.flags.len(),
            i.y.as_ptr(),
            i.y.len(),
            o.pred_mean.as_mut_ptr(),
            o.pred_mean.len(),
            o.pred_cov.as_mut_ptr(),
            o.pred_cov.len(),
            o.pred_inf.as_mut_ptr(),
            o.pred_inf.len(),
            o.filt_mean.as_mut_ptr(),
            o.filt_mean.len(),
            o.filt_cov.as_mut_ptr(),
            o.filt_cov.len(),
            o.kinds.as_mut_ptr(),
            o.kinds.len(),
            o.v.as_mut_ptr(),
            o.v.len(),
            o.f_star.as_mut_ptr(),
            o.f_star.len(),
            o.f_inf.as_mut_ptr(),
            o.f_inf.len(),
            o.m_star.as_mut_ptr(),
            o.m_star.len(),
            o.m_inf.as_mut_ptr(),
            o.m_inf.len(),
            &mut a.loglik,
            &mut a.d_diffuse,
            &mut a.heard,
            &mut a.news,
            &mut a.cov_off,
            &mut a.mean_off,
        )
    };
    outcome(number, a)
}

/// The filter, and then the smoother.
pub fn smooth(i: &Inputs<'_>, o: &mut Outputs<'_>, s: &mut SmoothedOutputs<'_>) -> Result<Answer, Refusal> {
    let mut a = Places::default();
    // Safety: as above.
    let number = unsafe {
        raw::goxundar_smooth(
            i.p,
            i.m,
            i.r,
            i.n,
            i.z.as_ptr(),
            i.z.len(),
            i.zs.as_ptr(),
            i.zs.len(),
            u8::from(i.repeats),
            i.h.as_ptr(),
            i.h.len(),
            i.t.as_ptr(),
            i.t.len(),
            i.ts.as_ptr(),
            i.ts.len(),
            i.rr.as_ptr(),
            i.rr.len(),
            i.q.as_ptr(),
            i.q.len(),
            i.c.as_ptr(),
            i.c.len(),
            i.d.as_ptr(),
            i.d.len(),
            i.a1.as_ptr(),
            i.a1.len(),
            i.p_star.as_ptr(),
            i.p_star.len(),
            i.flags.as_ptr(),
            i.flags.len(),
            i.y.as_ptr(),
            i.y.len(),
            o.pred_mean.as_mut_ptr(),
            o.pred_mean.len(),
            o.pred_cov.as_mut_ptr(),
            o.pred_cov.len(),
            o.pred_inf.as_mut_ptr(),
            o.pred_inf.len(),
            o.filt_mean.as_mut_ptr(),
            o.filt_mean.len(),
            o.filt_cov.as_mut_ptr(),
            o.filt_cov.len(),
            o.kinds.as_mut_ptr(),
            o.kinds.len(),
            o.v.as_mut_ptr(),
            o.v.len(),
            o.f_star.as_mut_ptr(),
            o.f_star.len(),
            o.f_inf.as_mut_ptr(),
            o.f_inf.len(),
            o.m_star.as_mut_ptr(),
            o.m_star.len(),
            o.m_inf.as_mut_ptr(),
            o.m_inf.len(),
            s.sm_mean.as_mut_ptr(),
            s.sm_mean.len(),
            s.sm_cov.as_mut_ptr(),
            s.sm_cov.len(),
            &mut a.loglik,
            &mut a.d_diffuse,
            &mut a.heard,
            &mut a.news,
            &mut a.cov_off,
            &mut a.mean_off,
        )
    };
    outcome(number, a)
}

/// The filter, over the next n periods of a run. `i.y` has the readings of these alone. The rest is the run's, the same in every stretch: the lists
/// `zs` and `ts` count from the run's first period, `repeats` is not saved, and the start is checked each time and used at [`Origin::Start`]. The
/// answer is since the run began, and its periods count from the run's first.
pub fn stretch(i: &Inputs<'_>, from: Origin<'_>, o: &mut Outputs<'_>, then: Ending<'_>) -> Result<Answer, Refusal> {
    let mut a = Places::default();
    let (begins, saved): (u8, &[u8]) = match from {
        Origin::Start => (1, &[]),
        Origin::Saved(bytes) => (0, bytes),
    };
    let (last, save): (u8, &mut [u8]) = match then {
        Ending::Save(bytes) => (0, bytes),
        Ending::Last => (1, &mut []),
    };
    // Safety: as above.
    let number = unsafe {
        raw::goxundar_stretch(
            i.p,
            i.m,
            i.r,
            i.n,
            i.z.as_ptr(),
            i.z.len(),
            i.zs.as_ptr(),
            i.zs.len(),
            u8::from(i.repeats),
            i.h.as_ptr(),
            i.h.len(),
            i.t.as_ptr(),
            i.t.len(),
            i.ts.as_ptr(),
            i.ts.len(),
            i.rr.as_ptr(),
            i.rr.len(),
            i.q.as_ptr(),
            i.q.len(),
            i.c.as_ptr(),
            i.c.len(),
            i.d.as_ptr(),
            i.d.len(),
            i.a1.as_ptr(),
            i.a1.len(),
            i.p_star.as_ptr(),
            i.p_star.len(),
            i.flags.as_ptr(),
            i.flags.len(),
            i.y.as_ptr(),
            i.y.len(),
            begins,
            saved.as_ptr(),
            saved.len(),
            last,
            o.pred_mean.as_mut_ptr(),
            o.pred_mean.len(),
            o.pred_cov.as_mut_ptr(),
            o.pred_cov.len(),
            o.pred_inf.as_mut_ptr(),
            o.pred_inf.len(),
            o.filt_mean.as_mut_ptr(),
            o.filt_mean.len(),
            o.filt_cov.as_mut_ptr(),
            o.filt_cov.len(),
            o.kinds.as_mut_ptr(),
            o.kinds.len(),
            o.v.as_mut_ptr(),
            o.v.len(),
            o.f_star.as_mut_ptr(),
            o.f_star.len(),
            o.f_inf.as_mut_ptr(),
            o.f_inf.len(),
            o.m_star.as_mut_ptr(),
            o.m_star.len(),
            o.m_inf.as_mut_ptr(),
            o.m_inf.len(),
            save.as_mut_ptr(),
            save.len(),
            &mut a.loglik,
            &mut a.d_diffuse,
            &mut a.heard,
            &mut a.news,
            &mut a.cov_off,
            &mut a.mean_off,
        )
    };
    outcome(number, a)
}

fn outcome(number: u32, a: Places) -> Result<Answer, Refusal> {
    let Places { loglik, d_diffuse, heard, news, cov_off, mean_off } = a;
    match number {
        0 => Ok(Answer { loglik, d_diffuse, heard, news, cov_off: cov_off.checked_sub(1), mean_off: mean_off.checked_sub(1) }),
        _ => Err(Refusal::from_number(number).expect("the library returns 0, or a refusal's number")),
    }
}
