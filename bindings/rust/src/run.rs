//! The calls, and what they answer and write: owned, with a view for each period.

use crate::lent::{self, Answer, Ending, Lengths, Origin, Outputs, SmoothedOutputs};
use crate::{Model, Refusal};

/// A mean and its covariance, of m states.
#[derive(Debug, Clone, Copy, PartialEq)]
pub struct Moments<'a> {
    /// m numbers.
    pub mean: &'a [f64],
    /// m·m numbers, row by row. While the states are not settled it is the bounded part alone.
    pub cov: &'a [f64],
}

/// What is predicted for a period, before its readings.
#[derive(Debug, Clone, Copy, PartialEq)]
pub struct Predicted<'a> {
    /// m numbers.
    pub mean: &'a [f64],
    /// m·m numbers, row by row: the covariance's bounded part.
    pub cov: &'a [f64],
    /// m·m numbers, row by row: the unbounded part. All 0 once the readings have settled all states.
    pub diffuse_cov: &'a [f64],
}

/// Why a reading was skipped.
///
/// A gap is not tested. Of the others it is the first test that the reading failed, in the order that they have here: one that fails the scale's is
/// [`TooSmall`](Cause::TooSmall), though it be below the dust line too. In a period that begins with some state not settled the tests look at the
/// bounded part of the variance, and the last one is not made.
///
/// ```
/// use goxundar::{filter, Cause, Design, Model, Record, Refusal, Run, Transition};
/// // What a service desk is to be told of a reading.
/// fn told(run: &Run, t: usize, i: usize) -> &'static str {
///     match run.record(t, i) {
///         Record::Usual { .. } | Record::Diffuse { .. } => "taken",
///         Record::Skipped(Cause::Gap) => "no check",
///         Record::Skipped(Cause::TooSmall) => "adds nothing",
///         Record::Skipped(Cause::BelowDust) => "only rounding",
///         Record::Skipped(Cause::FailedReplay) => "doubtful",
///     }
/// }
/// // A known level on three inputs, the second with a trace of noise.
/// let level = Model {
///     design: Design::Constant(vec![1.0; 3]),
///     h: vec![0.0, 0.0, 0.0, 0.0, 1e-15, 0.0, 0.0, 0.0, 0.0],
///     transition: Transition::Constant(vec![1.0]),
///     p_star: vec![1.0],
///     ..Model::zeros(3, 1, 1)
/// };
/// let run = filter(&level, 1, &[2.0; 3])?;
/// assert_eq!([0, 1, 2].map(|i| told(&run, 0, i)), ["taken", "only rounding", "adds nothing"]);
/// # Ok::<(), Refusal>(())
/// ```
#[derive(Debug, Clone, Copy, PartialEq, Eq, Hash)]
pub enum Cause {
    /// There was none: a NaN.
    Gap,
    /// It adds nothing: what it would read was known beforehand. Its variance is 0, or at most 1e-10 of its scale, which is what the variance would
    /// be if no two of its terms cancelled. So it goes with one check that comes on two inputs without noise. Or the scale overflows; then the model
    /// may be mistyped.
    TooSmall,
    /// Only rounding is left of it: readings used before it in this period told the rest. Its variance is at most 1e-14 of what it could be at the
    /// period's begin.
    BelowDust,
    /// Doubtful: readings used before it in this period left at most 1e-6 of its variance. So the period was worked out a second time, by square
    /// roots, which keep more digits, and by these at most 1e-14 of it is left. The noise of its input may be set too low.
    FailedReplay,
}

/// What became of one reading.
///
/// A reader has to say what it makes of the causes of a skip: one that was written when there was none does not compile.
///
/// ```compile_fail
/// # use goxundar::Record;
/// fn is_news(record: Record<'_>) -> bool {
///     match record {
///         Record::Skipped => false,
///         _ => true,
///     }
/// }
/// ```
///
/// ```
/// # use goxundar::Record;
/// fn is_news(record: Record<'_>) -> bool {
///     match record {
///         Record::Skipped(_) => false,
///         _ => true,
///     }
/// }
/// ```
#[derive(Debug, Clone, Copy, PartialEq)]
pub enum Record<'a> {
    /// It was not used, and nothing moved.
    Skipped(Cause),
    /// It was used.
    Usual {
        /// The reading less what was expected of it.
        v: f64,
        /// The variance of v.
        f_star: f64,
        /// m numbers: the covariance of the states with v.
        m_star: &'a [f64],
    },
    /// It was used, and settled something of which nothing was known.
    Diffuse {
        /// The reading less what was expected of it.
        v: f64,
        /// The variance of v, the bounded part.
        f_star: f64,
        /// The unbounded part.
        f_inf: f64,
        /// m numbers: the covariance of the states with v, the bounded part.
        m_star: &'a [f64],
        /// The unbounded part.
        m_inf: &'a [f64],
    },
}

/// The outputs of a filter's call.
#[derive(Debug, Clone, Default)]
struct Parts {
    pred_mean: Vec<f64>,
    pred_cov: Vec<f64>,
    pred_inf: Vec<f64>,
    filt_mean: Vec<f64>,
    filt_cov: Vec<f64>,
    kinds: Vec<u8>,
    v: Vec<f64>,
    f_star: Vec<f64>,
    f_inf: Vec<f64>,
    m_star: Vec<f64>,
    m_inf: Vec<f64>,
}

impl Parts {
    fn new(need: Lengths) -> Parts {
        Parts {
            pred_mean: vec![0.0; need.pred_mean],
            pred_cov: vec![0.0; need.pred_cov],
            pred_inf: vec![0.0; need.pred_cov],
            filt_mean: vec![0.0; need.mean],
            filt_cov: vec![0.0; need.cov],
            kinds: vec![0; need.record],
            v: vec![0.0; need.record],
            f_star: vec![0.0; need.record],
            f_inf: vec![0.0; need.record],
            m_star: vec![0.0; need.gain],
            m_inf: vec![0.0; need.gain],
        }
    }

    fn lend(&mut self) -> Outputs<'_> {
        Outputs {
            pred_mean: &mut self.pred_mean,
            pred_cov: &mut self.pred_cov,
            pred_inf: &mut self.pred_inf,
            filt_mean: &mut self.filt_mean,
            filt_cov: &mut self.filt_cov,
            kinds: &mut self.kinds,
            v: &mut self.v,
            f_star: &mut self.f_star,
            f_inf: &mut self.f_inf,
            m_star: &mut self.m_star,
            m_inf: &mut self.m_inf,
        }
    }
}

/// The k-th block of that many numbers.
fn block(part: &[f64], k: usize, long: usize) -> &[f64] {
    &part[k * long..(k + 1) * long]
}

/// What a filter's call answered and wrote, or a stretch's.
///
/// Of a stretch, n is its own count of periods, and period 0 its first; the log-likelihood and the counts are since the run began, and
/// [`Run::cov_off`] and [`Run::mean_off`] count from the run's first period.
///
/// Its views are by period, from 0, and panic as an index does where there is no such period.
#[derive(Debug, Clone)]
pub struct Run {
    p: usize,
    m: usize,
    n: usize,
    answer: Answer,
    parts: Parts,
}

impl Run {
    /// How many periods it went over: n.
    pub fn periods(&self) -> usize {
        self.n
    }

    /// How many elements a period has: p.
    pub fn elements(&self) -> usize {
        self.p
    }

    /// How many states there are: m.
    pub fn states(&self) -> usize {
        self.m
    }

    /// The log-likelihood of the readings that were used. It counts ln 2π for each, and for one that is [`Record::Diffuse`] ln f_inf in place of
    /// ln f_star + v²/f_star.
    pub fn loglik(&self) -> f64 {
        self.answer.loglik
    }

    /// How many periods began with some state not settled. They are the first ones.
    pub fn d_diffuse(&self) -> usize {
        self.answer.d_diffuse
    }

    /// How many readings are not gaps.
    pub fn heard(&self) -> usize {
        self.answer.heard
    }

    /// How many readings were used: records that are not [`Record::Skipped`].
    pub fn news(&self) -> usize {
        self.answer.news
    }

    /// The first period in which a covariance ran off: where [`Run::predicted`]'s `cov` or `diffuse_cov`, or [`Run::filtered`]'s `cov`, has a number
    /// that is not finite. None where there is no such period.
    ///
    /// Nothing is refused for an overflow. It is carried on, as infinities and NaNs, and a mistyped model would be seen late: look here.
    ///
    /// ```
    /// use goxundar::{filter, Design, Model, Refusal, Transition};
    /// // A rate that keeps 0.98 of itself from one period to the next; and no reading for a long time.
    /// let rate = |keeps| Model {
    ///     design: Design::Constant(vec![1.0]),
    ///     h: vec![1.0],
    ///     transition: Transition::Constant(vec![keeps]),
    ///     a1: vec![1.0],
    ///     p_star: vec![1.0],
    ///     ..Model::zeros(1, 1, 1)
    /// };
    /// let gaps = [f64::NAN; 200];
    /// let run = filter(&rate(0.98), 200, &gaps)?;
    /// assert_eq!((run.cov_off(), run.mean_off()), (None, None));
    /// // It was typed as 98: the variance overflows in period 78, the mean in period 155.
    /// let run = filter(&rate(98.0), 200, &gaps)?;
    /// assert_eq!((run.cov_off(), run.mean_off()), (Some(78), Some(155)));
    /// # Ok::<(), Refusal>(())
    /// ```
    ///
    /// - The period counts from 0, of a stretch from the run's first period. What an earlier stretch has told stays. `predicted(n)` is no period of
    ///   this run, and is left out; the next stretch tells of it.
    /// - The values of readings have no part in it, nor have `a1`, `c` and `d`.
    /// - It goes by what is handed out there, and by nothing else. A NaN in the diffuse part ends the diffuse start, and zeros are handed out; a
    ///   reading may be skipped because its scale overflows ([`Cause::TooSmall`]), while the covariance stays finite; a call may be refused, with
    ///   [`Refusal::NoInformation`], since numbers overflow before any reading is news. None of these is told, and nothing of the smoothed moments
    ///   and of the records.
    pub fn cov_off(&self) -> Option<usize> {
        self.answer.cov_off
    }

    /// The first period in which a mean ran off: where [`Run::predicted`]'s or [`Run::filtered`]'s `mean` has a number that is not finite. None where
    /// there is no such period. What else [`Run::cov_off`] says holds here too, but that this goes by the values of readings, and by `a1`, `c` and
    /// `d`; not by the value of a reading that was no news.
    pub fn mean_off(&self) -> Option<usize> {
        self.answer.mean_off
    }

    /// What is predicted for period t, 0 to n: `predicted(n)` is the forecast after the last one. Where the run goes on, its diffuse part has not
    /// been tested yet, and the next stretch's `predicted(0)`, which has, may have 0 in its place.
    pub fn predicted(&self, t: usize) -> Predicted<'_> {
        Predicted {
            mean: block(&self.parts.pred_mean, t, self.m),
            cov: block(&self.parts.pred_cov, t, self.m * self.m),
            diffuse_cov: block(&self.parts.pred_inf, t, self.m * self.m),
        }
    }

    /// The states after period t's readings. See [`Run::settled_after`] before taking its covariance for the whole one.
    pub fn filtered(&self, t: usize) -> Moments<'_> {
        Moments { mean: block(&self.parts.filt_mean, t, self.m), cov: block(&self.parts.filt_cov, t, self.m * self.m) }
    }

    /// What became of period t's reading i. Usual, diffuse and the four causes of a skip, counted over all of them, come to n·p.
    pub fn record(&self, t: usize, i: usize) -> Record<'_> {
        assert!(i < self.p, "a period has {} elements, and no element {i}", self.p);
        let at = t * self.p + i;
        let (v, f_star, f_inf) = (self.parts.v[at], self.parts.f_star[at], self.parts.f_inf[at]);
        let (m_star, m_inf) = (block(&self.parts.m_star, at, self.m), block(&self.parts.m_inf, at, self.m));
        match self.parts.kinds[at] {
            0 => Record::Skipped(Cause::Gap),
            1 => Record::Usual { v, f_star, m_star },
            2 => Record::Diffuse { v, f_star, f_inf, m_star, m_inf },
            3 => Record::Skipped(Cause::TooSmall),
            4 => Record::Skipped(Cause::BelowDust),
            // The library writes 0 to 5.
            _ => Record::Skipped(Cause::FailedReplay),
        }
    }

    /// Whether all states are settled after period t: no variance is left that has no bound. Until then a covariance is the bounded part alone,
    /// and can be 0 for a state of which nothing is known.
    pub fn settled_after(&self, t: usize) -> bool {
        // The library's own test at a period's begin, which the place after the last period has not been through. A NaN counts as settled there.
        let sum: f64 = self.predicted(t + 1).diffuse_cov.iter().map(|x| x * x).sum();
        let diffuse = sum > 1e-10;
        !diffuse
    }
}

/// What a smoother's call answered and wrote.
#[derive(Debug, Clone)]
pub struct Smoothed {
    run: Run,
    sm_mean: Vec<f64>,
    sm_cov: Vec<f64>,
}

impl Smoothed {
    /// All that the filter's call gives.
    pub fn run(&self) -> &Run {
        &self.run
    }

    /// The states in period t, from all readings. Where `run().settled_after(n - 1)` is false, the covariance is the bounded part alone.
    pub fn smoothed(&self, t: usize) -> Moments<'_> {
        Moments { mean: block(&self.sm_mean, t, self.run.m), cov: block(&self.sm_cov, t, self.run.m * self.run.m) }
    }
}

/// Runs the filter over n periods. `readings` has n·p places: element i of period t is at t·p + i, and a NaN is a gap.
///
/// ```
/// use goxundar::{filter, Design, Model, Record, Refusal, Transition};
/// let level = Model {
///     design: Design::Constant(vec![1.0]),
///     h: vec![1.0],
///     transition: Transition::Constant(vec![1.0]),
///     rr: vec![1.0],
///     q: vec![2.0],
///     diffuse: vec![true],
///     ..Model::zeros(1, 1, 1)
/// };
/// let run = filter(&level, 2, &[2.0, 6.0])?;
/// assert!(matches!(run.record(1, 0), Record::Usual { v, f_star, .. } if v == 4.0 && f_star == 4.0));
/// assert_eq!(run.filtered(1).mean, [5.0]);
/// assert_eq!(run.filtered(1).cov, [0.75]);
/// assert_eq!(run.predicted(2).cov, [2.75]);
///
/// // What does not fit is refused, never a panic.
/// assert_eq!(filter(&level, 3, &[2.0, 6.0]).unwrap_err(), Refusal::Length);
/// assert_eq!(filter(&level, usize::MAX, &[]).unwrap_err(), Refusal::Dimension);
/// # Ok::<(), Refusal>(())
/// ```
pub fn filter(model: &Model, n: usize, readings: &[f64]) -> Result<Run, Refusal> {
    let mut parts = Parts::new(Lengths::needed(model.p, model.m, n));
    let answer = lent::filter(&model.inputs(n, &model.flags(), readings), &mut parts.lend())?;
    Ok(Run { p: model.p, m: model.m, n, answer, parts })
}

/// Runs the filter over n periods, and then the smoother back. `readings` is as in [`filter`].
///
/// ```
/// use goxundar::{smooth, Design, Model, Refusal, Transition};
/// let level = Model {
///     design: Design::Constant(vec![1.0]),
///     h: vec![1.0],
///     transition: Transition::Constant(vec![1.0]),
///     rr: vec![1.0],
///     q: vec![2.0],
///     diffuse: vec![true],
///     ..Model::zeros(1, 1, 1)
/// };
/// let smoothed = smooth(&level, 2, &[2.0, 6.0])?;
/// assert_eq!(smoothed.smoothed(0).mean, [3.0]);
/// assert_eq!(smoothed.smoothed(0).cov, [0.75]);
/// assert_eq!(smoothed.run().filtered(0).mean, [2.0]);
/// # Ok::<(), Refusal>(())
/// ```
pub fn smooth(model: &Model, n: usize, readings: &[f64]) -> Result<Smoothed, Refusal> {
    let need = Lengths::needed(model.p, model.m, n);
    let mut parts = Parts::new(need);
    let (mut sm_mean, mut sm_cov) = (vec![0.0; need.mean], vec![0.0; need.cov]);
    let mut back = SmoothedOutputs { sm_mean: &mut sm_mean, sm_cov: &mut sm_cov };
    let answer = lent::smooth(&model.inputs(n, &model.flags(), readings), &mut parts.lend(), &mut back)?;
    Ok(Smoothed { run: Run { p: model.p, m: model.m, n, answer, parts }, sm_mean, sm_cov })
}

/// Runs a stretch of n periods. What it saves is handed back where it is not the last.
pub(crate) fn stretch(model: &Model, from: Origin<'_>, n: usize, readings: &[f64], last: bool) -> Result<(Run, Vec<u8>), Refusal> {
    let mut parts = Parts::new(Lengths::needed(model.p, model.m, n));
    let mut save = vec![0; if last { 0 } else { lent::saved_len(model.m) }];
    let then = if last { Ending::Last } else { Ending::Save(&mut save) };
    let answer = lent::stretch(&model.inputs(n, &model.flags(), readings), from, &mut parts.lend(), then)?;
    Ok((Run { p: model.p, m: model.m, n, answer, parts }, save))
}
