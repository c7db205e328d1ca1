//! The model: all that a call takes but the readings.

use crate::lent::{Inputs, MAX_SIZE};

/// Z, from the states to the readings. Matrices are row by row.
///
/// A list that runs out before the periods do is taken for a mistake. If it is short on purpose, say so:
///
/// ```
/// use goxundar::{filter, Design, Model, Refusal, Transition};
/// // A level that is read in metres in the first period, and in centimetres from then on.
/// let transition = Transition::Constant(vec![1.0]);
/// let level = |design| Model { design, transition: transition.clone(), h: vec![1.0], diffuse: vec![true], ..Model::zeros(1, 1, 1) };
/// let readings = [2.0, 201.0, 199.0];
///
/// // Two designs for three periods are refused.
/// let short = filter(&level(Design::Listed(vec![1.0, 100.0])), 3, &readings);
/// assert_eq!(short.unwrap_err(), Refusal::ListShort);
///
/// // The last one goes on: as if it were written once more.
/// let repeated = filter(&level(Design::Repeated(vec![1.0, 100.0])), 3, &readings)?;
/// let listed = filter(&level(Design::Listed(vec![1.0, 100.0, 100.0])), 3, &readings)?;
/// assert_eq!(repeated.filtered(2), listed.filtered(2));
/// # Ok::<(), Refusal>(())
/// ```
#[derive(Debug, Clone, PartialEq)]
pub enum Design {
    /// p·m: the same in all periods.
    Constant(Vec<f64>),
    /// k·p·m: k designs one after the other, 1 to 4096 of them. Period t takes the t-th. There may be more of them than periods; fewer are
    /// [`Refusal::ListShort`](crate::Refusal::ListShort). In a run in stretches they count from the run's first period.
    Listed(Vec<f64>),
    /// The same, but that there may be fewer: once they have run out, the last one is used again.
    Repeated(Vec<f64>),
}

/// T, how the states move from one period to the next. Matrices are row by row.
///
/// ```
/// use goxundar::{smooth, Design, Model, Refusal, Transition};
/// // A level that doubles in the first step, and then stays: the cabinet was heated.
/// let level = |transition| Model {
///     design: Design::Constant(vec![1.0]),
///     h: vec![6.0],
///     transition,
///     rr: vec![1.0],
///     q: vec![2.0],
///     diffuse: vec![true],
///     ..Model::zeros(1, 1, 1)
/// };
/// let heated = smooth(&level(Transition::Listed(vec![2.0, 1.0])), 2, &[2.0, 36.0])?;
/// assert_eq!(heated.run().predicted(1).mean, [4.0]); // 2, doubled
/// assert_eq!(heated.smoothed(0).mean, [14.0]); // back by the same 2
/// assert_eq!(heated.smoothed(1).mean, [30.0]);
///
/// // The last period has one too: it leads to the forecast. Fewer transitions than periods are refused.
/// assert_eq!(heated.run().predicted(2).mean, [30.0]);
/// assert_eq!(smooth(&level(Transition::Listed(vec![2.0])), 2, &[2.0, 36.0]).unwrap_err(), Refusal::Length);
/// # Ok::<(), Refusal>(())
/// ```
#[derive(Debug, Clone, PartialEq)]
pub enum Transition {
    /// m·m: the same in all periods.
    Constant(Vec<f64>),
    /// k·m·m: k matrices one after the other, 1 to 4096 of them. The t-th leads from period t to the next; the smoother's step back from t to t − 1
    /// takes the one of t − 1, which led into t. There may be more of them than periods; fewer are [`Refusal::Length`](crate::Refusal::Length), and
    /// none is repeated. In a run in stretches they count from the run's first period.
    Listed(Vec<f64>),
}

/// A model of p elements, m states and r disturbances, each 1 to 8:
///
/// - reading = d + Z·state + noise, where the noise of element i has variance H(i, i);
/// - next state = c + T·state + R·disturbance, where disturbance k has variance Q(k, k).
///
/// Matrices are row by row: entry (i, j) of one with k columns is at i·k + j. Nothing is checked here: what does not fit, the call refuses.
///
/// ```
/// use goxundar::{Design, Model, Transition};
/// // A level that wanders, read with noise. Nothing is known of it at the start.
/// let level = Model {
///     design: Design::Constant(vec![1.0]),
///     h: vec![1.0],
///     transition: Transition::Constant(vec![1.0]),
///     rr: vec![1.0],
///     q: vec![2.0],
///     diffuse: vec![true],
///     ..Model::zeros(1, 1, 1)
/// };
/// assert_eq!(level.c, [0.0]);
/// ```
#[derive(Debug, Clone, PartialEq)]
pub struct Model {
    /// Elements: readings that a period has room for.
    pub p: usize,
    /// States.
    pub m: usize,
    /// Disturbances.
    pub r: usize,
    /// Z.
    pub design: Design,
    /// p·p: H, the readings' noise. Diagonal; an entry of 0 is a reading without noise.
    pub h: Vec<f64>,
    /// T.
    pub transition: Transition,
    /// m·r: R, which disturbance moves which state.
    pub rr: Vec<f64>,
    /// r·r: Q, the disturbances' variances. Diagonal.
    pub q: Vec<f64>,
    /// m: added to the states in each step.
    pub c: Vec<f64>,
    /// p: added to the readings.
    pub d: Vec<f64>,
    /// m: the start's mean. 0 at a diffuse state.
    pub a1: Vec<f64>,
    /// m·m: P*, the start's covariance, mirrored. 0 in the row and column of a diffuse state.
    pub p_star: Vec<f64>,
    /// m: true where nothing is known of the state at the start, so that its variance has no bound.
    pub diffuse: Vec<bool>,
}

impl Model {
    /// Every part 0 and as long as the sizes ask for, a constant design and transition, no state diffuse. To fill in the rest from.
    ///
    /// Where a size is out of its range all parts are empty: the call refuses the size anyway.
    pub fn zeros(p: usize, m: usize, r: usize) -> Model {
        let fit = [p, m, r].iter().all(|size| (1..=MAX_SIZE).contains(size));
        let zeros = |rows: usize, columns: usize| if fit { vec![0.0; rows * columns] } else { Vec::new() };
        Model {
            p,
            m,
            r,
            design: Design::Constant(zeros(p, m)),
            h: zeros(p, p),
            transition: Transition::Constant(zeros(m, m)),
            rr: zeros(m, r),
            q: zeros(r, r),
            c: zeros(m, 1),
            d: zeros(p, 1),
            a1: zeros(m, 1),
            p_star: zeros(m, m),
            diffuse: vec![false; if fit { m } else { 0 }],
        }
    }

    /// The flags as the library takes them, a byte per state.
    pub(crate) fn flags(&self) -> Vec<u8> {
        self.diffuse.iter().map(|&flag| u8::from(flag)).collect()
    }

    /// The call's inputs, for n periods. What the parts' lengths are doesn't matter here.
    pub(crate) fn inputs<'a>(&'a self, n: usize, flags: &'a [u8], readings: &'a [f64]) -> Inputs<'a> {
        let (z, zs, repeats): (&[f64], &[f64], bool) = match &self.design {
            Design::Constant(z) => (z, &[], false),
            Design::Listed(zs) => (&[], zs, false),
            Design::Repeated(zs) => (&[], zs, true),
        };
        let (t, ts): (&[f64], &[f64]) = match &self.transition {
            Transition::Constant(t) => (t, &[]),
            Transition::Listed(ts) => (&[], ts),
        };
        Inputs {
            p: self.p,
            m: self.m,
            r: self.r,
            n,
            z,
            zs,
            repeats,
            h: &self.h,
            t,
            ts,
            rr: &self.rr,
            q: &self.q,
            c: &self.c,
            d: &self.d,
            a1: &self.a1,
            p_star: &self.p_star,
            flags,
            y: readings,
        }
    }
}
