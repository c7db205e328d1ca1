//! The parts of a call: what is lent, what is answered, the sizes and
//! lengths, refusals 1 to 10 of document 01, the reach of lists (2 and 14 of
//! document 02), and a saved run's bytes.

mod refusals;
mod saved;

pub use refusals::{
    bad_dimension, bad_length, bad_start_shape, first_refusal, infinite_reading, list_short,
    mixed_driven, non_diagonal_h, non_finite_start, non_finite_system, not_psd, q_not_diagonal,
    stretch_refusal, transitions_short,
};
pub use saved::{decode, encode, saved_len, section_counts, Carried, SAVED_NAN};

/// Largest p, m and r.
pub const MAX_SIZE: usize = 8;
/// Largest n, and largest count of listed designs and of listed transitions.
pub const MAX_PERIODS: usize = 4096;

/// The kinds of a record in its flat form. One that is skipped is told by its
/// cause (document 02, request a): a gap, F* too small against its scale, F*
/// below the dust line, or F* suspect and failed on replay.
pub const GAP: u8 = 0;
pub const USUAL: u8 = 1;
pub const DIFFUSE: u8 = 2;
pub const TOO_SMALL: u8 = 3;
pub const BELOW_DUST: u8 = 4;
pub const FAILED_REPLAY: u8 = 5;
/// Count of the kinds, and what they are called, in order.
pub const KINDS: usize = 6;
pub const KIND_NAMES: [&str; KINDS] = [
    "gap",
    "usual",
    "diffuse",
    "too small",
    "below the dust line",
    "failed on replay",
];

/// Whether a record of this kind is news: neither a gap nor skipped for
/// another cause.
pub fn is_news(kind: u8) -> bool {
    kind == USUAL || kind == DIFFUSE
}

/// What a caller hands in. Matrices are row by row.
#[derive(Debug, Clone, Copy)]
pub struct Inputs<'a> {
    pub p: usize,
    pub m: usize,
    pub r: usize,
    pub n: usize,
    /// The constant design, or empty.
    pub z: &'a [f64],
    /// The listed designs, or empty.
    pub zs: &'a [f64],
    /// Whether the last listed design stands for all after it (document 02,
    /// request d): any byte but 0. Void for a constant design.
    pub repeats: u8,
    pub h: &'a [f64],
    /// The constant transition, or empty.
    pub t: &'a [f64],
    /// The listed transitions (document 02, request g), or empty.
    pub ts: &'a [f64],
    pub rr: &'a [f64],
    pub q: &'a [f64],
    pub c: &'a [f64],
    pub d: &'a [f64],
    pub a1: &'a [f64],
    pub p_star: &'a [f64],
    pub flags: &'a [u8],
    pub y: &'a [f64],
}

/// What the filter's caller lends for the outputs.
#[derive(Debug)]
pub struct Outputs<'a> {
    pub pred_mean: &'a mut [f64],
    pub pred_cov: &'a mut [f64],
    pub pred_inf: &'a mut [f64],
    pub filt_mean: &'a mut [f64],
    pub filt_cov: &'a mut [f64],
    /// What became of each element, by number: see [`KIND_NAMES`].
    pub kinds: &'a mut [u8],
    pub v: &'a mut [f64],
    pub f_star: &'a mut [f64],
    pub f_inf: &'a mut [f64],
    pub m_star: &'a mut [f64],
    pub m_inf: &'a mut [f64],
}

/// What the smoother's caller lends besides.
#[derive(Debug)]
pub struct Smoothed<'a> {
    pub sm_mean: &'a mut [f64],
    pub sm_cov: &'a mut [f64],
}

/// What a stretch's caller hands in besides (document 02, request e).
#[derive(Debug, Clone, Copy)]
pub struct Stretch<'a> {
    /// Whether the run begins here: any byte but 0. Then nothing is saved.
    pub begins: u8,
    /// The bytes that the stretch before saved.
    pub saved: &'a [u8],
    /// Whether this is the last stretch: any byte but 0.
    pub last: u8,
}

/// The answer of a call that is not refused.
#[derive(Debug, Clone, Copy)]
pub struct Answer {
    pub loglik: f64,
    pub d_diffuse: usize,
    /// Readings that are not NaN.
    pub heard: usize,
    /// Records that are usual or diffuse.
    pub news: usize,
    /// The first period with a covariance that is not finite, plus 1, or 0
    /// for none (document 02, request h).
    pub cov_off: usize,
    /// The same of the means.
    pub mean_off: usize,
}

/// An answer, or the number of a refusal: 1 to 12, 14, and 15 of a stretch.
pub type Outcome = Result<Answer, u32>;

/// Count of a filter's output parts.
pub const FILTER_PARTS: usize = 11;
/// Count of a smoother's output parts.
pub const SMOOTH_PARTS: usize = 13;

/// The needed lengths of the thirteen output parts, in the order of
/// [`Outputs`] and then [`Smoothed`]. Sizes must be in their ranges.
pub fn needed(p: usize, m: usize, n: usize) -> [usize; SMOOTH_PARTS] {
    let (vec, mat) = (n * m, n * m * m);
    let (rec, gain) = (n * p, n * p * m);
    [
        vec + m,
        mat + m * m,
        mat + m * m,
        vec,
        mat,
        rec,
        rec,
        rec,
        rec,
        gain,
        gain,
        vec,
        mat,
    ]
}

impl Outputs<'_> {
    /// The lengths that were lent, in order.
    pub fn lengths(&self) -> [usize; FILTER_PARTS] {
        [
            self.pred_mean.len(),
            self.pred_cov.len(),
            self.pred_inf.len(),
            self.filt_mean.len(),
            self.filt_cov.len(),
            self.kinds.len(),
            self.v.len(),
            self.f_star.len(),
            self.f_inf.len(),
            self.m_star.len(),
            self.m_inf.len(),
        ]
    }

    /// Refusal 12: the needed stretch of every part becomes +0.0, every
    /// record a gap.
    pub fn blank(&mut self, p: usize, m: usize, n: usize) {
        let need = needed(p, m, n);
        self.pred_mean[..need[0]].fill(0.0);
        self.pred_cov[..need[1]].fill(0.0);
        self.pred_inf[..need[2]].fill(0.0);
        self.filt_mean[..need[3]].fill(0.0);
        self.filt_cov[..need[4]].fill(0.0);
        self.kinds[..need[5]].fill(GAP);
        self.v[..need[6]].fill(0.0);
        self.f_star[..need[7]].fill(0.0);
        self.f_inf[..need[8]].fill(0.0);
        self.m_star[..need[9]].fill(0.0);
        self.m_inf[..need[10]].fill(0.0);
    }
}

impl Smoothed<'_> {
    /// The lengths that were lent, in order.
    pub fn lengths(&self) -> [usize; 2] {
        [self.sm_mean.len(), self.sm_cov.len()]
    }

    /// Refusal 12 in the smoother's call.
    pub fn blank(&mut self, p: usize, m: usize, n: usize) {
        let need = needed(p, m, n);
        self.sm_mean[..need[11]].fill(0.0);
        self.sm_cov[..need[12]].fill(0.0);
    }
}
