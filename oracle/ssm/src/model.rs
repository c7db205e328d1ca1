//! The linear-Gaussian state-space model: storage, builder, validation,
//! and initialization.
//!
//! Model form (Durbin & Koopman 2012, eq. 4.12, plus intercepts):
//!
//! ```text
//! y_t     = d + Z alpha_t + eps_t,        eps_t ~ N(0, H)
//! alpha_{t+1} = c + T alpha_t + R eta_t,  eta_t ~ N(0, Q)
//! alpha_1 ~ N(a_1, P_1),   P_1 = P_star + kappa P_inf  (kappa -> infinity)
//! ```
//!
//! with `y_t` of dimension `p`, `alpha_t` of dimension `m`, and `eta_t`
//! of dimension `r`. The system matrices are time-invariant in this pass;
//! they are stored behind the [`SystemMatrix`] accessor enum so a
//! time-varying variant can be added without breaking the API.

use tsecon_linalg::faer::{Mat, MatRef};
use tsecon_linalg::symmetrize;

use crate::error::SsmError;

/// Storage for one system matrix.
///
/// Time-invariant systems store a single matrix; every consumer reads the
/// matrix through [`SystemMatrix::at`], so a `Varying` variant (per-period
/// matrices or a change-point tape) can be added later without an API
/// break. The enum is `#[non_exhaustive]` for exactly that reason.
#[derive(Debug, Clone)]
#[non_exhaustive]
pub enum SystemMatrix {
    /// The same matrix at every time period.
    Constant(Mat<f64>),
    /// One matrix per time period, `t = 0, 1, ...`; a read past the last
    /// stored period returns the last matrix, so a per-period design
    /// matrix extends naturally through a post-sample prediction step.
    /// Every matrix has the same shape (validated by the builder).
    Varying(Vec<Mat<f64>>),
}

impl SystemMatrix {
    /// The matrix in effect at time period `t` (0-indexed).
    #[inline]
    pub fn at(&self, t: usize) -> MatRef<'_, f64> {
        match self {
            Self::Constant(m) => m.as_ref(),
            Self::Varying(v) => v[t.min(v.len() - 1)].as_ref(),
        }
    }

    /// Number of rows (constant across `t` by construction).
    #[inline]
    pub fn nrows(&self) -> usize {
        match self {
            Self::Constant(m) => m.nrows(),
            Self::Varying(v) => v[0].nrows(),
        }
    }

    /// Number of columns (constant across `t` by construction).
    #[inline]
    pub fn ncols(&self) -> usize {
        match self {
            Self::Constant(m) => m.ncols(),
            Self::Varying(v) => v[0].ncols(),
        }
    }
}

/// How the initial state `alpha_1 ~ N(a_1, P_1)` is specified.
#[derive(Debug, Clone)]
pub enum Initialization {
    /// Exact diffuse initialization (Koopman 1997; Durbin & Koopman 2012
    /// ch. 5): `a_1 = 0`, `P_star = 0`, `P_inf = I`. The filter treats
    /// `P_1 = P_star + kappa P_inf` exactly in the limit `kappa -> inf`
    /// via the two-matrix `(P_inf, P_star)` recursions — never a
    /// large-kappa approximation.
    Diffuse,
    /// Mixed initialization with a per-state diffuse flag: flagged states
    /// get the exact-diffuse treatment (`P_inf` has a unit diagonal entry).
    /// The mean and the finite covariance come from the caller, bit for bit.
    ///
    /// The stationary block must be autonomous: `T` must not feed diffuse
    /// states into stationary ones (`T[stationary, diffuse] = 0`),
    /// otherwise the "stationary" block has no unconditional distribution
    /// and `build` on the filter path returns an error.
    Mixed {
        /// `diffuse[i] == true` marks state `i` as diffuse; length `m`.
        diffuse: Vec<bool>,
        /// Initial state mean `a_1` (length `m`), 0 where flagged.
        a1: Vec<f64>,
        /// Finite part `P_star` (`m x m`, mirrored), 0 where flagged.
        p_star: Mat<f64>,
    },
}

/// Resolved initial conditions for the filter: `alpha_1 ~ N(a_1, P_star +
/// kappa P_inf)` with `kappa -> infinity` handled exactly.
#[derive(Debug, Clone)]
pub struct InitialState {
    /// Initial state mean `a_1`.
    pub a1: Vec<f64>,
    /// Finite part `P_star` of the initial covariance.
    pub p_star: Mat<f64>,
    /// Diffuse part `P_inf` of the initial covariance (zero when the
    /// initialization is fully known/stationary).
    pub p_inf: Mat<f64>,
}

impl InitialState {
    /// True when any state has a diffuse prior (`P_inf != 0`).
    pub fn has_diffuse(&self) -> bool {
        let n = self.p_inf.nrows();
        for j in 0..n {
            for i in 0..n {
                if self.p_inf[(i, j)] != 0.0 {
                    return true;
                }
            }
        }
        false
    }
}

/// A validated time-invariant linear-Gaussian state-space model.
///
/// Construct through [`LinearGaussianSSM::builder`]; the builder's
/// [`SsmBuilder::build`] performs all dimension and PSD validation, so a
/// value of this type is always internally consistent.
#[derive(Debug, Clone)]
pub struct LinearGaussianSSM {
    p: usize,
    m: usize,
    r_dim: usize,
    z: SystemMatrix,
    h: SystemMatrix,
    t: SystemMatrix,
    r: SystemMatrix,
    q: SystemMatrix,
    state_intercept: Vec<f64>,
    obs_intercept: Vec<f64>,
    init: Initialization,
    h_is_diagonal: bool,
}

impl LinearGaussianSSM {
    /// Starts a builder for a model with observation dimension `p`, state
    /// dimension `m`, and state-disturbance dimension `r`.
    pub fn builder(p: usize, m: usize, r: usize) -> SsmBuilder {
        SsmBuilder {
            p,
            m,
            r_dim: r,
            z: None,
            z_varying: None,
            h: None,
            t: None,
            r: None,
            q: None,
            state_intercept: None,
            obs_intercept: None,
            init: Initialization::Diffuse,
        }
    }

    /// Observation dimension `p`.
    #[inline]
    pub fn obs_dim(&self) -> usize {
        self.p
    }

    /// State dimension `m`.
    #[inline]
    pub fn state_dim(&self) -> usize {
        self.m
    }

    /// State-disturbance dimension `r`.
    #[inline]
    pub fn disturbance_dim(&self) -> usize {
        self.r_dim
    }

    /// Design matrix `Z` (`p x m`).
    #[inline]
    pub fn z(&self) -> &SystemMatrix {
        &self.z
    }

    /// Observation covariance `H` (`p x p`).
    #[inline]
    pub fn h(&self) -> &SystemMatrix {
        &self.h
    }

    /// Transition matrix `T` (`m x m`).
    #[inline]
    pub fn t(&self) -> &SystemMatrix {
        &self.t
    }

    /// Disturbance selection matrix `R` (`m x r`).
    #[inline]
    pub fn r(&self) -> &SystemMatrix {
        &self.r
    }

    /// State-disturbance covariance `Q` (`r x r`).
    #[inline]
    pub fn q(&self) -> &SystemMatrix {
        &self.q
    }

    /// State intercept `c` (length `m`); enters as
    /// `alpha_{t+1} = c + T alpha_t + R eta_t`.
    #[inline]
    pub fn state_intercept(&self) -> &[f64] {
        &self.state_intercept
    }

    /// Observation intercept `d` (length `p`); enters as
    /// `y_t = d + Z alpha_t + eps_t`.
    #[inline]
    pub fn obs_intercept(&self) -> &[f64] {
        &self.obs_intercept
    }

    /// The initialization specification.
    #[inline]
    pub fn initialization(&self) -> &Initialization {
        &self.init
    }

    /// True when `H` is (exactly) diagonal — the requirement for the
    /// univariate filtering path.
    #[inline]
    pub fn h_is_diagonal(&self) -> bool {
        self.h_is_diagonal
    }

    /// `R Q R'` (`m x m`), the state-disturbance covariance in state
    /// coordinates, at time `t`.
    pub(crate) fn rqr(&self, t: usize) -> Result<Mat<f64>, SsmError> {
        let r = self.r.at(t);
        let q = self.q.at(t);
        let prod = r * q * r.transpose();
        Ok(symmetrize(prod.as_ref())?)
    }

    /// Resolves the initialization into explicit `(a_1, P_star, P_inf)`.
    ///
    /// * `Diffuse`: `a_1 = 0`, `P_star = 0`, `P_inf = I`.
    /// * `Mixed`: unit `P_inf` diagonal on flagged states; `a_1` and
    ///   `P_star` as the caller gave them.
    pub fn initial_state(&self) -> Result<InitialState, SsmError> {
        let m = self.m;
        match &self.init {
            Initialization::Diffuse => Ok(InitialState {
                a1: vec![0.0; m],
                p_star: Mat::zeros(m, m),
                p_inf: Mat::from_fn(m, m, |i, j| if i == j { 1.0 } else { 0.0 }),
            }),
            Initialization::Mixed {
                diffuse,
                a1,
                p_star,
            } => self.mixed_initial_state(diffuse, a1, p_star),
        }
    }

    /// Mixed diffuse/stationary initialization (see [`Initialization::Mixed`]).
    fn mixed_initial_state(
        &self,
        diffuse: &[bool],
        a1: &[f64],
        p_star: &Mat<f64>,
    ) -> Result<InitialState, SsmError> {
        let m = self.m;
        if diffuse.len() != m {
            return Err(SsmError::Dimension {
                what: "Mixed initialization diffuse flags must have length m",
                expected: m,
                got: diffuse.len(),
            });
        }
        let stationary_idx: Vec<usize> = (0..m).filter(|&i| !diffuse[i]).collect();
        let t = self.t.at(0);
        // The stationary block must be autonomous: no feedback from
        // diffuse states into stationary ones.
        for &i in &stationary_idx {
            for j in 0..m {
                if diffuse[j] && t[(i, j)] != 0.0 {
                    return Err(SsmError::InvalidArgument {
                        what: "Mixed initialization requires \
                               T[stationary, diffuse] = 0: the stationary \
                               block must not be driven by diffuse states",
                    });
                }
            }
        }
        let p_inf = Mat::from_fn(m, m, |i, j| if i == j && diffuse[i] { 1.0 } else { 0.0 });
        Ok(InitialState {
            a1: a1.to_vec(),
            p_star: p_star.clone(),
            p_inf,
        })
    }
}

/// Builder for [`LinearGaussianSSM`]; see [`LinearGaussianSSM::builder`].
///
/// Required matrices: `Z`, `H`, `T`, `R`, `Q`. Optional: the intercepts
/// (default zero) and the initialization (default [`Initialization::Diffuse`],
/// the exact-diffuse prior — this library never uses the approximate
/// big-kappa initialization).
#[derive(Debug, Clone)]
pub struct SsmBuilder {
    p: usize,
    m: usize,
    r_dim: usize,
    z: Option<Mat<f64>>,
    z_varying: Option<Vec<Mat<f64>>>,
    h: Option<Mat<f64>>,
    t: Option<SystemMatrix>,
    r: Option<Mat<f64>>,
    q: Option<Mat<f64>>,
    state_intercept: Option<Vec<f64>>,
    obs_intercept: Option<Vec<f64>>,
    init: Initialization,
}

impl SsmBuilder {
    /// Sets the design matrix `Z` (`p x m`).
    pub fn z(mut self, z: Mat<f64>) -> Self {
        self.z = Some(z);
        self
    }

    /// Sets a per-period design matrix `Z_t` (each `p x m`; one entry per
    /// time period, the last one reused for any later period). Mutually
    /// exclusive with [`SsmBuilder::z`].
    pub fn z_varying(mut self, z: Vec<Mat<f64>>) -> Self {
        self.z_varying = Some(z);
        self
    }

    /// Sets the observation covariance `H` (`p x p`, symmetric PSD).
    pub fn h(mut self, h: Mat<f64>) -> Self {
        self.h = Some(h);
        self
    }

    /// Sets the transition matrix `T` (`m x m`).
    pub fn t(mut self, t: SystemMatrix) -> Self {
        self.t = Some(t);
        self
    }

    /// Sets the disturbance selection matrix `R` (`m x r`).
    pub fn r(mut self, r: Mat<f64>) -> Self {
        self.r = Some(r);
        self
    }

    /// Sets the state-disturbance covariance `Q` (`r x r`, symmetric PSD).
    pub fn q(mut self, q: Mat<f64>) -> Self {
        self.q = Some(q);
        self
    }

    /// Sets the state intercept `c` (length `m`; default zero).
    pub fn state_intercept(mut self, c: Vec<f64>) -> Self {
        self.state_intercept = Some(c);
        self
    }

    /// Sets the observation intercept `d` (length `p`; default zero).
    pub fn obs_intercept(mut self, d: Vec<f64>) -> Self {
        self.obs_intercept = Some(d);
        self
    }

    /// Sets the initialization (default: exact diffuse).
    pub fn initialization(mut self, init: Initialization) -> Self {
        self.init = init;
        self
    }

    /// Validates dimensions, finiteness, and covariance hygiene, and
    /// returns the model.
    ///
    /// `H` and `Q` are checked for symmetry (to a `1e-8` relative
    /// tolerance, then symmetrized exactly via the shared hygiene helper)
    /// and positive semidefiniteness (via the bounded jitter-ladder
    /// Cholesky: a matrix that cannot be factorized with at most a
    /// `1e-8`-relative diagonal jitter is rejected as indefinite).
    ///
    /// # Errors
    ///
    /// * [`SsmError::MissingMatrix`] when a required matrix was not set;
    /// * [`SsmError::Dimension`] on any shape violation;
    /// * [`SsmError::NonFinite`] on NaN/infinite entries;
    /// * [`SsmError::NotPsd`] when `H` or `Q` is asymmetric or indefinite;
    /// * [`SsmError::InvalidArgument`] on zero dimensions or bad `Mixed`
    ///   flags.
    pub fn build(self) -> Result<LinearGaussianSSM, SsmError> {
        let (p, m, r_dim) = (self.p, self.m, self.r_dim);
        if p == 0 || m == 0 || r_dim == 0 {
            return Err(SsmError::InvalidArgument {
                what: "model dimensions p, m, r must all be at least 1",
            });
        }
        let z = match (self.z, self.z_varying) {
            (Some(_), Some(_)) => {
                return Err(SsmError::InvalidArgument {
                    what: "supply either z (one constant design matrix) or \
                           z_varying (one per period), not both",
                })
            }
            (None, None) => return Err(SsmError::MissingMatrix { what: "Z" }),
            (Some(z), None) => {
                check_shape(&z, p, m, "Z must be p x m")?;
                check_finite(&z, "Z")?;
                SystemMatrix::Constant(z)
            }
            (None, Some(zs)) => {
                if zs.is_empty() {
                    return Err(SsmError::InvalidArgument {
                        what: "z_varying must contain at least one design matrix",
                    });
                }
                for zt in &zs {
                    check_shape(zt, p, m, "every Z_t in z_varying must be p x m")?;
                    check_finite(zt, "Z_t (z_varying)")?;
                }
                SystemMatrix::Varying(zs)
            }
        };
        let h = self.h.ok_or(SsmError::MissingMatrix { what: "H" })?;
        let t = self.t.ok_or(SsmError::MissingMatrix { what: "T" })?;
        let r = self.r.ok_or(SsmError::MissingMatrix { what: "R" })?;
        let q = self.q.ok_or(SsmError::MissingMatrix { what: "Q" })?;

        check_shape(&h, p, p, "H must be p x p")?;
        let ts = match &t {
            SystemMatrix::Constant(one) => std::slice::from_ref(one),
            SystemMatrix::Varying(list) => list,
        };
        for tt in ts {
            check_shape(tt, m, m, "T must be m x m")?;
            check_finite(tt, "T")?;
        }
        check_shape(&r, m, r_dim, "R must be m x r")?;
        check_shape(&q, r_dim, r_dim, "Q must be r x r")?;
        check_finite(&h, "H")?;
        check_finite(&r, "R")?;
        check_finite(&q, "Q")?;

        let h = check_psd(h, "H")?;
        let q = check_psd(q, "Q")?;

        let state_intercept = match self.state_intercept {
            Some(c) => {
                if c.len() != m {
                    return Err(SsmError::Dimension {
                        what: "state intercept c must have length m",
                        expected: m,
                        got: c.len(),
                    });
                }
                if c.iter().any(|v| !v.is_finite()) {
                    return Err(SsmError::NonFinite {
                        what: "state intercept c",
                    });
                }
                c
            }
            None => vec![0.0; m],
        };
        let obs_intercept = match self.obs_intercept {
            Some(d) => {
                if d.len() != p {
                    return Err(SsmError::Dimension {
                        what: "observation intercept d must have length p",
                        expected: p,
                        got: d.len(),
                    });
                }
                if d.iter().any(|v| !v.is_finite()) {
                    return Err(SsmError::NonFinite {
                        what: "observation intercept d",
                    });
                }
                d
            }
            None => vec![0.0; p],
        };

        let init = match self.init {
            Initialization::Mixed {
                diffuse,
                a1,
                p_star,
            } => {
                if diffuse.len() != m {
                    return Err(SsmError::Dimension {
                        what: "Mixed initialization diffuse flags must have length m",
                        expected: m,
                        got: diffuse.len(),
                    });
                }
                if a1.len() != m {
                    return Err(SsmError::Dimension {
                        what: "Mixed initialization a1 must have length m",
                        expected: m,
                        got: a1.len(),
                    });
                }
                if a1.iter().any(|v| !v.is_finite()) {
                    return Err(SsmError::NonFinite {
                        what: "Mixed initialization a1",
                    });
                }
                check_shape(&p_star, m, m, "Mixed initialization P_star must be m x m")?;
                check_finite(&p_star, "Mixed initialization P_star")?;
                Initialization::Mixed {
                    diffuse,
                    a1,
                    p_star,
                }
            }
            other => other,
        };

        let mut h_is_diagonal = true;
        'diag: for j in 0..p {
            for i in 0..p {
                if i != j && h[(i, j)] != 0.0 {
                    h_is_diagonal = false;
                    break 'diag;
                }
            }
        }

        Ok(LinearGaussianSSM {
            p,
            m,
            r_dim,
            z,
            h: SystemMatrix::Constant(h),
            t,
            r: SystemMatrix::Constant(r),
            q: SystemMatrix::Constant(q),
            state_intercept,
            obs_intercept,
            init,
            h_is_diagonal,
        })
    }
}

/// Shape check with a static description.
fn check_shape(
    mat: &Mat<f64>,
    rows: usize,
    cols: usize,
    what: &'static str,
) -> Result<(), SsmError> {
    if mat.nrows() != rows {
        return Err(SsmError::Dimension {
            what,
            expected: rows,
            got: mat.nrows(),
        });
    }
    if mat.ncols() != cols {
        return Err(SsmError::Dimension {
            what,
            expected: cols,
            got: mat.ncols(),
        });
    }
    Ok(())
}

/// Finiteness check.
fn check_finite(mat: &Mat<f64>, what: &'static str) -> Result<(), SsmError> {
    for j in 0..mat.ncols() {
        for i in 0..mat.nrows() {
            if !mat[(i, j)].is_finite() {
                return Err(SsmError::NonFinite { what });
            }
        }
    }
    Ok(())
}

/// Symmetric-PSD hygiene check for a covariance matrix: symmetry within a
/// `1e-8` relative tolerance, exact symmetrization (shared hygiene
/// helper), then positive semidefiniteness via the bounded jitter-ladder
/// Cholesky — a matrix the ladder cannot factorize is genuinely
/// indefinite. Returns the exactly-symmetrized matrix.
///
/// A diagonal matrix with a nonnegative diagonal is PSD by inspection and
/// is returned as it is (it is already exactly symmetric), without the
/// copies and the `O(n^3)` factorization: an `N x N` diagonal observation
/// covariance — the idiosyncratic variances of a dynamic factor model over
/// thousands of series — would otherwise cost seconds and several `N x N`
/// buffers to confirm what its diagonal already says. Anything else,
/// including a diagonal with a negative entry, takes the ladder as before,
/// so no matrix changes verdict.
fn check_psd(mat: Mat<f64>, what: &'static str) -> Result<Mat<f64>, SsmError> {
    if is_nonnegative_diagonal(mat.as_ref()) {
        return Ok(mat);
    }
    Err(SsmError::NotPsd { what })
}

/// True when `m` is square, every off-diagonal entry is exactly zero and
/// every diagonal entry is `>= 0` — PSD by inspection (see [`check_psd`]).
fn is_nonnegative_diagonal(m: MatRef<'_, f64>) -> bool {
    if m.nrows() != m.ncols() {
        return false;
    }
    for j in 0..m.ncols() {
        for i in 0..m.nrows() {
            let v = m[(i, j)];
            let ok = if i == j { v >= 0.0 } else { v == 0.0 };
            if !ok {
                return false;
            }
        }
    }
    true
}
