//! Small crate-internal dense kernels shared by the filter and smoother.
//!
//! These are deliberately plain loops over `faer` matrices: the state and
//! observation dimensions of the models this engine serves are small, the
//! recursions are rank-one dominated, and explicit loops keep every update
//! auditable against the Durbin & Koopman (2012) formulas. Heavier products
//! (`T P T'`-style sandwiches) go through `faer`'s matmul.

use tsecon_linalg::faer::{Mat, MatRef};

/// Dot product of two equal-length slices.
#[inline]
pub(crate) fn dot(a: &[f64], b: &[f64]) -> f64 {
    debug_assert_eq!(a.len(), b.len());
    a.iter().zip(b).map(|(x, y)| x * y).fold(0.0, |s, x| s + x)
}

/// `y += alpha * x` on slices.
#[inline]
pub(crate) fn axpy(y: &mut [f64], alpha: f64, x: &[f64]) {
    debug_assert_eq!(y.len(), x.len());
    for (yi, xi) in y.iter_mut().zip(x) {
        *yi += alpha * xi;
    }
}

/// Matrix-vector product `M x`.
pub(crate) fn mat_vec(m: MatRef<'_, f64>, x: &[f64]) -> Vec<f64> {
    debug_assert_eq!(m.ncols(), x.len());
    let mut out = vec![0.0; m.nrows()];
    for (j, xj) in x.iter().enumerate() {
        if *xj != 0.0 {
            for (i, oi) in out.iter_mut().enumerate() {
                *oi += m[(i, j)] * xj;
            }
        }
    }
    out
}

/// Transposed matrix-vector product `M' x`.
pub(crate) fn mat_t_vec(m: MatRef<'_, f64>, x: &[f64]) -> Vec<f64> {
    debug_assert_eq!(m.nrows(), x.len());
    let mut out = vec![0.0; m.ncols()];
    for (j, oj) in out.iter_mut().enumerate() {
        let mut s = 0.0;
        for (i, xi) in x.iter().enumerate() {
            s += m[(i, j)] * xi;
        }
        *oj = s;
    }
    out
}

/// Rank-one downdate `P -= a b'`.
pub(crate) fn outer_sub(p: &mut Mat<f64>, a: &[f64], b: &[f64]) {
    debug_assert_eq!(p.nrows(), a.len());
    debug_assert_eq!(p.ncols(), b.len());
    for (j, bj) in b.iter().enumerate() {
        if *bj != 0.0 {
            for (i, ai) in a.iter().enumerate() {
                p[(i, j)] -= ai * bj;
            }
        }
    }
}

/// Scaled outer product `s * a b'` as a new matrix.
pub(crate) fn outer_scaled(a: &[f64], b: &[f64], s: f64) -> Mat<f64> {
    Mat::from_fn(a.len(), b.len(), |i, j| s * a[i] * b[j])
}

/// Sandwich product `T P T'`.
pub(crate) fn sandwich(t: MatRef<'_, f64>, p: MatRef<'_, f64>) -> Mat<f64> {
    let tp = t * p;
    tp.as_ref() * t.transpose()
}

/// Transposed sandwich product `T' N T`.
pub(crate) fn sandwich_t(t: MatRef<'_, f64>, n: MatRef<'_, f64>) -> Mat<f64> {
    let tn = t.transpose() * n;
    tn.as_ref() * t
}

/// Squared Frobenius norm, `sum_{ij} M_{ij}^2`.
pub(crate) fn frob_sq(m: MatRef<'_, f64>) -> f64 {
    let mut s = 0.0;
    for j in 0..m.ncols() {
        for i in 0..m.nrows() {
            s += m[(i, j)] * m[(i, j)];
        }
    }
    s
}

/// Cancellation-free bound on a quadratic form:
/// `|z|' |M| |z| = sum_{a,b} |z_a| |z_b| |M_ab|`.
///
/// This is the reference scale the filter measures `F = z' M z (+ H)`
/// against when asking "is this value a variance, or is it cancellation
/// noise?". It dominates `|z' M z|` term by term (triangle inequality), so
/// it is exactly the magnitude the quadratic form would have reached had no
/// cancellation occurred — and `F / (|z|' |M| |z|)` is therefore the
/// fraction of that magnitude that survived the sum.
///
/// Two properties earn it the job:
///
/// * **direction-aware.** Only the entries of `M` that `z` actually touches
///   enter, weighted by how hard `z` touches them. A state the observation
///   equation does not load on (`z_a = 0`) contributes nothing, no matter
///   how large its variance. The cruder `||z||_1^2 max_j M_jj` fails this:
///   one large-variance nuisance state raises the bar for every element.
/// * **cancellation-bounding.** It still dominates the intermediate
///   `M z` products, so it rejects a `F` that is small only because the
///   terms of `z' M z` cancelled — which is the failure the test exists to
///   catch. (`dot(|z|, |M z|)` would not: cancellation inside `M z` itself
///   would already have shrunk it.)
///
/// Both scale as `c^2` when `M` does, so the test built on this is
/// invariant to rescaling the data, and invariant to rescaling any single
/// state coordinate (which rescales `z_a` and the `a`-th row/column of `M`
/// by reciprocal factors).
pub(crate) fn abs_quad_form(z: &[f64], m: MatRef<'_, f64>) -> f64 {
    debug_assert_eq!(m.nrows(), z.len());
    debug_assert_eq!(m.ncols(), z.len());
    let mut s = 0.0;
    for (b, zb) in z.iter().enumerate() {
        if *zb == 0.0 {
            continue;
        }
        let zb = zb.abs();
        for (a, za) in z.iter().enumerate() {
            s += za.abs() * zb * m[(a, b)].abs();
        }
    }
    s
}

/// In-place exact symmetrization `M <- (M + M') / 2` of a square matrix.
///
/// Cheap hygiene applied after covariance updates so downstream code never
/// sees the (tiny, roundoff-level) asymmetry the rank-one recursions leave.
pub(crate) fn symmetrize_in_place(m: &mut Mat<f64>) {
    let n = m.nrows();
    debug_assert_eq!(n, m.ncols());
    for j in 0..n {
        for i in 0..j {
            let v = 0.5 * (m[(i, j)] + m[(j, i)]);
            m[(i, j)] = v;
            m[(j, i)] = v;
        }
    }
}

/// Row `i` of `M` as an owned vector.
pub(crate) fn row_to_vec(m: MatRef<'_, f64>, i: usize) -> Vec<f64> {
    (0..m.ncols()).map(|j| m[(i, j)]).collect()
}
