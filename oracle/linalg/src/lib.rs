//! Stand-in for the matrix crate that the carried files lean on, with
//! document 01's product, symmetrising, logarithm and max with 0.

pub mod faer;
mod number;

pub use number::{ln, max0, LN_TABLE};

use faer::{Mat, MatRef};

/// The one error of this stand-in.
#[derive(Debug, Clone, PartialEq, Eq)]
pub enum LinalgError {
    /// A matrix with NaN or an infinity where finite entries are owed.
    NonFinite,
}

/// A copy with both mirrored entries 0.5·(upper + lower) and the diagonal as
/// it is. The result must be finite.
pub fn symmetrize(m: MatRef<'_, f64>) -> Result<Mat<f64>, LinalgError> {
    let n = m.nrows();
    let mut s = m.to_owned();
    for j in 0..n {
        for i in 0..j {
            let v = 0.5 * (m[(i, j)] + m[(j, i)]);
            s[(i, j)] = v;
            s[(j, i)] = v;
        }
    }
    for j in 0..n {
        for i in 0..n {
            if !s[(i, j)].is_finite() {
                return Err(LinalgError::NonFinite);
            }
        }
    }
    Ok(s)
}
