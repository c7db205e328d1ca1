//! Matrices, column by column in one `Vec`, and views of them. Only what the
//! carried files use.

use std::ops::{AddAssign, Index, IndexMut, Mul, SubAssign};

/// An owned matrix.
#[derive(Debug, Clone)]
pub struct Mat<T> {
    nrows: usize,
    ncols: usize,
    data: Vec<T>,
}

/// A view of a matrix, or of its transpose.
#[derive(Debug)]
pub struct MatRef<'a, T> {
    nrows: usize,
    ncols: usize,
    row_stride: usize,
    col_stride: usize,
    data: &'a [T],
}

impl<T> Clone for MatRef<'_, T> {
    #[inline]
    fn clone(&self) -> Self {
        *self
    }
}

impl<T> Copy for MatRef<'_, T> {}

impl<T> Mat<T> {
    #[inline]
    pub fn from_fn(nrows: usize, ncols: usize, mut f: impl FnMut(usize, usize) -> T) -> Self {
        let mut data = Vec::with_capacity(nrows * ncols);
        for j in 0..ncols {
            for i in 0..nrows {
                data.push(f(i, j));
            }
        }
        Mat { nrows, ncols, data }
    }

    #[inline]
    pub fn nrows(&self) -> usize {
        self.nrows
    }

    #[inline]
    pub fn ncols(&self) -> usize {
        self.ncols
    }

    #[inline]
    #[allow(clippy::should_implement_trait)]
    pub fn as_ref(&self) -> MatRef<'_, T> {
        MatRef {
            nrows: self.nrows,
            ncols: self.ncols,
            row_stride: 1,
            col_stride: self.nrows,
            data: &self.data,
        }
    }
}

impl Mat<f64> {
    #[inline]
    pub fn zeros(nrows: usize, ncols: usize) -> Self {
        Mat {
            nrows,
            ncols,
            data: vec![0.0; nrows * ncols],
        }
    }
}

impl<'a, T> MatRef<'a, T> {
    #[inline]
    pub fn nrows(&self) -> usize {
        self.nrows
    }

    #[inline]
    pub fn ncols(&self) -> usize {
        self.ncols
    }

    #[inline]
    pub fn transpose(self) -> MatRef<'a, T> {
        MatRef {
            nrows: self.ncols,
            ncols: self.nrows,
            row_stride: self.col_stride,
            col_stride: self.row_stride,
            data: self.data,
        }
    }
}

impl MatRef<'_, f64> {
    #[inline]
    pub fn to_owned(&self) -> Mat<f64> {
        Mat::from_fn(self.nrows, self.ncols, |i, j| self[(i, j)])
    }
}

impl<T> Index<(usize, usize)> for Mat<T> {
    type Output = T;
    #[inline]
    fn index(&self, (i, j): (usize, usize)) -> &T {
        debug_assert!(i < self.nrows && j < self.ncols);
        &self.data[i + j * self.nrows]
    }
}

impl<T> IndexMut<(usize, usize)> for Mat<T> {
    #[inline]
    fn index_mut(&mut self, (i, j): (usize, usize)) -> &mut T {
        debug_assert!(i < self.nrows && j < self.ncols);
        &mut self.data[i + j * self.nrows]
    }
}

impl<T> Index<(usize, usize)> for MatRef<'_, T> {
    type Output = T;
    #[inline]
    fn index(&self, (i, j): (usize, usize)) -> &T {
        debug_assert!(i < self.nrows && j < self.ncols);
        &self.data[i * self.row_stride + j * self.col_stride]
    }
}

/// The product: inner index ascending, from +0.0, no term left out. A column
/// of the result is summed as a whole; each entry sees the same operations
/// in the same order as if it were summed alone.
impl Mul<MatRef<'_, f64>> for MatRef<'_, f64> {
    type Output = Mat<f64>;
    fn mul(self, rhs: MatRef<'_, f64>) -> Mat<f64> {
        assert_eq!(self.ncols, rhs.nrows);
        let rows = self.nrows;
        let mut out = Mat::zeros(rows, rhs.ncols);
        for j in 0..rhs.ncols {
            let col = &mut out.data[j * rows..(j + 1) * rows];
            for k in 0..self.ncols {
                let b = rhs[(k, j)];
                if self.row_stride == 1 {
                    let from = k * self.col_stride;
                    let a = &self.data[from..from + rows];
                    for (o, x) in col.iter_mut().zip(a) {
                        *o += x * b;
                    }
                } else {
                    for (i, o) in col.iter_mut().enumerate() {
                        *o += self[(i, k)] * b;
                    }
                }
            }
        }
        out
    }
}

impl Mul<MatRef<'_, f64>> for Mat<f64> {
    type Output = Mat<f64>;
    #[inline]
    fn mul(self, rhs: MatRef<'_, f64>) -> Mat<f64> {
        self.as_ref() * rhs
    }
}

impl AddAssign<&Mat<f64>> for Mat<f64> {
    #[inline]
    fn add_assign(&mut self, rhs: &Mat<f64>) {
        for (x, y) in self.data.iter_mut().zip(&rhs.data) {
            *x += y;
        }
    }
}

impl SubAssign<&Mat<f64>> for Mat<f64> {
    #[inline]
    fn sub_assign(&mut self, rhs: &Mat<f64>) {
        for (x, y) in self.data.iter_mut().zip(&rhs.data) {
            *x -= y;
        }
    }
}

#[cfg(test)]
mod tests {
    use super::*;

    #[test]
    fn product_sums_upwards_from_plus_zero() {
        // One entry, (1e16 + 1) - 1e16: the order shows.
        let a = Mat::from_fn(1, 3, |_, j| [1e16, 1.0, -1e16][j]);
        let b = Mat::from_fn(3, 1, |_, _| 1.0);
        assert_eq!((a.as_ref() * b.as_ref())[(0, 0)], (1e16 + 1.0) - 1e16);
        // -0.0 alone gives +0.0.
        let z = Mat::from_fn(1, 1, |_, _| -0.0);
        let one = Mat::from_fn(1, 1, |_, _| 1.0);
        assert_eq!((z.as_ref() * one.as_ref())[(0, 0)].to_bits(), 0);
        // No term left out: 0 times infinity is NaN.
        let inf = Mat::from_fn(1, 1, |_, _| f64::INFINITY);
        let zero = Mat::zeros(1, 1);
        assert!((inf.as_ref() * zero.as_ref())[(0, 0)].is_nan());
    }

    #[test]
    fn both_ways_through_the_product_agree() {
        let a = Mat::from_fn(3, 4, |i, j| (1.0 + i as f64) / (3.0 + j as f64));
        let b = Mat::from_fn(4, 2, |i, j| (2.0 + j as f64) / (7.0 + i as f64));
        let at = a.as_ref().transpose().to_owned();
        let (x, y) = (
            a.as_ref() * b.as_ref(),
            at.as_ref().transpose() * b.as_ref(),
        );
        for i in 0..3 {
            for j in 0..2 {
                let mut s = 0.0;
                for k in 0..4 {
                    s += a[(i, k)] * b[(k, j)];
                }
                assert_eq!(x[(i, j)].to_bits(), s.to_bits());
                assert_eq!(y[(i, j)].to_bits(), s.to_bits());
            }
        }
    }
}
