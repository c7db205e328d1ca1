//! What the filter's loop carries from one period to the next, in its own
//! matrices, and as a saved run has it (document 02, request e).

use parts::Carried;
use tsecon_linalg::faer::Mat;

#[derive(Debug, Clone)]
pub struct Between {
    pub a: Vec<f64>,
    pub p_star: Mat<f64>,
    pub p_inf: Mat<f64>,
    /// m rows; one column per flagged state where the run began here, m
    /// columns where it was loaded.
    pub p_inf_root: Mat<f64>,
    pub p_inf_unres: Mat<f64>,
    pub in_diffuse: bool,
    pub loglik: f64,
    pub d_diffuse: usize,
    pub n_observed: usize,
    pub n_informative: usize,
}

/// A square matrix row by row; columns that are not there are +0.0.
fn rows(a: &Mat<f64>) -> Vec<f64> {
    let m = a.nrows();
    let entry = |i: usize, j: usize| if j < a.ncols() { a[(i, j)] } else { 0.0 };
    (0..m * m).map(|k| entry(k / m, k % m)).collect()
}

impl Between {
    /// As it is saved after `done` periods, with what these told of numbers
    /// that ran off: the loop itself carries no such report.
    pub fn carried(&self, done: usize, cov_off: usize, mean_off: usize) -> Carried {
        Carried {
            done,
            mean: self.a.clone(),
            star: rows(&self.p_star),
            p_inf: rows(&self.p_inf),
            root: rows(&self.p_inf_root),
            unresolved: rows(&self.p_inf_unres),
            loglik: self.loglik,
            d_diffuse: self.d_diffuse,
            heard: self.n_observed,
            news: self.n_informative,
            live: self.in_diffuse,
            cov_off,
            mean_off,
        }
    }

    /// As it was saved: all m columns of the root are taken as they are.
    pub fn loaded(c: &Carried) -> Self {
        let m = c.mean.len();
        let square = |x: &[f64]| Mat::from_fn(m, m, |i, j| x[i * m + j]);
        Between {
            a: c.mean.clone(),
            p_star: square(&c.star),
            p_inf: square(&c.p_inf),
            p_inf_root: square(&c.root),
            p_inf_unres: square(&c.unresolved),
            in_diffuse: c.live,
            loglik: c.loglik,
            d_diffuse: c.d_diffuse,
            n_observed: c.heard,
            n_informative: c.news,
        }
    }
}
