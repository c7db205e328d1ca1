//! Cases whose numbers run off (document 02, request h), or only seem to: one
//! maker for each way in which a report is told or must not be; and cases
//! that are inflated until their reports are like this or that.

use crate::case::{reports, Buffers, Case};
use crate::makers::{Flavour, Maker};
use crate::rng::pow2;

/// Count of the ways.
pub const WAYS: usize = 18;

/// What the answer tells, the covariance report and the mean report, of each
/// way in the order of `runs_off`; none where it is refused 12.
pub const TOLD: [Option<(usize, usize)>; WAYS] = [
    Some((2, 0)),
    Some((0, 0)),
    Some((0, 0)),
    Some((2, 0)),
    Some((0, 0)),
    Some((2, 0)),
    Some((1, 1)),
    Some((1, 0)),
    Some((0, 0)),
    Some((0, 0)),
    Some((0, 0)),
    Some((0, 1)),
    Some((0, 0)),
    Some((0, 2)),
    Some((0, 2)),
    Some((0, 0)),
    Some((2, 3)),
    None,
];

/// What the reports of a case are wished to be like.
#[derive(Debug, Clone, Copy, PartialEq, Eq)]
pub enum Wish {
    /// A covariance is off, and no mean.
    CovAlone,
    /// A mean is off, and no covariance.
    MeanAlone,
    /// Both are, in different periods.
    Apart,
    /// A covariance is off, in a later period than the first.
    LateCov,
    /// A mean is, so too.
    LateMean,
    /// The first covariance that is off is a filtered one.
    Filtered,
    /// The first covariance that is off is P∞, beside a finite P*.
    Diffuse,
    /// The first mean that is off is a filtered one.
    FilteredMean,
}

pub const WISHES: [Wish; 8] = [
    Wish::CovAlone,
    Wish::MeanAlone,
    Wish::Apart,
    Wish::LateCov,
    Wish::LateMean,
    Wish::Filtered,
    Wish::Diffuse,
    Wish::FilteredMean,
];

/// Tries for a wish before one of the ways is taken for it.
const TRIES: usize = 400;

impl Wish {
    /// Whether the case is answered, and its reports are so.
    pub fn holds(self, case: &Case) -> bool {
        let mut b = Buffers::patterned(&case.lent);
        if tsecon_ssm::filter_call(&case.inputs(), &mut b.lend().0).is_err() {
            return false;
        }
        let m = case.m;
        let parts: Vec<Vec<u64>> = (0..5).map(|k| b.words(k)).collect();
        let (cov, mean) = reports(&parts, m, case.n);
        // Whether a part is off in the period that a report names.
        let off = |part: usize, width: usize, told: usize| {
            let block = &parts[part][(told - 1) * width..told * width];
            block.iter().any(|&w| !f64::from_bits(w).is_finite())
        };
        match self {
            Wish::CovAlone => cov > 0 && mean == 0,
            Wish::MeanAlone => mean > 0 && cov == 0,
            Wish::Apart => cov > 0 && mean > 0 && cov != mean,
            Wish::LateCov => cov > 1,
            Wish::LateMean => mean > 1,
            Wish::Filtered => cov > 0 && !off(1, m * m, cov) && !off(2, m * m, cov),
            Wish::Diffuse => cov > 0 && !off(1, m * m, cov) && off(2, m * m, cov),
            Wish::FilteredMean => mean > 0 && !off(0, m, mean),
        }
    }

    /// A way that has it for certain.
    fn way(self) -> usize {
        match self {
            Wish::CovAlone | Wish::LateCov => 0,
            Wish::MeanAlone | Wish::FilteredMean => 11,
            Wish::Apart => 16,
            Wish::LateMean => 13,
            Wish::Filtered => 7,
            Wish::Diffuse => 3,
        }
    }
}

/// Times a number, and no further than to the largest one.
fn inflate(part: &mut [f64], by: f64) {
    for x in part {
        *x = (*x * by).clamp(-f64::MAX, f64::MAX);
    }
}

impl Maker<'_> {
    /// A case in this way, see `pointed::SLIPS`.
    pub fn runs_off(&mut self, way: usize) -> Case {
        match way {
            0 => self.noise_added(2),
            1 => self.noise_added(1),
            2 => self.diffuse_at_place_n(),
            3 => self.diffuse_off(),
            4 => self.diffuse_cleared(),
            5 => self.off_for_a_while(),
            6 => self.infinite_gain_told(),
            7 => self.symmetrised(),
            8 => self.infinite_scale(),
            9 => self.unresolved_off(),
            10 => self.smoothed_off(),
            11 => self.infinite_innovation(),
            12 => self.mean_by_t(1),
            13 => self.mean_by_t(2),
            14 => self.mean_by_c(),
            15 => self.unheard_innovation(),
            16 => self.one_after_the_other(),
            _ => {
                // Nothing is news behind an infinite scale.
                let mut case = self.noise_added(2);
                case.y[1] = self.rng.within(1, 4) as f64;
                case
            }
        }
    }

    /// One state, one element, H and P* as told, nothing heard.
    fn unheard(&mut self, n: usize, p_star: f64) -> Case {
        let mut case = self.bare(1, 1, n);
        case.h = vec![1.0];
        case.p_star = vec![p_star];
        for y in &mut case.y {
            *y = self.rng.gap();
        }
        case
    }

    /// 2^1023, of either sign.
    fn huge(&mut self) -> f64 {
        self.rng.pick(&[pow2(1023), -pow2(1023)])
    }

    /// T·P*·T' and R·Q·R' are finite, and their sum is not: at place 1.
    fn noise_added(&mut self, n: usize) -> Case {
        let mut case = self.unheard(n, pow2(1023));
        case.q = vec![pow2(1023)];
        case
    }

    /// The second state's P∞ goes by a huge T, and n is 1.
    fn diffuse_at_place_n(&mut self) -> Case {
        let mut case = self.bare(1, 2, 1);
        case.h = vec![1.0];
        case.t[3] = self.rng.power(512, 1000);
        case.flags = vec![1; 2];
        self.short_readings(&mut case);
        case
    }

    /// P∞ goes by a huge T, and P* is Q. The last reading is news by P*.
    fn diffuse_off(&mut self) -> Case {
        let mut case = self.bare(1, 1, 2);
        case.h = vec![1.0];
        case.t = vec![self.rng.power(512, 1000)];
        case.q = vec![1.0];
        case.flags = vec![1];
        self.short_readings(&mut case);
        case.y[0] = self.rng.gap();
        case
    }

    /// T·P∞·T' has a NaN beside its infinities: its sum of squares is not
    /// above the tolerance, the diffuse state ends, and zeros are stored.
    fn diffuse_cleared(&mut self) -> Case {
        let mut case = self.bare(1, 2, 2);
        let s = self.rng.power(512, 1000);
        case.h = vec![1.0];
        case.t = vec![s, -s, s, s];
        case.flags = vec![1; 2];
        self.short_readings(&mut case);
        case.y[0] = self.rng.gap();
        case
    }

    /// P∞ is infinite in period 1 and has a NaN after it, which ends the
    /// diffuse state: all later numbers are finite.
    fn off_for_a_while(&mut self) -> Case {
        let mut case = self.bare(1, 2, 3);
        let s = self.rng.power(512, 1000);
        case.h = vec![1.0];
        case.t = vec![s, 1.0, 1.0, 0.0];
        case.flags = vec![1; 2];
        for y in &mut case.y {
            *y = self.rng.gap();
        }
        case
    }

    /// The second state's gain is infinite, in the only period.
    fn infinite_gain_told(&mut self) -> Case {
        let mut case = self.bare(1, 2, 1);
        let large = pow2(1000);
        case.t = vec![0.0; 4];
        case.p_star = vec![pow2(-100), large, large, large];
        self.short_readings(&mut case);
        case
    }

    /// The sum of two mirrored entries overflows, with nothing heard: the
    /// start is stored as it is, and symmetrised as it is filtered.
    fn symmetrised(&mut self) -> Case {
        let mut case = self.bare(1, 2, 1);
        case.h = vec![1.0];
        let x = self.rng.pick(&[pow2(1023), 1.5 * pow2(1023), f64::MAX]);
        case.p_star = vec![x; 4];
        case.y = vec![self.rng.gap()];
        case
    }

    /// M*, F* and its scale overflow, and the element is skipped for that;
    /// the other one is news.
    fn infinite_scale(&mut self) -> Case {
        let mut case = self.bare(2, 1, 1);
        case.z = vec![self.rng.power(600, 900), 1.0];
        case.h = vec![1.0, 0.0, 0.0, 1.0];
        case.p_star = vec![pow2(600)];
        self.short_readings(&mut case);
        case
    }

    /// What is resolved goes hugely into what is not: the unresolved matrix
    /// alone is infinite.
    fn unresolved_off(&mut self) -> Case {
        let mut case = self.bare(1, 2, 2);
        case.z = vec![0.0, 1.0];
        case.t = vec![1.0, self.rng.power(512, 1000), 0.0, 0.0];
        case.flags = vec![1; 2];
        self.short_readings(&mut case);
        case
    }

    /// A huge T meets a start that is known for certain: forward there is
    /// nothing that it makes larger, on the way back 1/F is.
    fn smoothed_off(&mut self) -> Case {
        let mut case = self.bare(1, 1, 2);
        case.h = vec![pow2(-100)];
        case.t = vec![self.rng.power(470, 540)];
        case.q = vec![pow2(-100)];
        self.short_readings(&mut case);
        case.y[0] = self.rng.gap();
        case
    }

    /// The reading lies so far off that v overflows, in the only period.
    fn infinite_innovation(&mut self) -> Case {
        let mut case = self.unheard(1, pow2(1023));
        case.a1 = vec![self.huge()];
        case.y = vec![-case.a1[0]];
        case
    }

    /// T takes the mean past the largest number, at place 1.
    fn mean_by_t(&mut self, n: usize) -> Case {
        let mut case = self.unheard(n, 1.0);
        case.t = vec![self.rng.pick(&[2.0, -2.0, 4.0])];
        case.a1 = vec![self.huge()];
        case
    }

    /// T·a is finite, and c takes it past the largest number, at place 1.
    fn mean_by_c(&mut self) -> Case {
        let mut case = self.unheard(2, 1.0);
        case.a1 = vec![self.huge()];
        case.c = case.a1.clone();
        case
    }

    /// Nothing is uncertain for the first element, whose v overflows; the
    /// second is news.
    fn unheard_innovation(&mut self) -> Case {
        let mut case = self.bare(2, 1, 1);
        case.z = vec![0.0, 1.0];
        case.h[3] = 1.0;
        case.p_star = vec![1.0];
        self.short_readings(&mut case);
        case.d[0] = self.huge();
        case.y[0] = -case.d[0];
        case
    }

    /// The covariance overflows at place 1, the mean at place 2.
    fn one_after_the_other(&mut self) -> Case {
        let mut case = self.unheard(3, pow2(1022));
        case.t = vec![self.rng.pick(&[2.0, -2.0])];
        case.a1 = vec![self.huge() * 0.5];
        case
    }

    /// Any case with some of its inputs made huge.
    fn inflated(&mut self) -> Case {
        let kind = self.rng.below(9);
        let mut case = match kind {
            0 => self.long_diffuse(),
            1 => self.diffuse_again(),
            2 => self.collinear(),
            3 => self.general(Flavour::Huge),
            4 => self.general(Flavour::Wild),
            5 | 6 => self.general(Flavour::Short),
            _ => self.general(Flavour::Plain),
        };
        // General cases have lists of their own.
        if kind < 3 {
            self.maybe_list_t(&mut case);
            self.vary_t(&mut case, Flavour::Short);
        }
        for _ in 0..self.rng.within(1, 3) {
            let by = self.rng.power(10, 1023);
            match self.rng.below(8) {
                0 | 1 if case.ts.is_empty() => inflate(&mut case.t, by),
                0 => inflate(&mut case.ts, by),
                1 => {
                    let (at, size) = (self.rng.below(case.listed_t()), case.m * case.m);
                    inflate(&mut case.ts[at * size..(at + 1) * size], by);
                }
                2 => inflate(&mut case.p_star, by),
                3 => inflate(&mut case.q, by),
                4 => inflate(&mut case.a1, by),
                5 => inflate(&mut case.c, by),
                6 => inflate(&mut case.y, by),
                _ => inflate(
                    if case.zs.is_empty() {
                        &mut case.z
                    } else {
                        &mut case.zs
                    },
                    by,
                ),
            }
        }
        case
    }

    /// Inflated until it is as wished; if it never is, the way that is.
    pub fn wished(&mut self, wish: Wish) -> Case {
        for _ in 0..TRIES {
            let case = self.inflated();
            if wish.holds(&case) {
                return case;
            }
        }
        self.runs_off(wish.way())
    }
}
