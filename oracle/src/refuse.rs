//! Cases that are refused: each refusal alone, and each two together. T's
//! reach is a test of its own right after 2, and 14 is right after that.

use parts::{Inputs, MAX_PERIODS};
use tsecon_linalg::faer::Mat;

use crate::case::Case;
use crate::makers::Maker;
use crate::rng::Rng;

/// T's reach among the tests: it has no number of its own, since it is given
/// as 2.
pub const T_REACH: usize = 0;

/// The tests of the filter's call and the smoother's, by their refusals, in
/// the order in which they are judged.
pub const ORDER: [usize; 14] = [1, 2, T_REACH, 14, 3, 4, 5, 6, 7, 8, 9, 10, 11, 12];

/// The refusal that a test gives.
pub fn number(test: usize) -> usize {
    match test {
        T_REACH => 2,
        k => k,
    }
}

/// Each two of them, the first one first.
pub fn pairs() -> impl Iterator<Item = (usize, usize)> {
    let after = |k: usize| ORDER[k + 1..].iter().map(move |&b| (ORDER[k], b));
    (0..ORDER.len()).flat_map(after)
}

/// 11: R·Q·R', symmetrised, has a non-finite entry.
pub fn non_finite_noise(i: &Inputs<'_>) -> bool {
    let r = Mat::from_fn(i.m, i.r, |a, b| i.rr[a * i.r + b]);
    let q = Mat::from_fn(i.r, i.r, |a, b| i.q[a * i.r + b]);
    let prod = r.as_ref() * q.as_ref() * r.as_ref().transpose();
    tsecon_linalg::symmetrize(prod.as_ref()).is_err()
}

/// Whether test k, 3 to 11, 14 or T's reach, would refuse if no other did.
/// Sizes and lengths must be right.
pub fn holds(k: usize, i: &Inputs<'_>) -> bool {
    match k {
        T_REACH => parts::transitions_short(i, i.n),
        3 => parts::non_finite_system(i),
        4 => parts::not_psd(i),
        5 => parts::q_not_diagonal(i),
        6 => parts::non_finite_start(i),
        7 => parts::bad_start_shape(i),
        8 => parts::non_diagonal_h(i),
        9 => parts::infinite_reading(i),
        10 => parts::mixed_driven(i),
        11 => non_finite_noise(i),
        14 => parts::list_short(i, i.n),
        _ => unreachable!(),
    }
}

/// NaN, often with odd bits, or an infinity.
fn non_finite(rng: &mut Rng) -> f64 {
    match rng.below(3) {
        0 => f64::INFINITY,
        1 => f64::NEG_INFINITY,
        _ => rng.gap(),
    }
}

fn some_non_zero(rng: &mut Rng) -> f64 {
    let x = rng.pick(&[f64::from_bits(1), 1e-300, 0.5, 1.0, f64::MAX]);
    if rng.chance(1, 2) {
        -x
    } else {
        x
    }
}

/// What is given once of a matrix of `size` numbers, or as a list, breaks the
/// rule: neither is given, or both, or one of a wrong length.
fn break_rule(rng: &mut Rng, once: &mut Vec<f64>, list: &mut Vec<f64>, size: usize) {
    let (once_len, list_len) = match rng.below(4) {
        0 => (0, 0),
        1 => (size, size),
        2 if size > 1 => (0, size + rng.within(1, size - 1)),
        _ => (rng.pick(&[size - 1, size + 1, 2 * size]), 0),
    };
    *once = vec![1.0; once_len];
    *list = vec![1.0; list_len];
}

impl Maker<'_> {
    /// A base that can carry these refusals: room for an entry off the
    /// diagonal, one state flagged and one not, a run that would find no news
    /// if 12 is among them, and a list that falls short if 14 or T's reach
    /// is. Small only if the room is small.
    fn base(&mut self, refusals: &[usize]) -> Case {
        let small = self.small();
        let wants = |of: &[usize]| !small || of.iter().any(|k| refusals.contains(k));
        let [silent, short, short_t] = [12, 14, T_REACH].map(|k| refusals.contains(&k));
        let p = if wants(&[8]) { 2 } else { 1 };
        let r = if wants(&[5]) { 2 } else { 1 };
        let m = match wants(&[7, 10, 11]) {
            true if small => 2,
            true => self.rng.within(2, 3),
            false => 1,
        };
        let n = match short || short_t {
            true if small => 2,
            true => self.rng.within(2, 4),
            false if small => 1,
            false => self.rng.within(1, 2),
        };
        let mut case = self.bare(p, m, n);
        case.r = r;
        case.rr = (0..m * r).map(|_| self.any()).collect();
        case.q = vec![-0.0; r * r];
        case.h = vec![-0.0; p * p];
        for i in 0..r {
            case.q[i * r + i] = self.any().abs();
        }
        case.flags[m - 1] = 1;
        if m > 1 {
            case.flags = vec![0; m];
            case.flags[1] = 1;
            case.p_star[0] = 1.0;
        }
        if short {
            case.list(self.rng.within(1, n - 1));
        } else {
            if !small && self.rng.chance(1, 3) {
                case.list(self.rng.within(1, n + 1));
            }
            self.mark(&mut case);
        }
        if short_t {
            case.list_t(self.rng.within(1, n - 1));
            // The marker does nothing for T; where 14 is to hold, it is not set.
            if !short {
                case.repeats = self.rng.maybe_marker(1, 2);
            }
        } else {
            self.maybe_list_t(&mut case);
        }
        if silent {
            case.z.fill(0.0);
            case.zs.fill(0.0);
        }
        for i in 0..p {
            case.h[i * p + i] = if silent { 0.0 } else { 0.5 };
        }
        for y in &mut case.y {
            *y = self.any();
        }
        case
    }

    /// A number near 1, of few bits if the room is small.
    fn any(&mut self) -> f64 {
        if self.small() {
            self.rng.within(1, 8) as f64 * 0.5
        } else {
            self.rng.plain()
        }
    }

    /// Makes refusal k, 3 to 11, hold.
    fn spoil(&mut self, case: &mut Case, k: usize) {
        let (p, m, r) = (case.p, case.m, case.r);
        let rng = &mut *self.rng;
        match k {
            3 => {
                let x = non_finite(rng);
                let part = match rng.below(6) {
                    0 | 1 if !case.zs.is_empty() => &mut case.zs,
                    0 | 1 => &mut case.z,
                    2 => &mut case.h,
                    3 if !case.ts.is_empty() => &mut case.ts,
                    3 => &mut case.t,
                    4 => &mut case.rr,
                    _ => &mut case.q,
                };
                let last = part.len() - 1;
                let at = rng.pick(&[0, last, last / 2]);
                part[at] = x;
            }
            4 => {
                let x = -some_non_zero(rng).abs();
                if rng.chance(1, 2) {
                    let at = rng.below(p);
                    case.h[at * p + at] = x;
                } else {
                    let at = rng.below(r);
                    case.q[at * r + at] = x;
                }
            }
            5 => case.q[rng.pick(&[1, 2])] = some_non_zero(rng),
            6 => {
                let x = non_finite(rng);
                let part = rng.pick(&[0, 1, 2, 3]);
                let part = match part {
                    0 => &mut case.c,
                    1 => &mut case.d,
                    2 => &mut case.a1,
                    _ => &mut case.p_star,
                };
                let at = rng.below(part.len());
                part[at] = x;
            }
            7 => match rng.below(6) {
                0 => case.flags[rng.pick(&[0, 1])] = rng.pick(&[2, 3, 128, 255]),
                1 => case.p_star[0] = -some_non_zero(rng).abs(),
                2 => case.a1[1] = some_non_zero(rng),
                3 => case.p_star[m + 1] = some_non_zero(rng).abs(),
                4 => {
                    let x = some_non_zero(rng);
                    case.p_star[1] = x;
                    case.p_star[m] = x;
                }
                _ => case.p_star[rng.pick(&[1, m])] = some_non_zero(rng),
            },
            8 => case.h[rng.pick(&[1, 2])] = some_non_zero(rng),
            9 => {
                let at = rng.below(case.y.len());
                case.y[at] = rng.pick(&[f64::INFINITY, f64::NEG_INFINITY]);
            }
            10 if !case.ts.is_empty() => case.ts[1] = some_non_zero(rng),
            10 => case.t[1] = some_non_zero(rng),
            11 => {
                if rng.chance(1, 2) {
                    // Finite mirrored entries whose sum overflows.
                    case.rr.fill(0.0);
                    case.rr[0] = 1.0;
                    case.rr[r] = 1.0;
                    case.q[0] = 1.5e308;
                } else {
                    let at = rng.below(case.rr.len());
                    case.rr[at] = 1e200;
                    for k in 0..r {
                        case.q[k * r + k] = case.q[k * r + k].max(1.0);
                    }
                }
            }
            _ => unreachable!(),
        }
    }

    /// Makes a size absurd. Lengths stay.
    fn absurd_size(&mut self, case: &mut Case) {
        let big = self
            .rng
            .pick(&[usize::MAX, 1 << 63, (1 << 61) + 1, 1 << 32, 257]);
        let small = self.rng.pick(&[0, 9, 9, 16, big]);
        match self.rng.below(4) {
            0 => case.p = small,
            1 => case.m = small,
            2 => case.r = small,
            _ => case.n = self.rng.pick(&[0, 4097, 4097, 8192, big.max(4097)]),
        }
    }

    /// Refusal 1, lengths right for the sizes where they can be.
    fn dimension_alone(&mut self) -> Case {
        let mut sizes = [self.rng.within(1, 2), self.rng.within(1, 2), 1, 1];
        let at = self.rng.below(4);
        sizes[at] = if at == 3 {
            0
        } else {
            self.rng.pick(&[0, 9, 9])
        };
        let [p, m, r, n] = sizes;
        let mut case = Case {
            p,
            m,
            r,
            n,
            z: vec![1.0; p * m],
            h: vec![0.0; p * p],
            t: vec![0.0; m * m],
            rr: vec![0.0; m * r],
            q: vec![0.0; r * r],
            c: vec![0.0; m],
            d: vec![0.0; p],
            a1: vec![0.0; m],
            p_star: vec![0.0; m * m],
            flags: vec![0; m],
            y: vec![1.0; n * p],
            ..Case::default()
        };
        case.lend_needed();
        self.maybe_list_t(&mut case);
        case
    }

    /// Refusal 2, one part of the wrong length, or the rule of Z or of T
    /// broken.
    fn length_alone(&mut self) -> Case {
        let mut case = self.base(&[2]);
        let rng = &mut *self.rng;
        let (p, m) = (case.p, case.m);
        match rng.below(16) {
            0..=3 => break_rule(rng, &mut case.z, &mut case.zs, p * m),
            4..=7 => break_rule(rng, &mut case.t, &mut case.ts, m * m),
            // Inputs.
            8..=11 => {
                let part = rng.below(9);
                if part == 8 {
                    let len = case.flags.len();
                    case.flags.resize(rng.pick(&[0, len - 1, len + 1]), 0);
                } else {
                    let part = [
                        &mut case.h,
                        &mut case.rr,
                        &mut case.q,
                        &mut case.c,
                        &mut case.d,
                        &mut case.a1,
                        &mut case.p_star,
                        &mut case.y,
                    ]
                    .into_iter()
                    .nth(part)
                    .unwrap();
                    let len = part.len();
                    part.resize(rng.pick(&[0, len - 1, len + 1, 2 * len]), 0.0);
                }
            }
            // Outputs of the filter.
            _ => {
                let at = rng.below(parts::FILTER_PARTS);
                let need = parts::needed(case.p, case.m, case.n)[at];
                case.lent[at] = rng.pick(&[0, need - 1, need - 1, need / 2]);
            }
        }
        case
    }

    /// A list of 4096 designs, which is fine, and `more`, which is not, with
    /// this marker.
    pub(crate) fn long_list(&mut self, more: usize, repeats: u8) -> Case {
        let mut case = self.bare(1, 1, 1);
        case.list(MAX_PERIODS + more);
        case.repeats = repeats;
        case.h = vec![1.0];
        case
    }

    /// The same of transitions.
    pub(crate) fn long_list_t(&mut self, more: usize) -> Case {
        let mut case = self.bare(1, 1, 1);
        case.list_t(MAX_PERIODS + more);
        case.repeats = self.rng.maybe_marker(1, 4);
        case.h = vec![1.0];
        case
    }

    /// Only the smoother's own parts are too short; now and then a list is
    /// too, which the filter's call alone sees then.
    pub fn smoother_alone(&mut self) -> Case {
        let list: &[usize] = match self.rng.below(16) {
            0..=3 => &[14],
            4 => &[T_REACH],
            _ => &[],
        };
        let mut case = self.base(list);
        let at = parts::FILTER_PARTS + self.rng.below(2);
        let need = parts::needed(case.p, case.m, case.n)[at];
        case.lent[at] = self.rng.pick(&[0, need - 1]);
        case
    }

    /// Test k alone.
    pub fn refused(&mut self, k: usize) -> Case {
        match k {
            1 if self.rng.chance(1, 2) => self.dimension_alone(),
            1 => {
                let mut case = self.base(&[1]);
                self.absurd_size(&mut case);
                case
            }
            2 => self.length_alone(),
            12 => self.silent(),
            _ => {
                let mut case = self.base(&[k]);
                while !holds(k, &case.inputs()) {
                    self.spoil(&mut case, k);
                }
                case
            }
        }
    }

    /// Refusal 12, by one of several causes.
    fn silent(&mut self) -> Case {
        match self.rng.below(3) {
            0 => self.base(&[12]),
            1 => {
                // Nothing is uncertain.
                let (p, m) = (self.rng.within(1, 2), self.rng.within(1, 2));
                let n = self.rng.within(1, 3);
                let mut case = self.bare(p, m, n);
                for y in &mut case.y {
                    *y = self.any();
                }
                self.maybe_list_t(&mut case);
                case
            }
            _ => {
                // The start is known, and only the first period is heard.
                let mut case = self.bare(1, 1, 2);
                case.q = vec![2.0];
                case.y = vec![self.any(), self.rng.gap()];
                self.maybe_list_t(&mut case);
                case
            }
        }
    }

    /// Tests a and b together, a judged first.
    pub fn refused_twice(&mut self, a: usize, b: usize) -> Case {
        let mut case = self.base(&[a, b]);
        let spoilt: Vec<usize> = [a, b]
            .into_iter()
            .filter(|k| (3..=11).contains(k))
            .collect();
        loop {
            let mut tried = case.clone();
            for &k in &spoilt {
                self.spoil(&mut tried, k);
            }
            if spoilt.iter().all(|&k| holds(k, &tried.inputs())) {
                case = tried;
                break;
            }
        }
        if a == 2 || b == 2 {
            if self.rng.chance(1, 2) {
                let at = self.rng.below(parts::FILTER_PARTS);
                case.lent[at] -= case.lent[at].min(4);
                case.lent[at] = case.lent[at].min(parts::needed(case.p, case.m, case.n)[at] - 1);
            } else {
                // Of a constant matrix one number too many; of a list, both
                // are given.
                let part = match self.rng.below(3) {
                    0 => &mut case.y,
                    1 => &mut case.z,
                    _ => &mut case.t,
                };
                part.push(1.0);
            }
        }
        if a == 1 {
            self.absurd_size(&mut case);
        }
        case.pair = Some((a, b));
        case
    }
}
