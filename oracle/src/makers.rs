//! Makers of cases that refusals 1 to 11 and 14 let through, but for lists of T
//! that fall short: general ones, and one maker for each branch that chance
//! alone would hardly take.

use parts::{list_short, needed, Inputs};

use crate::case::Case;
use crate::rng::{pow2, Rng};

/// Largest n of a made case that is run.
pub const MAX_N: usize = 20;

/// The kind of numbers a case is made of.
#[derive(Debug, Clone, Copy, PartialEq, Eq)]
pub enum Flavour {
    /// Few bits.
    Short,
    /// All bits, near 1.
    Plain,
    /// Scales that overflow.
    Huge,
    /// Scales that end in subnormals.
    Tiny,
    /// Any exponent.
    Wild,
}

/// How large a case may be.
#[derive(Debug, Clone, Copy, PartialEq, Eq)]
pub enum Room {
    Usual,
    /// As small as can be, for cases that are read by eye or computed in a
    /// proof.
    Small,
}

pub struct Maker<'a> {
    pub rng: &'a mut Rng,
    pub room: Room,
}

fn zero(rng: &mut Rng) -> f64 {
    if rng.chance(1, 3) {
        -0.0
    } else {
        0.0
    }
}

/// k·k entries, `diag(i)` on the diagonal, a zero elsewhere.
fn diagonal(rng: &mut Rng, k: usize, mut diag: impl FnMut(&mut Rng, usize) -> f64) -> Vec<f64> {
    let mut out = Vec::with_capacity(k * k);
    for i in 0..k {
        for j in 0..k {
            out.push(if i == j { diag(rng, i) } else { 0.0 });
        }
    }
    out
}

impl Maker<'_> {
    pub fn small(&self) -> bool {
        self.room == Room::Small
    }

    /// A number near 1, never 0.
    fn near(&mut self, flavour: Flavour) -> f64 {
        let r = &mut *self.rng;
        let sign = if r.chance(1, 2) { 1.0 } else { -1.0 };
        match flavour {
            Flavour::Short => sign * r.within(1, 12) as f64 * r.pick(&[0.25, 0.5, 1.0]),
            Flavour::Wild if r.chance(1, 3) => r.finite(),
            _ => sign * (0.05 + 2.0 * r.unit()),
        }
    }

    /// A number of this flavour at this scale; sometimes a zero.
    fn number(&mut self, flavour: Flavour, scale: f64) -> f64 {
        if self.rng.chance(1, 6) {
            return zero(self.rng);
        }
        self.near(flavour) * scale
    }

    fn scale(&mut self, flavour: Flavour) -> f64 {
        match flavour {
            Flavour::Short | Flavour::Plain | Flavour::Wild => 1.0,
            Flavour::Huge if self.rng.chance(1, 3) => 1.0,
            Flavour::Huge => self.rng.power(100, 600),
            Flavour::Tiny if self.rng.chance(1, 3) => 1.0,
            Flavour::Tiny if self.rng.chance(1, 3) => self.rng.power(-1070, -1000),
            Flavour::Tiny => self.rng.power(-600, -150),
        }
    }

    fn size(&mut self) -> usize {
        if self.small() {
            return self.rng.within(1, 2);
        }
        match self.rng.below(20) {
            0..=5 => 1,
            6..=11 => 2,
            12..=15 => 3,
            16..=17 => 4,
            _ => self.rng.within(5, 8),
        }
    }

    fn periods(&mut self, m: usize) -> usize {
        if self.small() {
            return self.rng.within(1, 2);
        }
        let n = match self.rng.below(24) {
            0..=5 => 1,
            6..=11 => 2,
            12..=17 => self.rng.within(3, 5),
            18..=21 => self.rng.within(6, 12),
            _ => self.rng.within(13, MAX_N),
        };
        if m > 4 {
            n.min(6)
        } else {
            n
        }
    }

    /// Lends what is needed, and now and then more.
    pub fn lend(&mut self, case: &mut Case) {
        case.lent = needed(case.p, case.m, case.n);
        if !self.small() && self.rng.chance(1, 3) {
            for l in &mut case.lent {
                *l += self.rng.below(4);
            }
        }
    }

    /// A case of these sizes: Z, T, R the identity's left upper corner, H, Q,
    /// c, d, a1, P* zero, no flag, readings 1.
    pub fn bare(&mut self, p: usize, m: usize, n: usize) -> Case {
        let eye = |rows: usize, cols: usize| -> Vec<f64> {
            let at = |k: usize| if k / cols == k % cols { 1.0 } else { 0.0 };
            (0..rows * cols).map(at).collect()
        };
        let mut case = Case {
            p,
            m,
            r: 1,
            n,
            z: eye(p, m),
            h: vec![0.0; p * p],
            t: eye(m, m),
            rr: eye(m, 1),
            q: vec![0.0],
            c: vec![0.0; m],
            d: vec![0.0; p],
            a1: vec![0.0; m],
            p_star: vec![0.0; m * m],
            flags: vec![0; m],
            y: vec![1.0; n * p],
            ..Case::default()
        };
        self.lend(&mut case);
        case
    }

    /// Readings of this flavour with gaps, `share` in 8.
    pub(crate) fn readings(&mut self, case: &mut Case, flavour: Flavour, share: usize) {
        let scale = self.scale(flavour);
        case.y = (0..case.n * case.p)
            .map(|_| {
                if self.rng.chance(share, 8) {
                    self.rng.gap()
                } else {
                    self.number(flavour, scale)
                }
            })
            .collect();
    }

    /// Now and then turns a constant design into a list, shorter or longer
    /// than n, and marks it where it must be; entries differ if `vary`.
    pub fn maybe_list(&mut self, case: &mut Case, flavour: Flavour, vary: bool) {
        if self.small() && self.rng.chance(3, 4) || self.rng.chance(1, 2) {
            return self.mark(case);
        }
        let count = self.rng.within(1, case.n + 2).min(MAX_N);
        let one = case.z.len();
        case.list(count);
        for k in (1..count).filter(|_| vary) {
            if self.rng.chance(2, 3) {
                let scale = self.scale(flavour);
                for x in &mut case.zs[k * one..(k + 1) * one] {
                    *x = self.number(flavour, scale);
                }
            }
        }
        self.mark(case);
    }

    /// Marks a list that is shorter than n, whose last design then repeats;
    /// and now and then what needs no marker.
    pub fn mark(&mut self, case: &mut Case) {
        let unmarked = Inputs {
            repeats: 0,
            ..case.inputs()
        };
        let short = list_short(&unmarked, case.n);
        if short || self.rng.chance(1, 4) {
            case.repeats = self.rng.marker();
        }
    }

    /// Every second time turns the constant T into a list: n copies of it, or
    /// more matrices, of which no period takes those past n.
    pub fn maybe_list_t(&mut self, case: &mut Case) {
        if self.rng.chance(1, 2) {
            return;
        }
        let taken = case.n * case.t.len();
        let count = case.n + self.rng.pick(&[0, 0, 1, 2]);
        case.list_t(count.max(1));
        for x in &mut case.ts[taken..] {
            *x = self.near(Flavour::Short);
        }
    }

    /// Other matrices in a list of T, from the second on. There a flagged
    /// state may drive one that is not: refusal 10 looks at the first alone.
    pub fn vary_t(&mut self, case: &mut Case, flavour: Flavour) {
        let unflagged = vec![0; case.m];
        for one in case.ts.chunks_mut(case.m * case.m).skip(1) {
            if self.rng.chance(2, 3) {
                let flags = self.rng.pick(&[&unflagged, &case.flags]);
                one.copy_from_slice(&self.transition(flags, flavour));
            }
        }
    }

    /// A start covariance on the unflagged states, mirrored, diagonal not
    /// below 0; not always semidefinite.
    fn start_cov(&mut self, flags: &[u8], flavour: Flavour) -> Vec<f64> {
        let m = flags.len();
        let scale = self.scale(flavour);
        let kind = self.rng.below(8);
        let cols = self.rng.within(1, m);
        let mut g = vec![0.0; m * cols];
        for x in &mut g {
            *x = self.number(flavour, 1.0);
        }
        let same = self.near(flavour).abs() * scale;
        let mut p = vec![0.0; m * m];
        for i in 0..m {
            for j in i..m {
                let x = match kind {
                    0 => zero(self.rng),
                    1 if i == j => same,
                    2 if i == j => self.number(flavour, scale).abs(),
                    1 | 2 => zero(self.rng),
                    3 if i == j => same,
                    3 => self.number(flavour, scale) * 0.25,
                    4 if i == j => 0.0,
                    4 => self.number(flavour, scale),
                    _ => {
                        let dot = (0..cols).fold(0.0, |s, k| s + g[i * cols + k] * g[j * cols + k]);
                        dot * scale
                    }
                };
                let x = if flags[i] != 0 || flags[j] != 0 || !x.is_finite() {
                    zero(self.rng)
                } else if i == j {
                    x.abs()
                } else {
                    x
                };
                p[i * m + j] = x;
                p[j * m + i] = x;
                if x == 0.0 && self.rng.chance(1, 3) {
                    p[j * m + i] = -x;
                }
            }
        }
        p
    }

    fn flags(&mut self, m: usize) -> Vec<u8> {
        match self.rng.below(3) {
            0 => vec![0; m],
            1 => vec![1; m],
            _ => (0..m).map(|_| self.rng.below(2) as u8).collect(),
        }
    }

    fn transition(&mut self, flags: &[u8], flavour: Flavour) -> Vec<f64> {
        let m = flags.len();
        let kind = self.rng.below(6);
        let scale = match flavour {
            Flavour::Huge if self.rng.chance(1, 2) => self.rng.power(0, 300),
            Flavour::Tiny if self.rng.chance(1, 2) => self.rng.power(-300, 0),
            _ => self.rng.pick(&[1.0, 1.0, 0.5, 0.001953125, 0.00390625]),
        };
        let mut t = vec![0.0; m * m];
        for i in 0..m {
            for j in 0..m {
                let eye = f64::from(u8::from(i == j));
                let x = match kind {
                    0 => eye,
                    1 => eye + f64::from(u8::from(j == i + 1)),
                    2 => f64::from(u8::from(j == (i + 1) % m)),
                    3 => eye * scale,
                    _ => self.number(flavour, scale),
                };
                let driven = flags[i] == 0 && flags[j] != 0;
                t[i * m + j] = if driven || !x.is_finite() {
                    zero(self.rng)
                } else {
                    x
                };
            }
        }
        t
    }

    /// Row after row, some of them equal or nearly collinear to the first.
    fn design(&mut self, p: usize, m: usize, flavour: Flavour) -> Vec<f64> {
        let scale = self.scale(flavour);
        let mut z: Vec<f64> = (0..m).map(|_| self.number(flavour, scale)).collect();
        for _ in 1..p {
            let kind = self.rng.below(6);
            let near = self.rng.power(-40, -2);
            let factor = self.near(Flavour::Short);
            for j in 0..m {
                let x = match kind {
                    0 => z[j],
                    1 => z[j] + near * self.number(flavour, scale),
                    2 => z[j] * factor,
                    3 if self.rng.chance(1, 2) => zero(self.rng),
                    _ => self.number(flavour, scale),
                };
                z.push(x);
            }
        }
        z
    }

    fn noise(&mut self, p: usize, flavour: Flavour) -> Vec<f64> {
        let scale = self.scale(flavour);
        let kind = self.rng.below(4);
        let mut h = diagonal(self.rng, p, |_, _| 0.0);
        for i in 0..p {
            h[i * p + i] = match kind {
                0 => zero(self.rng),
                1 => self.rng.power(-60, -15) * scale,
                _ => self.number(flavour, scale).abs(),
            };
            for j in 0..i {
                if self.rng.chance(1, 6) {
                    h[i * p + j] = -0.0;
                }
            }
        }
        h
    }

    /// Anything that refusals 1 to 10 let through; 11 and 12 may catch it, and
    /// now and then a list of T that falls short.
    pub fn general(&mut self, flavour: Flavour) -> Case {
        let (p, m, r) = (self.size(), self.size(), self.size().min(3));
        let n = self.periods(m);
        let mut case = self.bare(p, m, n);
        case.r = r;
        case.flags = self.flags(m);
        case.z = self.design(p, m, flavour);
        self.maybe_list(&mut case, flavour, true);
        case.h = self.noise(p, flavour);
        case.t = self.transition(&case.flags.clone(), flavour);
        self.maybe_list_t(&mut case);
        if self.rng.chance(3, 4) {
            self.vary_t(&mut case, flavour);
        }
        if !case.ts.is_empty() && n > 1 && self.rng.chance(1, 12) {
            case.ts.truncate(self.rng.within(1, n - 1) * m * m);
        }
        let calm = match flavour {
            Flavour::Wild if self.rng.chance(3, 4) => Flavour::Plain,
            Flavour::Huge if self.rng.chance(1, 2) => Flavour::Plain,
            other => other,
        };
        let scale = self.scale(calm);
        case.rr = (0..m * r).map(|_| self.number(calm, 1.0)).collect();
        case.q = diagonal(self.rng, r, |_, _| 0.0);
        for i in 0..r {
            case.q[i * r + i] = self.number(calm, scale).abs();
        }
        if self.rng.chance(1, 2) {
            let scale = self.scale(flavour);
            case.c = (0..m).map(|_| self.number(flavour, scale)).collect();
            case.d = (0..p).map(|_| self.number(flavour, scale)).collect();
        }
        case.p_star = self.start_cov(&case.flags.clone(), flavour);
        let scale = self.scale(flavour);
        for i in 0..m {
            case.a1[i] = if case.flags[i] != 0 {
                zero(self.rng)
            } else {
                self.number(flavour, scale)
            };
        }
        let share = self.rng.pick(&[0, 0, 1, 2, 4, 7, 8]);
        self.readings(&mut case, flavour, share);
        for x in case_floats(&mut case) {
            if !x.is_finite() {
                *x = 1.0;
            }
        }
        case
    }

    /// Rows equal or nearly collinear, H zero or tiny, a known start.
    pub fn collinear(&mut self) -> Case {
        let small = self.small();
        let m = self.rng.within(1, if small { 2 } else { 4 });
        let p = self.rng.within(2, if small { 3 } else { 5 });
        let n = if small { 1 } else { self.rng.within(1, 3) };
        let flavour = if small {
            Flavour::Short
        } else {
            self.rng.pick(&[Flavour::Short, Flavour::Plain])
        };
        let mut case = self.bare(p, m, n);
        let first: Vec<f64> = (0..m).map(|_| self.near(flavour)).collect();
        let tilt = self.rng.power(-30, -3);
        for i in 0..p {
            let kind = self.rng.below(5);
            for j in 0..m {
                case.z[i * m + j] = match kind {
                    _ if i == 0 => first[j],
                    0 | 1 => first[j],
                    2 => first[j] * 2.0,
                    3 => first[j] + tilt * self.near(flavour),
                    _ => self.near(flavour),
                };
            }
            case.h[i * p + i] = match self.rng.below(3) {
                0 => self.rng.power(-60, -15),
                1 => self.rng.power(-58, 0) * (1.0 + self.rng.unit()),
                _ => 0.0,
            };
            if small && case.h[i * p + i] != 0.0 {
                case.h[i * p + i] = self.rng.power(-55, -18);
            }
        }
        if !small {
            case.h[0] = self.rng.pick(&[0.0, case.h[0]]);
            self.maybe_list(&mut case, flavour, false);
            case.q = vec![self.number(flavour, 1.0).abs()];
        }
        let equal = self.near(flavour).abs();
        match self.rng.below(5) {
            0 | 1 => case.p_star = diagonal(self.rng, m, |_, _| equal),
            2 => {
                for i in 0..m {
                    case.p_star[i * m + i] = self.number(flavour, 1.0).abs();
                }
            }
            3 => {
                // Of rank one.
                let g: Vec<f64> = (0..m).map(|_| self.number(flavour, 1.0)).collect();
                case.p_star = (0..m * m).map(|k| g[k / m] * g[k % m]).collect();
            }
            _ => case.p_star = self.start_cov(&vec![0; m], flavour),
        }
        let share = if small { 0 } else { self.rng.below(2) };
        self.readings(&mut case, flavour, share);
        case
    }

    /// The same with one flagged state more, which no row looks at, so that
    /// the periods are diffuse.
    pub fn collinear_diffuse(&mut self) -> Case {
        let old = self.collinear();
        if old.m == 8 {
            return old;
        }
        let (p, m, n) = (old.p, old.m, old.n);
        let wide = m + 1;
        let mut case = self.bare(p, wide, n);
        let widen = |z: &[f64]| -> Vec<f64> {
            z.chunks(m)
                .flat_map(|row| row.iter().copied().chain([0.0]))
                .collect()
        };
        case.z = widen(&old.z);
        case.zs = widen(&old.zs);
        case.repeats = old.repeats;
        case.h = old.h;
        case.q = old.q;
        case.y = old.y;
        case.flags[m] = 1;
        for i in 0..m {
            for j in 0..m {
                case.p_star[i * wide + j] = old.p_star[i * m + j];
            }
        }
        case
    }

    /// Bound and reference lie apart, and F* between their shares.
    pub fn by_reference(&mut self) -> Case {
        let m = self.rng.within(2, if self.small() { 2 } else { 6 });
        let mut case = self.bare(2, m, 1);
        let c = self.rng.power(-4, 4);
        let row: Vec<f64> = (0..m).map(|_| self.rng.pick(&[1.0, -1.0])).collect();
        case.z = row.iter().chain(&row).copied().collect();
        case.p_star = diagonal(self.rng, m, |_, _| c);
        let share = 1.0 + 0.9 * self.rng.unit() * (m - 1) as f64;
        let h = 0.5e-6 * m as f64 * c * share;
        case.h[0] = h;
        case.h[3] = h;
        if self.small() {
            case.h[0] = c * pow2(-19);
            case.h[3] = c * pow2(-20);
        }
        self.readings(&mut case, Flavour::Short, 0);
        case
    }

    /// Rounding dust behind two nearly collinear pins: the covariance form
    /// lets a redundant third row in, the root does not.
    pub fn dust(&mut self) -> Case {
        let mut case = self.bare(3, 2, 1);
        let flavour = if self.small() {
            Flavour::Short
        } else {
            Flavour::Plain
        };
        let tilt = self.rng.power(-14, -4);
        let (a, b) = (self.near(flavour), self.near(flavour));
        let z = [
            a,
            b,
            a + tilt,
            b - tilt * self.near(Flavour::Short),
            self.near(flavour),
            self.near(flavour),
        ];
        case.z = z.to_vec();
        let g = self.near(flavour);
        let off = 0.5 * self.near(flavour);
        case.p_star = vec![g * g + off * off, off, off, 1.0];
        self.readings(&mut case, flavour, 0);
        case
    }

    /// An indefinite start whose root sees nothing behind the first pin:
    /// f is 2·c, the root's F is h.
    fn hidden(&mut self, c: f64, h: f64, s: f64) -> Case {
        let mut case = self.bare(2, 3, 1);
        case.z = vec![1.0, 0.0, 0.0, 1.0, 1.0, 1.0];
        case.p_star = vec![s, 0.0, 0.0, 0.0, 0.0, c, 0.0, c, 0.0];
        case.h[3] = h;
        self.readings(&mut case, Flavour::Short, 0);
        case
    }

    /// A suspect element that the root refuses, exact in every step.
    pub fn hidden_from_root(&mut self) -> Case {
        let c = self.rng.power(-40, -22);
        self.hidden(c, 0.0, 1.0)
    }

    /// A zero row first, then a row that an indefinite start with a zero
    /// diagonal nearly cancels against its noise: rank 0.
    pub fn rank_zero(&mut self) -> Case {
        let mut case = self.bare(2, 2, 1);
        let s = self.rng.power(-6, 6);
        let left = self.rng.power(-30, -21);
        case.z = vec![zero(self.rng), 0.0, 1.0, 1.0];
        case.h = vec![s, 0.0, 0.0, s];
        let b = -0.5 * s * (1.0 - left);
        case.p_star = vec![0.0, b, b, 0.0];
        self.readings(&mut case, Flavour::Short, 0);
        case
    }

    /// The first row's F* comes from an indefinite start alone, so the
    /// root's F of it is 0 and its downdate returns early.
    pub fn early_return(&mut self) -> Case {
        let mut case = self.bare(2, 2, 1);
        let b = self.rng.power(-6, 6);
        let left = self.rng.power(-27, -21);
        case.z = vec![1.0, 1.0, 1.0, 3.0];
        case.h = vec![0.0, 0.0, 0.0, 2.0 * b * (1.0 + left)];
        case.p_star = vec![0.0, b, b, 0.0];
        self.readings(&mut case, Flavour::Short, 0);
        case
    }

    /// Diffuse states, a row that comes back: dust in P∞ along it.
    pub fn diffuse_again(&mut self) -> Case {
        let small = self.small();
        let m = self.rng.within(2, if small { 2 } else { 5 });
        let p = self.rng.within(2, if small { 2 } else { 4 });
        let n = if small { 1 } else { self.rng.within(1, 3) };
        let mut case = self.bare(p, m, n);
        let flavour = if small {
            Flavour::Short
        } else {
            Flavour::Plain
        };
        case.flags = vec![1; m];
        for i in 0..p {
            let again = i > 0 && self.rng.chance(3, 4);
            for j in 0..m {
                case.z[i * m + j] = if again { case.z[j] } else { self.near(flavour) };
            }
            case.h[i * p + i] = self.rng.pick(&[0.0, 1.0, 0.5]);
        }
        if self.rng.chance(1, 4) {
            case.t = self.transition(&case.flags.clone(), flavour);
        }
        self.readings(&mut case, flavour, 0);
        case
    }

    /// A diffuse covariance that shrinks below the tolerance in the last
    /// step, which no test sees.
    pub fn shrinks(&mut self) -> Case {
        let m = self.rng.within(1, 2);
        let n = self.rng.within(1, 2);
        let mut case = self.bare(1, m, n);
        case.flags = vec![1; m];
        let t = self.rng.power(-14, -7);
        case.t = diagonal(self.rng, m, |_, _| t);
        case.q = vec![self.rng.within(0, 2) as f64];
        case.h = vec![1.0];
        let share = self.rng.pick(&[8, 8, 4]);
        self.readings(&mut case, Flavour::Short, share);
        case
    }

    /// Two diffuse periods or more.
    pub fn long_diffuse(&mut self) -> Case {
        let m = self.size().min(3);
        let n = self.periods(m).max(2);
        let mut case = self.bare(1, m, n);
        case.flags = vec![1; m];
        case.z = vec![1.0; m];
        for i in 0..m.saturating_sub(1) {
            case.t[i * m + i + 1] = 1.0;
        }
        case.h = vec![1.0];
        case.q = vec![2.0];
        self.readings(&mut case, Flavour::Short, 3);
        case.y[0] = self.rng.gap();
        case
    }

    /// A number that sits exactly at one of the tolerances, where > and ≥
    /// part company.
    pub fn at_tolerance(&mut self) -> Case {
        let which = self.rng.below(5);
        self.at_tolerance_of(which)
    }

    /// The tolerance is chosen, 0 to 4.
    pub fn at_tolerance_of(&mut self, which: usize) -> Case {
        let s = pow2(2 * self.rng.within(0, 8) as i32 - 8);
        match which {
            // F against the share of the bound; the root would refuse.
            0 => self.hidden(0.5e-6 * s, 0.0, s),
            // F against 1e-14 of the reference, in a diffuse period.
            1 => {
                let mut case = self.bare(2, 2, 1);
                case.z = vec![1.0, 0.0, 1.0, 0.0];
                case.p_star[0] = s;
                case.flags[1] = 1;
                case.h[3] = fixed(1e-14, |h| s + h);
                self.readings(&mut case, Flavour::Short, 0);
                case
            }
            // The root's F against 1e-14 of the reference.
            2 => {
                let c = s * self.rng.power(-30, -25);
                let h = fixed(1e-14, |h| s + c + c + h);
                self.hidden(c, h, s)
            }
            // F* against 1e-10 of its scale.
            3 => self.at_rank_tolerance(),
            // The sum of squares of P∞ at 1e-10.
            _ => {
                let mut case = self.bare(1, 2, 2);
                let (x, w) = wash_roots(0.9 + 0.09 * self.rng.unit());
                case.flags = vec![1; 2];
                case.z = vec![1.0, 1.0];
                case.t = vec![x, 0.0, 0.0, w];
                case.h = vec![2.0];
                case.q = vec![2.0];
                case.y = vec![self.rng.gap(), self.near(Flavour::Short)];
                case
            }
        }
    }

    /// h - 2·b is exactly 1e-10 of 2·b + h.
    fn at_rank_tolerance(&mut self) -> Case {
        let mut case = self.bare(1, 2, 1);
        case.z = vec![1.0, 1.0];
        let step = pow2(-53);
        loop {
            let k = 900_800 + self.rng.below(900_000);
            let f = k as f64 * step;
            let scale = f / 1e-10;
            for near in -2i64..=2 {
                let s = f64::from_bits((scale.to_bits() as i64 + near) as u64);
                let h = ((s + f) * 0.5 / step).round() * step;
                let b = 0.5 * (h - f);
                if -b - b + h == f && 1e-10 * (b + b + h) == f {
                    case.p_star = vec![0.0, -b, -b, 0.0];
                    case.h = vec![h];
                    return case;
                }
            }
        }
    }

    /// A bound that is NaN because a zero meets an infinite standard
    /// deviation. Leaving the zero out would let the element in.
    pub fn bound_nan(&mut self) -> Case {
        let mut case = self.bare(2, 5, 2);
        let k = self.rng.power(-4, 4);
        let left = k * self.rng.power(-30, -22);
        case.z = vec![0.0, 0.0, 0.0, 0.0, 0.0, 1.0, 1.0, 1.0, 1.0, 0.0];
        case.h[0] = 1.0;
        let huge = 1.5e308;
        for (i, j, x) in [(0, 1, k), (2, 3, left - k), (4, 4, huge)] {
            case.p_star[i * 5 + j] = x;
            case.p_star[j * 5 + i] = x;
        }
        case.rr = vec![0.0, 0.0, 0.0, 0.0, 1.0];
        case.q = vec![huge];
        self.readings(&mut case, Flavour::Short, 0);
        case.y[0] = self.rng.gap();
        case.y[1] = self.rng.gap();
        case
    }
}

/// All inputs but the readings, to be made finite.
fn case_floats(case: &mut Case) -> impl Iterator<Item = &mut f64> {
    [
        &mut case.z,
        &mut case.zs,
        &mut case.h,
        &mut case.t,
        &mut case.ts,
        &mut case.rr,
        &mut case.q,
        &mut case.c,
        &mut case.d,
        &mut case.a1,
        &mut case.p_star,
    ]
    .into_iter()
    .flatten()
    .chain(case.y.iter_mut().filter(|x| x.is_infinite()))
}

/// A number h with h = share·of(h), rounding included.
pub(crate) fn fixed(share: f64, of: impl Fn(f64) -> f64) -> f64 {
    let mut h = 0.0;
    for _ in 0..20 {
        h = share * of(h);
    }
    h
}

/// x and w with (x·x)² + (w·w)² exactly 1e-10, each step rounded; x takes
/// this share of it.
fn wash_roots(share: f64) -> (f64, f64) {
    let square = |x: f64| (x * x) * (x * x);
    let x = (1e-10 * share).sqrt().sqrt();
    let w = (1e-10 - square(x)).sqrt().sqrt();
    assert_eq!(square(x) + square(w), 1e-10);
    (x, w)
}
