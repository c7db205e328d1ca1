//! Cases pointed at one slip each: a version that makes the slip gives
//! another answer on them. Chance alone hardly ever finds these.

use crate::case::Case;
use crate::figures;
use crate::makers::{fixed, Flavour, Maker};
use crate::offs;
use crate::rng::pow2;

/// Count of kinds.
pub const KINDS: usize = OFFS + offs::WAYS;
/// Kinds of lists: a short one that has as many numbers as there are periods,
/// one that is marked by another byte than 1; and a marked constant design.
pub const NUMBERS: usize = 24;
pub const OTHER_BYTE: usize = 25;
pub const CONSTANT: usize = 26;
/// Kinds that have a list of T.
pub const LISTS_OF_T: std::ops::Range<usize> = 28..CAUSES;
/// Of these: its step back, its steps forward, a short one in a marked call
/// that has as many numbers as there are periods, and what refusal 10 does
/// not see of it.
pub const BACK: usize = 28;
pub const FORWARD: usize = 29;
pub const T_NUMBERS: usize = 32;
pub const LATER_DRIVEN: usize = 37;
/// From this kind on: the causes of skips.
pub const CAUSES: usize = 41;
/// From this kind on: numbers that run off, or only seem to (`offs`).
pub const OFFS: usize = 48;

/// The slip that each kind is pointed at.
pub const SLIPS: [&str; KINDS] = [
    "a diffuse period's suspect element tested by replay",
    "F∞ at its tolerance accepted",
    "the diffuse root's F at its tolerance accepted",
    "F at 1e-6 of the reference taken as clear",
    "outer_sub multiplies through a zero",
    "abs_quad_form leaves out an inner zero",
    "a star root's downdate that does not return early",
    "the unresolved matrix does not go by T",
    "a star root's support from one row alone",
    "a diffuse update not counted as an update",
    "Potter's update in another order",
    "a star root with spare columns of zeros",
    "the logarithm's 1.5 not halved",
    "a listed design past n not checked",
    "4096 designs refused",
    "4097 designs let through",
    "a pivot below 0",
    "F at 1e-6 of the bound taken as clear",
    "F at 1e-14 of the reference not taken as below",
    "the star root's F at its tolerance accepted",
    "F* at its tolerance accepted",
    "P∞ at its tolerance taken as diffuse",
    "a list of n designs refused",
    "a list of n - 1 designs let through",
    "a list's numbers counted for its designs",
    "a marker of another byte than 1 not seen",
    "a marked constant design refused",
    "4097 designs let through by the marker",
    "the T of t in the step from t to t - 1",
    "the T of another period than t in the step from t to t + 1",
    "a list of n transitions refused",
    "a list of n - 1 transitions let through",
    "a list's numbers counted for its transitions",
    "a list of n - 1 transitions let through by the marker",
    "4096 transitions refused",
    "4097 transitions let through",
    "the first T not seen by refusal 10",
    "refusal 10 by a T after the first",
    "a listed T past n not checked",
    "no T let through, or two",
    "a T of a wrong length let through, listed or not",
    "an element below the dust line too not named for its scale",
    "an element that the dust test alone would take not named for its scale",
    "a scale that is not finite passed",
    "an infinite reference not taken as below",
    "a diffuse period's skips told as gaps",
    "a star root's NaN taken, or told as below",
    "one element's cause told of another",
    "an overflow by R·Q·R' alone not told",
    "a covariance at place n told",
    "a P∞ at place n told",
    "a P∞ that is off not told",
    "a P∞ told that the diffuse test has cleared",
    "a report taken back once P∞ is cleared",
    "a filtered covariance that is off not told",
    "an overflow by symmetrising alone not told",
    "a gain told that nobody stores",
    "an unresolved matrix told",
    "a smoothed covariance told",
    "a filtered mean that is off not told, or told of the covariances",
    "a mean at place n told",
    "an overflow by T alone not told",
    "an overflow by c alone not told",
    "an innovation told of a reading that is no news",
    "one report given for both",
    "refusal 12 with a report",
];

impl Maker<'_> {
    pub fn pointed(&mut self, kind: usize) -> Case {
        match kind {
            0 => self.suspect_in_diffuse(),
            1 => self.f_inf_at_tolerance(),
            2 => self.f_root_at_tolerance(),
            3 => self.at_reference(),
            4 => self.infinite_gain(),
            5 => self.unresolved_nan(),
            6 => self.early_return_shows(),
            7 => self.unresolved_grows(),
            8 => self.two_supports(),
            9 => self.diffuse_then_dust(),
            10 => self.infinite_downdate(1),
            11 => self.infinite_downdate(2),
            12 => self.logarithm_at_half(),
            13 => self.spoilt_past_the_end(),
            14 => {
                let repeats = self.rng.maybe_marker(1, 2);
                self.long_list(0, repeats)
            }
            15 => self.long_list(1, 0),
            16 => self.negative_pivot(),
            17..22 => self.at_tolerance_of(kind - 17),
            22 => self.exact_list(),
            23 => self.short_list(),
            NUMBERS => self.more_numbers_than_periods(),
            OTHER_BYTE => {
                let mut case = self.short_list();
                case.repeats = self.rng.pick(&[2, 16, 128, 254, 255]);
                case
            }
            CONSTANT => self.marked_constant(),
            27 => {
                let repeats = self.rng.marker();
                self.long_list(1, repeats)
            }
            BACK if self.small() || self.rng.chance(1, 2) => figures::led_into(),
            BACK | 30 => {
                let m = self.rng.within(1, 2);
                self.exact_transitions(m)
            }
            FORWARD => self.exact_transitions(2),
            31 => self.short_transitions(),
            T_NUMBERS => {
                // A matrix has four numbers.
                let mut case = self.exact_transitions(2);
                case.ts.truncate(4 * self.rng.within(1, case.n - 1));
                case.repeats = self.rng.marker();
                case
            }
            33 => {
                let mut case = self.short_transitions();
                case.repeats = self.rng.marker();
                case
            }
            34 => self.long_list_t(0),
            35 => self.long_list_t(1),
            36 => self.driven_by(0),
            LATER_DRIVEN => {
                let at = self.rng.within(1, 2);
                self.driven_by(at)
            }
            38 => {
                let mut case = self.exact_transitions(2);
                let numbers = 4 * self.rng.within(1, 2);
                case.ts.resize(4 * case.n + numbers, 1.0);
                let last = case.ts.len() - self.rng.within(1, numbers);
                case.ts[last] = self.rng.gap();
                case
            }
            39 => {
                let mut case = self.exact_transitions(2);
                match self.rng.chance(1, 2) {
                    true => case.ts.clear(),
                    false => case.t = case.ts[..4].to_vec(),
                }
                case
            }
            40 => {
                let mut case = self.exact_transitions(2);
                let one = self.rng.pick(&[-1, 1]);
                if self.rng.chance(1, 2) {
                    case.t = case.ts[..4].to_vec();
                    case.ts.clear();
                }
                let part = if case.ts.is_empty() {
                    &mut case.t
                } else {
                    &mut case.ts
                };
                part.resize(part.len().wrapping_add_signed(one), 1.0);
                case
            }
            CAUSES => self.small_and_below(),
            42 => {
                let noise = self.rng.power(-43, -32);
                self.cancelling(noise)
            }
            43 => self.scale_off(),
            44 => self.infinite_reference(),
            45 => self.skips_of_a_diffuse_period(),
            46 => self.nan_by_root(),
            47 => self.every_kind(),
            _ => self.runs_off(kind - OFFS),
        }
    }

    pub(crate) fn short_readings(&mut self, case: &mut Case) {
        self.readings(case, Flavour::Short, 0);
    }

    /// Readings of which none is 0, so that every step shows in the means.
    fn some_readings(&mut self, case: &mut Case) {
        for y in &mut case.y {
            *y = self.rng.within(1, 12) as f64 * 0.5;
        }
    }

    /// f is 2·c, the root's F is 0, and one state more is diffuse.
    fn suspect_in_diffuse(&mut self) -> Case {
        let c = self.rng.power(-40, -22);
        let mut case = self.bare(2, 4, 1);
        case.z = vec![1.0, 0.0, 0.0, 0.0, 1.0, 1.0, 1.0, 0.0];
        case.p_star[0] = 1.0;
        case.p_star[4 + 2] = c;
        case.p_star[8 + 1] = c;
        case.flags[3] = 1;
        self.short_readings(&mut case);
        case
    }

    /// Both states flagged go to (1, g), a third to s: F∞ is exactly 1e-10
    /// of its scale.
    fn f_inf_at_tolerance(&mut self) -> Case {
        loop {
            let g = 0.5 + self.rng.unit();
            let w = -(1.0 - 1.4e-5) / g;
            let mut s = 1.4e-5;
            for _ in 0..200 {
                let (f, scale) = f_inf_of(g, w, s);
                let want = 1e-10 * scale;
                if f == want {
                    let mut case = self.bare(1, 3, 2);
                    case.z = vec![1.0, w, 1.0];
                    case.t = vec![1.0, 0.0, 0.0, g, 0.0, 0.0, 0.0, 0.0, s];
                    case.flags = vec![1; 3];
                    case.h = vec![1.0];
                    case.q = vec![1.0];
                    case.y = vec![self.rng.gap(), self.rng.within(1, 4) as f64];
                    return case;
                }
                let next = (s * s + (want - f)).max(0.0).sqrt();
                s = if next == s { s.next_up() } else { next };
            }
        }
    }

    /// The first row resolves one state; the second sees the other so weakly
    /// that the root's F is exactly 1e-14 of what was there.
    fn f_root_at_tolerance(&mut self) -> Case {
        loop {
            let x = 0.5 + self.rng.unit();
            let start = (1e-14 * (x * x + 1e-14 * (x * x))).sqrt();
            for off in -3i64..=3 {
                let w = f64::from_bits((start.to_bits() as i64 + off) as u64);
                if w * w == 1e-14 * (x * x + w * w) {
                    let mut case = self.bare(2, 2, 1);
                    case.z = vec![1.0, 0.0, x, w];
                    case.flags = vec![1; 2];
                    case.h = vec![1.0, 0.0, 0.0, 1.0];
                    self.short_readings(&mut case);
                    return case;
                }
            }
        }
    }

    /// Two pins, so that the bound lies above the reference; f is exactly
    /// 1e-6 of the reference, and the root's F is 0.
    fn at_reference(&mut self) -> Case {
        let s = self.rng.power(-6, 6);
        let c = fixed(0.5e-6, |c| s + c + c + s);
        let mut case = self.bare(3, 4, 1);
        case.z = vec![1.0, 0.0, 0.0, 0.0, 0.0, 0.0, 0.0, 1.0, 1.0, 1.0, 1.0, 1.0];
        for (i, j, x) in [(0, 0, s), (3, 3, s), (1, 2, c), (2, 1, c)] {
            case.p_star[i * 4 + j] = x;
        }
        self.short_readings(&mut case);
        case
    }

    /// An infinite F* that is accepted: a gain of 0 beside an infinite
    /// vector.
    fn infinite_gain(&mut self) -> Case {
        let mut case = self.bare(2, 2, 1);
        case.z = vec![1e-300, 1e10, 0.0, 1.0];
        let k = self.rng.power(-1, 1);
        case.p_star = vec![1.0, 1e300 * k, 1e300 * k, 1.0];
        case.h[3] = self.rng.power(-3, 3);
        self.short_readings(&mut case);
        case
    }

    /// What was resolved goes by T into an infinite mirrored pair of the
    /// unresolved matrix, which a row sees only through a zero.
    fn unresolved_nan(&mut self) -> Case {
        let mut case = self.bare(1, 3, 2);
        case.z = vec![];
        case.zs = vec![0.0, 0.0, 1.0, 1.0, 0.0, 0.0];
        let near = self.rng.power(0, 16);
        case.t = vec![1.0, 0.0, near, 0.0, 1.0, f64::MAX, 0.0, 0.0, 0.0];
        if near < 2.0 {
            case.t[2] = 4.0;
        }
        case.flags = vec![1; 3];
        self.short_readings(&mut case);
        case
    }

    /// The second row's F* is seen by the covariance alone; the root keeps a
    /// column, and its F of that row is 0.
    fn early_return_shows(&mut self) -> Case {
        let c = self.rng.power(-30, -24);
        let mut case = self.bare(3, 3, 1);
        case.z = vec![1.0, 0.0, 0.0, 0.0, 1.0, 1.0, 1.0, 1.0, 1.0];
        case.p_star = vec![1.0, 0.0, 0.0, 0.0, 0.0, c, 0.0, c, 0.0];
        case.h[8] = c * self.rng.power(-4, 2);
        self.short_readings(&mut case);
        case
    }

    /// A resolved state goes hugely into one that is not.
    fn unresolved_grows(&mut self) -> Case {
        let mut case = self.bare(1, 2, 2);
        case.z = vec![];
        case.zs = vec![0.0, 1.0, 1.0, 0.0];
        case.t = vec![1.0, self.rng.power(25, 40), 0.0, 0.0];
        case.flags = vec![1; 2];
        case.h = vec![self.rng.pick(&[0.0, 1.0])];
        self.short_readings(&mut case);
        case
    }

    /// A suspect row, and a last row that looks at another state.
    fn two_supports(&mut self) -> Case {
        let mut case = self.bare(3, 2, 1);
        case.z = vec![1.0, 0.0, 1.0, 0.0, 0.0, 1.0];
        case.p_star = vec![1.0, 0.0, 0.0, 1.0];
        case.h[0] = self.rng.power(-45, -25);
        case.h[8] = 1.0;
        if self.rng.chance(1, 2) {
            // The last row first: a suspect element on the other state.
            case.z.rotate_right(2);
            case.h = vec![1.0, 0.0, 0.0, 0.0, case.h[0], 0.0, 0.0, 0.0, 0.0];
        }
        self.short_readings(&mut case);
        case
    }

    /// A diffuse update leaves dust of a covariance that noise has built up.
    fn diffuse_then_dust(&mut self) -> Case {
        let mut case = self.bare(2, 1, 2);
        case.z = vec![1.0, 1.0];
        case.flags = vec![1];
        case.q = vec![1.0];
        case.h[0] = self.rng.power(-52, -48);
        self.short_readings(&mut case);
        case.y[0] = self.rng.gap();
        case.y[1] = self.rng.gap();
        case
    }

    /// A root's downdate whose factor overflows: the order of its product,
    /// and any spare column, shows.
    fn infinite_downdate(&mut self, m: usize) -> Case {
        let mut case = self.bare(2, m, 1);
        case.z = vec![1.0; 2 * m];
        // Of rank one, exactly: all entries the same power of four.
        let s = pow2(-1030 - 2 * self.rng.below(2) as i32);
        case.p_star.fill(s);
        case.h[3] = pow2(-1054 - self.rng.below(6) as i32);
        self.short_readings(&mut case);
        case
    }

    /// F* is 1.5 times a power of two, one of those at which it shows.
    fn logarithm_at_half(&mut self) -> Case {
        let mut case = self.bare(1, 1, 1);
        let s = pow2(self.rng.pick(&[-356, -33, -23, 1, 5]));
        case.p_star = vec![s];
        case.h = vec![0.5 * s];
        case.y = vec![0.0];
        case
    }

    /// Not finite, in a design that no period uses.
    fn spoilt_past_the_end(&mut self) -> Case {
        let mut case = self.bare(1, 2, 2);
        case.z = vec![];
        case.zs = vec![1.0, 1.0, 1.0, 0.0, 1.0, 1.0];
        case.zs[4 + self.rng.below(2)] = self.rng.gap();
        case.repeats = self.rng.maybe_marker(1, 2);
        case.h = vec![1.0];
        case
    }

    /// A case of one element and one or two states, with a list of as many
    /// designs as it has periods, no two alike.
    fn exact_list(&mut self) -> Case {
        let m = self.rng.within(1, 2);
        let n = self.rng.within(2, 4);
        let mut case = self.bare(1, m, n);
        case.list(n);
        for (k, x) in case.zs.iter_mut().enumerate() {
            *x = (k + 1) as f64 * 0.25;
        }
        case.p_star[0] = 1.0;
        case.h = vec![1.0];
        self.short_readings(&mut case);
        case
    }

    /// The same, with a design less.
    fn short_list(&mut self) -> Case {
        let mut case = self.exact_list();
        case.zs.truncate((case.n - 1) * case.m);
        case
    }

    /// A list that falls short, with as many numbers as there are periods or
    /// more: a design has two.
    fn more_numbers_than_periods(&mut self) -> Case {
        let n = self.rng.within(2, 4);
        let mut case = self.bare(1, 2, n);
        let least = n.div_ceil(2);
        case.list(self.rng.within(least, n - 1));
        case.h = vec![1.0];
        case
    }

    /// The marker is void.
    fn marked_constant(&mut self) -> Case {
        let mut case = self.exact_list();
        case.z = case.zs[..case.m].to_vec();
        case.zs.clear();
        case.repeats = self.rng.marker();
        case
    }

    /// A case of one element and m states, with a list of as many transitions
    /// as it has periods, no two alike.
    fn exact_transitions(&mut self, m: usize) -> Case {
        let n = self.rng.within(2, if self.small() { 3 } else { 4 });
        let mut case = self.bare(1, m, n);
        case.list_t(n);
        for (k, one) in case.ts.chunks_mut(m * m).enumerate() {
            one.iter_mut().for_each(|x| *x += (k + 1) as f64 * 0.25);
        }
        // With a period left after the diffuse ones.
        if n > m && self.rng.chance(1, 2) {
            case.flags = vec![1; m];
        } else {
            case.p_star[0] = 1.0;
        }
        case.h = vec![1.0];
        case.q = vec![0.5];
        self.some_readings(&mut case);
        case
    }

    /// The same, with a transition less.
    fn short_transitions(&mut self) -> Case {
        let m = self.rng.within(1, 2);
        let mut case = self.exact_transitions(m);
        case.ts.truncate((case.n - 1) * m * m);
        case
    }

    /// The second state is flagged, and in this transition alone, of three,
    /// it drives the first. The third may be past n.
    fn driven_by(&mut self, at: usize) -> Case {
        let n = self.rng.within(2, 3);
        let mut case = self.bare(1, 2, n);
        case.list_t(3);
        case.ts[4 * at + 1] = self.rng.pick(&[0.5, -1.0, 2.0]);
        case.p_star[0] = 1.0;
        case.flags[1] = 1;
        case.h = vec![1.0];
        self.some_readings(&mut case);
        case
    }

    /// The root stops at a diagonal below 0; F* is seen by the covariance.
    fn negative_pivot(&mut self) -> Case {
        let mut case = self.bare(2, 3, 1);
        let c = self.rng.power(-34, -25);
        let b = self.rng.power(-20, -18);
        case.z = vec![1.0, 0.0, 0.0, 1.0, 1.0, 1.0];
        case.p_star = vec![1.0, b, 0.0, b, 0.0, c, 0.0, c, 0.0];
        self.short_readings(&mut case);
        case
    }
}

impl Maker<'_> {
    /// One row is usual. What the other sees cancels but for this share of
    /// noise: F* is below 1e-10 of its scale, four times as large as what the
    /// noise is a share of. Either may come first.
    fn cancelling(&mut self, noise: f64) -> Case {
        let mut case = self.bare(2, 3, 1);
        let s = self.rng.power(-6, 6);
        case.z = vec![1.0, 0.0, 0.0, 0.0, 1.0, 1.0];
        case.p_star = vec![1.0, 0.0, 0.0, 0.0, s, -s, 0.0, -s, s];
        case.h[3] = s * noise;
        if self.rng.chance(1, 2) {
            case.z.rotate_left(3);
            case.h.swap(0, 3);
        }
        self.short_readings(&mut case);
        case
    }

    /// Behind a usual element, F* is 0, or so small that both its scale and
    /// the reference are too large for it.
    fn small_and_below(&mut self) -> Case {
        if self.rng.chance(1, 2) {
            let mut case = self.bare(2, 1, 1);
            case.z = vec![1.0, self.rng.pick(&[1.0, -2.0, 0.5])];
            case.p_star = vec![self.rng.power(-6, 6)];
            self.short_readings(&mut case);
            return case;
        }
        let noise = self.rng.power(-60, -45);
        let mut case = self.cancelling(noise);
        if case.h[0] != 0.0 {
            case.z.rotate_left(3);
            case.h.swap(0, 3);
        }
        case
    }

    /// One row is usual. The other is so large that its scale is infinite, or
    /// NaN where what it sees is known; F* is infinite, or its noise alone.
    fn scale_off(&mut self) -> Case {
        let mut case = self.bare(2, 2, 1);
        let large = self.rng.power(512, 600);
        case.z = vec![large, 0.0, 0.0, 1.0];
        case.p_star[0] = self.rng.pick(&[0.0, 1.0]);
        case.p_star[3] = 1.0;
        case.h = vec![self.rng.power(-9, 9), 0.0, 0.0, 1.0];
        if self.rng.chance(1, 2) {
            case.z.rotate_left(2);
            case.h.swap(0, 3);
        }
        self.short_readings(&mut case);
        case
    }

    /// A pinned state that a second row sees so largely that the reference
    /// overflows, and its scale, which is its noise, does not.
    fn infinite_reference(&mut self) -> Case {
        let mut case = self.bare(2, 1, 1);
        case.z = vec![1.0, self.rng.power(300, 500)];
        case.p_star = vec![self.rng.power(500, 1000)];
        case.h[3] = self.rng.power(-500, 500);
        self.short_readings(&mut case);
        case
    }

    /// A known state is pinned while another is diffuse. Of two rows more one
    /// sees it with noise below the dust line, one without.
    fn skips_of_a_diffuse_period(&mut self) -> Case {
        let mut case = self.bare(3, 2, 1);
        let s = self.rng.power(-6, 6);
        case.z = [1.0, 0.0].repeat(3);
        case.p_star[0] = s;
        case.flags[1] = 1;
        let dusty = self.rng.within(1, 2);
        case.h[dusty * 4] = s * self.rng.power(-60, -47);
        self.short_readings(&mut case);
        case
    }

    /// A suspect element; the star root has an infinite pivot, by a state that
    /// only the third row sees, whose reading is a gap.
    fn nan_by_root(&mut self) -> Case {
        let mut case = self.bare(3, 2, 2);
        case.z = vec![1.0, 0.0, 1.0, 0.0, 0.0, 1.0];
        case.t[3] = self.rng.power(512, 1000);
        case.p_star = vec![1.0, 0.0, 0.0, 1.0];
        case.h[0] = self.rng.power(-45, -21);
        self.short_readings(&mut case);
        for k in [0, 1, 2, 5] {
            case.y[k] = self.rng.gap();
        }
        case
    }

    /// Every kind: a diffuse element between gaps; then a pin, and behind it
    /// three rows in any order, each skipped for another cause.
    fn every_kind(&mut self) -> Case {
        let mut case = self.bare(5, 4, 2);
        let (s, c) = (self.rng.power(-6, 6), self.rng.power(-40, -22));
        let noise = self.rng.power(-60, -48);
        let mut skipped = [
            ([1.0, 0.0, 0.0], 0.0),
            ([1.0, 0.0, 0.0], s * noise),
            ([1.0, 1.0, 1.0], 0.0),
        ];
        let turns = self.rng.below(3);
        skipped.rotate_left(turns);
        if self.rng.chance(1, 2) {
            skipped.swap(0, 1);
        }
        // The pin is the second row, the diffuse element the first.
        case.z[..8].copy_from_slice(&[0.0, 0.0, 0.0, 1.0, 1.0, 0.0, 0.0, 0.0]);
        case.h[0] = 1.0;
        for (i, (row, h)) in (2..).zip(skipped) {
            case.z[4 * i..4 * i + 3].copy_from_slice(&row);
            case.z[4 * i + 3] = 0.0;
            case.h[6 * i] = h;
        }
        for (i, j, x) in [(0, 0, s), (1, 2, s * c), (2, 1, s * c)] {
            case.p_star[i * 4 + j] = x;
        }
        case.flags[3] = 1;
        self.short_readings(&mut case);
        for k in 1..6 {
            case.y[k] = self.rng.gap();
        }
        case
    }
}

/// F∞ and its scale for the row (1, w, 1) once P∞ = I has gone by
/// T = [[1, 0, 0], [g, 0, 0], [0, 0, s]], each step rounded.
fn f_inf_of(g: f64, w: f64, s: f64) -> (f64, f64) {
    let (gg, ss) = (g * g, s * s);
    let m0 = 1.0 + g * w;
    let m1 = g + gg * w;
    let f = m0 + w * m1 + ss;
    let a = w.abs();
    let scale = 1.0 + a * g + a * g + a * a * gg + ss;
    (f, scale)
}
