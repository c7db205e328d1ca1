//! A case: what a caller hands in and lends. Running one gives what both
//! calls must answer and write.

use parts::{bad_length, needed, transitions_short};
use parts::{Answer, Inputs, Outcome, Outputs, Smoothed};
use parts::{BELOW_DUST, FILTER_PARTS, KINDS, MAX_PERIODS, MAX_SIZE, SMOOTH_PARTS, TOO_SMALL};
use tsecon_ssm_probed::probe::{self, Branch};

use crate::kinds::{self, Records};
use crate::marks;
use crate::refuse::{number, ORDER, T_REACH};

/// Every number of a lent output part, before a call.
pub const PATTERN: u64 = 0xA5A5_A5A5_A5A5_A5A5;
/// Every kind of a lent output part, before a call.
pub const PATTERN_BYTE: u8 = 0xA5;
/// Every NaN of an expectation.
pub const NAN: u64 = 0x7FF8_0000_0000_0000;

/// Count of an answer's numbers.
pub const ANSWER: usize = 6;

/// Count of the inputs.
pub const INPUTS: usize = 13;

/// Their names, in order.
pub const INPUT_NAMES: [&str; INPUTS] = [
    "z", "zs", "h", "t", "ts", "rr", "q", "c", "d", "a1", "p_star", "flags", "y",
];
/// Names of the thirteen outputs, in order.
pub const OUTPUT_NAMES: [&str; SMOOTH_PARTS] = [
    "pred_mean",
    "pred_cov",
    "pred_inf",
    "filt_mean",
    "filt_cov",
    "kinds",
    "v",
    "f_star",
    "f_inf",
    "m_star",
    "m_inf",
    "sm_mean",
    "sm_cov",
];

/// What a caller hands in, and how much is lent for the outputs.
#[derive(Debug, Clone, Default)]
pub struct Case {
    pub p: usize,
    pub m: usize,
    pub r: usize,
    pub n: usize,
    pub z: Vec<f64>,
    pub zs: Vec<f64>,
    /// The marker: the last design repeats.
    pub repeats: u8,
    pub h: Vec<f64>,
    pub t: Vec<f64>,
    pub ts: Vec<f64>,
    pub rr: Vec<f64>,
    pub q: Vec<f64>,
    pub c: Vec<f64>,
    pub d: Vec<f64>,
    pub a1: Vec<f64>,
    pub p_star: Vec<f64>,
    pub flags: Vec<u8>,
    pub y: Vec<f64>,
    pub lent: [usize; SMOOTH_PARTS],
    /// Refusals that were made to hold together.
    pub pair: Option<(usize, usize)>,
}

/// The lent output parts.
#[derive(Debug, Clone)]
pub struct Buffers {
    pub floats: [Vec<f64>; SMOOTH_PARTS - 1],
    pub kinds: Vec<u8>,
}

impl Buffers {
    /// Parts of the given lengths, filled with the pattern.
    pub fn patterned(lent: &[usize; SMOOTH_PARTS]) -> Self {
        let floats = std::array::from_fn(|k| {
            let len = lent[if k < 5 { k } else { k + 1 }];
            vec![f64::from_bits(PATTERN); len]
        });
        Buffers {
            floats,
            kinds: vec![PATTERN_BYTE; lent[5]],
        }
    }

    pub fn lend(&mut self) -> (Outputs<'_>, Smoothed<'_>) {
        let [pred_mean, pred_cov, pred_inf, filt_mean, filt_cov, v, f_star, f_inf, m_star, m_inf, sm_mean, sm_cov] =
            &mut self.floats;
        let o = Outputs {
            pred_mean,
            pred_cov,
            pred_inf,
            filt_mean,
            filt_cov,
            kinds: &mut self.kinds,
            v,
            f_star,
            f_inf,
            m_star,
            m_inf,
        };
        (o, Smoothed { sm_mean, sm_cov })
    }

    /// Part k (0 to 12) as words; NaNs as they are.
    pub fn words(&self, k: usize) -> Vec<u64> {
        match k {
            5 => self.kinds.iter().map(|&b| u64::from(b)).collect(),
            _ => {
                let part = &self.floats[if k < 5 { k } else { k - 1 }];
                part.iter().map(|x| x.to_bits()).collect()
            }
        }
    }
}

/// A float's bits, with all NaNs as one.
pub fn one_nan(bits: u64) -> u64 {
    if f64::from_bits(bits).is_nan() {
        NAN
    } else {
        bits
    }
}

/// What both calls must answer, and what they must leave in the lent parts.
#[derive(Debug, Clone)]
pub struct Expected {
    pub filter: Outcome,
    pub smooth: Outcome,
    /// What is written of each part, from its start, NaNs as one; empty
    /// where nothing is written. The rest keeps the pattern.
    pub written: [Vec<u64>; SMOOTH_PARTS],
    /// How often each mark was met.
    pub hits: [u64; marks::COUNT],
}

impl Case {
    pub fn inputs(&self) -> Inputs<'_> {
        Inputs {
            p: self.p,
            m: self.m,
            r: self.r,
            n: self.n,
            z: &self.z,
            zs: &self.zs,
            repeats: self.repeats,
            h: &self.h,
            t: &self.t,
            ts: &self.ts,
            rr: &self.rr,
            q: &self.q,
            c: &self.c,
            d: &self.d,
            a1: &self.a1,
            p_star: &self.p_star,
            flags: &self.flags,
            y: &self.y,
        }
    }

    /// The inputs as words, in order.
    pub fn input_words(&self) -> [Vec<u64>; INPUTS] {
        let f = |x: &[f64]| x.iter().map(|v| v.to_bits()).collect();
        [
            f(&self.z),
            f(&self.zs),
            f(&self.h),
            f(&self.t),
            f(&self.ts),
            f(&self.rr),
            f(&self.q),
            f(&self.c),
            f(&self.d),
            f(&self.a1),
            f(&self.p_star),
            self.flags.iter().map(|&b| u64::from(b)).collect(),
            f(&self.y),
        ]
    }

    /// The constant design as a list, so many times over.
    pub fn list(&mut self, count: usize) {
        self.zs = std::mem::take(&mut self.z).repeat(count);
    }

    /// How many designs are listed. Sizes must be in their ranges.
    pub fn listed(&self) -> usize {
        self.zs.len() / (self.p * self.m)
    }

    /// The constant T as a list, so many times over.
    pub fn list_t(&mut self, count: usize) {
        self.ts = std::mem::take(&mut self.t).repeat(count);
    }

    /// How many transitions are listed. Sizes must be in their ranges.
    pub fn listed_t(&self) -> usize {
        self.ts.len() / (self.m * self.m)
    }

    /// Whether the sizes are in their ranges.
    pub fn sized(&self) -> bool {
        let sizes = [self.p, self.m, self.r];
        let small = sizes.iter().all(|k| (1..=MAX_SIZE).contains(k));
        small && (1..=MAX_PERIODS).contains(&self.n)
    }

    /// The case with its last listed transition again, up to n: what no
    /// stretch within the list's reach can tell from it.
    pub fn reaching(&self) -> Case {
        let mut whole = self.clone();
        if self.sized() && self.listed_t() > 0 {
            let (count, size) = (self.listed_t(), self.m * self.m);
            let last = &self.ts[(count - 1) * size..count * size];
            (count..self.n).for_each(|_| whole.ts.extend(last));
        }
        whole
    }

    /// Lends exactly what is needed. Sizes must be in their ranges.
    pub fn lend_needed(&mut self) {
        self.lent = needed(self.p, self.m, self.n);
    }
}

/// An answer as words, with all NaNs as one: log-likelihood, d_diffuse,
/// heard, news, cov_off, mean_off.
pub fn answer_words(a: &Answer) -> [u64; ANSWER] {
    [
        one_nan(a.loglik.to_bits()),
        a.d_diffuse as u64,
        a.heard as u64,
        a.news as u64,
        a.cov_off as u64,
        a.mean_off as u64,
    ]
}

/// Same bits, with all NaNs as one.
pub fn same_answer(a: &Outcome, b: &Outcome) -> bool {
    match (a, b) {
        (Ok(a), Ok(b)) => answer_words(a) == answer_words(b),
        (Err(a), Err(b)) => a == b,
        _ => false,
    }
}

/// What the two reports must be, the covariances' and the means', by the
/// first places that are not finite in the filter's parts. Nothing of the
/// call's own reckoning is used.
pub fn reports<P: AsRef<[u64]>>(parts: &[P], m: usize, n: usize) -> (usize, usize) {
    let off = |w: &u64| !f64::from_bits(*w).is_finite();
    let first = |part: &P, width: usize| {
        let place = part.as_ref()[..n * width].iter().position(off)?;
        Some(place / width + 1)
    };
    let [pred_mean, pred_cov, pred_inf, filt_mean, filt_cov, ..] = parts else {
        unreachable!("five parts of moments");
    };
    let cov = [pred_cov, pred_inf, filt_cov].map(|part| first(part, m * m));
    let mean = [pred_mean, filt_mean].map(|part| first(part, m));
    let least = |of: &[Option<usize>]| of.iter().flatten().min().copied().unwrap_or(0);
    (least(&cov), least(&mean))
}

/// The records among the filter's parts.
pub fn records<P: AsRef<[u64]>>(parts: &[P]) -> Records<'_> {
    let part = |k: usize| parts[k].as_ref();
    Records {
        kinds: part(5),
        numbers: [part(6), part(7), part(8), part(9), part(10)],
    }
}

/// The branch by which an element comes to its kind, for each kind in order.
const COME_BY: [Branch; KINDS] = [
    Branch::Gap,
    Branch::Usual,
    Branch::Diffuse,
    Branch::Scale,
    Branch::Below,
    Branch::SuspectRefused,
];

/// Whether a call with this outcome writes.
pub fn writes(o: &Outcome) -> bool {
    matches!(o, Ok(_) | Err(12))
}

/// Only the branches that the filter's call takes.
pub fn probe_hits(case: &Case) -> [u64; probe::BRANCHES] {
    let mut b = Buffers::patterned(&case.lent);
    let (mut o, _) = b.lend();
    probe::take();
    let _ = tsecon_ssm_probed::filter_call(&case.inputs(), &mut o);
    probe::take()
}

/// Runs both calls, with and without probes, and checks that they agree
/// with each other and keep the tails.
pub fn run(case: &Case) -> Expected {
    let i = case.inputs();

    let mut counted = Buffers::patterned(&case.lent);
    probe::take();
    let counted_outcome = tsecon_ssm_probed::filter_call(&i, &mut counted.lend().0);
    let branch = probe::take();

    let mut fb = Buffers::patterned(&case.lent);
    let filter = tsecon_ssm::filter_call(&i, &mut fb.lend().0);
    assert!(same_answer(&filter, &counted_outcome));

    let mut sb = Buffers::patterned(&case.lent);
    let smooth = {
        let (mut o, mut s) = sb.lend();
        tsecon_ssm::smooth_call(&i, &mut o, &mut s)
    };

    let mut written: [Vec<u64>; SMOOTH_PARTS] = Default::default();
    for (k, part) in written.iter_mut().enumerate() {
        let (f, s) = (fb.words(k), sb.words(k));
        let pattern = if k == 5 {
            u64::from(PATTERN_BYTE)
        } else {
            PATTERN
        };
        let need = |wrote: bool| {
            if wrote {
                needed(case.p, case.m, case.n)[k]
            } else {
                0
            }
        };
        let f_need = need(writes(&filter) && k < FILTER_PARTS);
        let s_need = need(writes(&smooth));
        assert!(f[f_need..].iter().all(|&w| w == pattern), "tail of {k}");
        assert!(s[s_need..].iter().all(|&w| w == pattern), "tail of {k}");
        assert_eq!(f, counted.words(k), "probes must not show");
        if f_need > 0 && s_need > 0 {
            assert_eq!(f, s, "both calls write the same filter parts");
        }
        let from = if k < FILTER_PARTS { &f } else { &s };
        let len = if k < FILTER_PARTS { f_need } else { s_need };
        *part = from[..len].iter().map(|&w| one_nan(w)).collect();
    }

    if let Ok(a) = filter {
        let wanted = reports(&written[..5], case.m, case.n);
        assert_eq!((a.cov_off, a.mean_off), wanted, "the reports");
        assert!(smooth.is_err() || same_answer(&filter, &smooth));
        let broken = kinds::broken(&records(&written), &case.y, a.heard as u64, a.news as u64);
        assert_eq!(broken, None, "the records");
        let taken = COME_BY.map(|b| branch[b as usize]);
        assert_eq!(kinds::counts(&written[5]), taken, "the kinds by branch");
    }
    if matches!(filter, Err(12)) {
        assert_eq!(kinds::not_blank(&written[5]), None);
    }

    let mut e = Expected {
        filter,
        smooth,
        written,
        hits: [0; marks::COUNT],
    };
    e.hits[..branch.len()].copy_from_slice(&branch);
    mark(case, &mut e);
    e
}

/// The marks that show in the inputs, the outputs and the answer.
fn mark(case: &Case, e: &mut Expected) {
    let mut set = |k: usize, b: bool| e.hits[k] = u64::from(b);
    let i = case.inputs();
    // Of the two tests that give 2, the one that is judged first has to pass.
    let by_reach = || !bad_length(&i, &case.lent[..FILTER_PARTS]) && transitions_short(&i, i.n);
    for test in ORDER {
        let given = matches!(e.filter, Err(k) if k as usize == number(test));
        set(
            marks::refusal(test),
            given && (test != T_REACH || by_reach()),
        );
    }
    set(marks::SMOOTH_ONLY, e.filter.is_ok() && e.smooth.is_err());
    let Ok(answer) = e.filter else {
        return;
    };
    set(marks::D_DIFFUSE, answer.d_diffuse > 1);
    let diffuse = &e.written[5][..answer.d_diffuse * case.p];
    for (mark, kind) in [
        (marks::SCALE_DIFFUSE, TOO_SMALL),
        (marks::BELOW_DIFFUSE, BELOW_DUST),
    ] {
        set(mark, diffuse.contains(&u64::from(kind)));
    }
    set(marks::ALL_GAPS, answer.heard == 0);
    set(marks::COV_OFF, answer.cov_off > 0);
    set(marks::MEAN_OFF, answer.mean_off > 0);
    let floats = || {
        let parts = e.written.iter().enumerate().filter(|(k, _)| *k != 5);
        parts.flat_map(|(_, w)| w.iter().map(|&b| f64::from_bits(b)))
    };
    set(marks::INFINITY, floats().any(|x| x.is_infinite()));
    set(marks::NAN, floats().any(|x| x.is_nan()));
    set(
        marks::MINUS_ZERO,
        floats().any(|x| x == 0.0 && x.is_sign_negative()),
    );
    set(marks::SUBNORMAL, floats().any(|x| x.is_subnormal()));
    let last = &e.written[2][case.n * case.m * case.m..];
    let last: Vec<f64> = last.iter().map(|&b| f64::from_bits(b)).collect();
    let some = last.iter().any(|&x| x != 0.0);
    let size: f64 = last.iter().map(|x| x * x).sum();
    set(marks::PLACE_N, some);
    set(marks::PLACE_N_BELOW, some && size <= 1e-10);
    let listed = case.listed();
    let short = listed > 0 && listed < case.n;
    set(marks::LIST_SHORT, short);
    set(marks::LIST_LONG, listed > case.n);
    set(marks::LIST_EXACT, listed == case.n);
    set(marks::MARKED_IN_VAIN, case.repeats != 0 && !short);
    let listed = case.listed_t();
    set(marks::T_LONG, listed > case.n);
    set(marks::T_EXACT, listed == case.n);
    let steps = || case.ts.chunks(case.m * case.m).take(case.n);
    let varies = steps().zip(steps().skip(1)).any(|(a, b)| a != b);
    set(marks::T_VARIES, varies && e.smooth.is_ok());
    let need = needed(case.p, case.m, case.n);
    set(
        marks::TAIL,
        (0..SMOOTH_PARTS).any(|k| case.lent[k] > need[k]),
    );
    let flagged = case.flags.iter().filter(|&&f| f != 0).count();
    set(marks::KNOWN, flagged == 0);
    set(marks::ALL_DIFFUSE, flagged == case.m);
    set(marks::MIXED, flagged > 0 && flagged < case.m);
    let odd = |x: &f64| x.is_nan() && x.to_bits() != NAN;
    set(marks::ODD_NAN, case.y.iter().any(odd));
}
