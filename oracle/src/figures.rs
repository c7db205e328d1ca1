//! Document 01's bench figures as cases, starred and not, each with what 01
//! says of it; and the one of document 02's request g. The fixed list ends
//! with them. K, the logarithm of 1, is no call; m = 8 with n = 4096 is too
//! long for a case file.

use crate::case::{Case, Expected, OUTPUT_NAMES};
use crate::rng::pow2;

const GAP: f64 = f64::NAN;

/// One thing that is said of a figure.
pub enum Said {
    /// Of both calls.
    Refusal(u32),
    Loglik(f64),
    DDiffuse(usize),
    Heard(usize),
    News(usize),
    /// The record at a place, in its flat form: the kind, v, f_star, f_inf.
    Record(usize, u64, [f64; 3]),
    /// The kind at a place.
    Kind(usize, u64),
    /// The number at a place of an output.
    At(&'static str, usize, f64),
}

use Said::*;

pub struct Figure {
    pub name: &'static str,
    pub case: Case,
    pub says: Vec<Said>,
}

/// 01's model unless said: m = p = r = 1, Z = T = R = 1, H = 1, Q = 2,
/// flagged, a1 = P* = 0.
pub fn level(y: &[f64]) -> Case {
    let mut case = Case {
        p: 1,
        m: 1,
        r: 1,
        n: y.len(),
        z: vec![1.0],
        h: vec![1.0],
        t: vec![1.0],
        rr: vec![1.0],
        q: vec![2.0],
        c: vec![0.0],
        d: vec![0.0],
        a1: vec![0.0],
        p_star: vec![0.0],
        flags: vec![1],
        y: y.to_vec(),
        ..Case::default()
    };
    case.lend_needed();
    case
}

/// m states, T the identity, all readings 1.
pub fn sized(m: usize, n: usize) -> Case {
    let mut case = level(&vec![1.0; n]);
    case.m = m;
    case.z = vec![1.0; m];
    case.t = vec![0.0; m * m];
    (0..m).for_each(|i| case.t[i * m + i] = 1.0);
    case.rr = vec![1.0; m];
    case.c = vec![0.0; m];
    case.a1 = vec![0.0; m];
    case.p_star = vec![0.0; m * m];
    case.flags = vec![1; m];
    case.lend_needed();
    case
}

/// p = 2, both designs 1, H = (h, 0), one period.
fn two_inputs(h: f64, y: [f64; 2]) -> Case {
    let mut case = level(&[0.0]);
    case.p = 2;
    case.z = vec![1.0, 1.0];
    case.h = vec![h, 0.0, 0.0, 0.0];
    case.d = vec![0.0; 2];
    case.y = y.to_vec();
    case.lend_needed();
    case
}

/// The same with no flag and P* = 1.
pub fn dust(h: f64, y: [f64; 2]) -> Case {
    let mut case = two_inputs(h, y);
    case.p_star = vec![1.0];
    case.flags = vec![0];
    case
}

/// H = 2, y = [NaN, 2].
fn shrinking(t: f64) -> Case {
    let mut case = level(&[GAP, 2.0]);
    case.h = vec![2.0];
    case.t = vec![t];
    case
}

/// No flag, P* = 0, H = 0.
fn known() -> Case {
    let mut case = level(&[1.0]);
    case.flags = vec![0];
    case.h = vec![0.0];
    case
}

/// One period too many. Sizes are looked at first, so a short y is no fault.
fn too_long() -> Case {
    let mut case = level(&[1.0]);
    case.n = 4097;
    case
}

/// H = 6, y = [2, 36], and T is 2 out of the first period, 1 out of the
/// second. The step back into the first takes the 2: by the 1 its smoothed
/// mean would be 8.
pub fn led_into() -> Case {
    let mut case = level(&[2.0, 36.0]);
    case.h = vec![6.0];
    case.t = vec![];
    case.ts = vec![2.0, 1.0];
    case
}

/// The figures: 01's in its order, then request g's.
pub fn all() -> Vec<Figure> {
    let of = |name, case, says| Figure { name, case, says };
    let dusty = |name, power, kind| {
        let says = vec![Kind(0, 1), Kind(1, kind)];
        of(name, dust(pow2(power), [2.0, 7.0]), says)
    };
    vec![
        of(
            "A",
            level(&[2.0]),
            vec![
                Record(0, 2, [2.0, 1.0, 1.0]),
                At("filt_mean", 0, 2.0),
                At("filt_cov", 0, 1.0),
                At("pred_mean", 1, 2.0),
                At("pred_cov", 1, 3.0),
                At("pred_inf", 1, 0.0),
                DDiffuse(1),
            ],
        ),
        of(
            "B, C",
            level(&[2.0, 6.0]),
            vec![
                Record(1, 1, [4.0, 4.0, 0.0]),
                At("filt_mean", 1, 5.0),
                At("filt_cov", 1, 0.75),
                At("pred_mean", 2, 5.0),
                At("pred_cov", 2, 2.75),
                At("sm_mean", 0, 3.0),
                At("sm_mean", 1, 5.0),
                At("sm_cov", 0, 0.75),
                At("sm_cov", 1, 0.75),
            ],
        ),
        of(
            "D",
            level(&[GAP]),
            vec![
                Loglik(0.0),
                At("filt_mean", 0, 0.0),
                At("filt_cov", 0, 0.0),
                At("pred_cov", 1, 2.0),
                At("pred_inf", 1, 1.0),
                Heard(0),
            ],
        ),
        of(
            "E",
            level(&[GAP, 2.0]),
            vec![DDiffuse(2), At("filt_mean", 1, 2.0), At("filt_cov", 1, 1.0)],
        ),
        of(
            "F",
            shrinking(pow2(-9)),
            vec![DDiffuse(1), At("filt_mean", 1, 1.0), At("filt_cov", 1, 1.0)],
        ),
        of("G", shrinking(pow2(-8)), vec![DDiffuse(2)]),
        of(
            "H",
            two_inputs(0.0, [2.0, 7.0]),
            vec![
                // F* is 0, and so is its scale.
                Kind(1, 3),
                At("filt_mean", 0, 2.0),
                At("filt_cov", 0, 0.0),
                Heard(2),
                News(1),
            ],
        ),
        of("I", known(), vec![Refusal(12)]),
        of("J", level(&[f64::INFINITY]), vec![Refusal(9)]),
        of("L", sized(9, 1), vec![Refusal(1)]),
        dusty("H = 2^-10", -10, 1),
        dusty("H = 2^-40", -40, 1),
        dusty("H = 2^-50", -50, 4),
        of("n = 4097", too_long(), vec![Refusal(1)]),
        of(
            "T = 2, then 1",
            led_into(),
            vec![
                At("pred_mean", 1, 4.0),
                At("pred_cov", 1, 26.0),
                At("pred_mean", 2, 30.0),
                At("pred_cov", 2, 6.875),
                At("sm_mean", 0, 14.0),
                At("sm_cov", 0, 1.5),
                At("sm_mean", 1, 30.0),
                At("sm_cov", 1, 4.875),
            ],
        ),
    ]
}

/// Holds an outcome to what is said of the figure, bit for bit.
pub fn hold(figure: &Figure, e: &Expected) {
    let name = figure.name;
    let written = |part: &str, at: usize| {
        let k = OUTPUT_NAMES.iter().position(|n| *n == part).unwrap();
        e.written[k][at]
    };
    let number = |part: &str, at: usize, want: f64| {
        assert_eq!(
            written(part, at),
            want.to_bits(),
            "{name}: {part} at {at}, wanted {want}"
        );
    };
    let count = |got: usize, want: usize| assert_eq!(got, want, "{name}: a count");
    for said in &figure.says {
        match *said {
            Refusal(k) => {
                assert_eq!(e.filter.unwrap_err(), k, "{name}");
                assert_eq!(e.smooth.unwrap_err(), k, "{name}");
            }
            Loglik(l) => assert_eq!(e.filter.unwrap().loglik.to_bits(), l.to_bits(), "{name}"),
            DDiffuse(k) => count(e.filter.unwrap().d_diffuse, k),
            Heard(k) => count(e.filter.unwrap().heard, k),
            News(k) => count(e.filter.unwrap().news, k),
            Kind(at, kind) => assert_eq!(written("kinds", at), kind, "{name}: kind at {at}"),
            Record(at, kind, [v, f_star, f_inf]) => {
                assert_eq!(written("kinds", at), kind, "{name}: kind at {at}");
                number("v", at, v);
                number("f_star", at, f_star);
                number("f_inf", at, f_inf);
            }
            At(part, at, want) => number(part, at, want),
        }
    }
}
