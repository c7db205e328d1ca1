//! Document 01's bench figures, starred and not, through the safe interface. Expected values are 01's; doubles are compared by their bits.

mod level;

use goxundar::{filter, smooth, Cause, Design, Model, Record, Refusal, Run, Transition};
use level::level as plain;

const GAP: f64 = f64::NAN;

/// p = 2, both designs 1, H zero.
fn two_inputs() -> Model {
    Model {
        design: Design::Constant(vec![1.0, 1.0]),
        transition: Transition::Constant(vec![1.0]),
        rr: vec![1.0],
        q: vec![2.0],
        diffuse: vec![true],
        ..Model::zeros(2, 1, 1)
    }
}

/// m states, T the identity.
fn sized(m: usize) -> Model {
    Model {
        design: Design::Constant(vec![1.0; m]),
        h: vec![1.0],
        transition: Transition::Constant((0..m * m).map(|k| if k % (m + 1) == 0 { 1.0 } else { 0.0 }).collect()),
        rr: vec![1.0; m],
        q: vec![2.0],
        diffuse: vec![true; m],
        ..Model::zeros(1, m, 1)
    }
}

/// The filter's run. The smoother's, which must be the same, is compared on the way.
fn run(model: &Model, readings: &[f64]) -> Run {
    let n = readings.len() / model.p;
    let run = filter(model, n, readings).unwrap();
    let smoothed = smooth(model, n, readings).unwrap();
    let other = smoothed.run();
    assert_eq!(run.loglik().to_bits(), other.loglik().to_bits());
    assert_eq!((run.d_diffuse(), run.heard(), run.news()), (other.d_diffuse(), other.heard(), other.news()));
    for run in [&run, other] {
        assert_eq!((run.cov_off(), run.mean_off()), (None, None), "no figure runs off");
    }
    for t in 0..n {
        same(other.filtered(t).mean, run.filtered(t).mean);
        same(other.filtered(t).cov, run.filtered(t).cov);
        for i in 0..model.p {
            assert_eq!(run.record(t, i), other.record(t, i));
        }
    }
    for t in 0..=n {
        same(other.predicted(t).mean, run.predicted(t).mean);
        same(other.predicted(t).cov, run.predicted(t).cov);
        same(other.predicted(t).diffuse_cov, run.predicted(t).diffuse_cov);
    }
    run
}

/// The refusal, of both calls.
fn refusal(model: &Model, n: usize, readings: &[f64]) -> Refusal {
    let refusal = filter(model, n, readings).unwrap_err();
    assert_eq!(smooth(model, n, readings).unwrap_err(), refusal);
    refusal
}

/// Bit for bit, all NaNs as one.
fn same(got: &[f64], want: &[f64]) {
    let bits = |x: &f64| if x.is_nan() { f64::NAN.to_bits() } else { x.to_bits() };
    assert_eq!(got.iter().map(bits).collect::<Vec<_>>(), want.iter().map(bits).collect::<Vec<_>>(), "{got:?}, and not {want:?}");
}

#[test]
fn a_one_reading() {
    let a = run(&plain(), &[2.0]);
    let Record::Diffuse { v, f_star, f_inf, .. } = a.record(0, 0) else { panic!("not diffuse") };
    same(&[v, f_star, f_inf], &[2.0, 1.0, 1.0]);
    same(a.filtered(0).mean, &[2.0]);
    same(a.filtered(0).cov, &[1.0]);
    same(a.predicted(1).mean, &[2.0]);
    same(a.predicted(1).cov, &[3.0]);
    same(a.predicted(1).diffuse_cov, &[0.0]);
    assert_eq!(a.d_diffuse(), 1);
    assert!(a.settled_after(0));
}

#[test]
fn b_two_readings() {
    let b = run(&plain(), &[2.0, 6.0]);
    let Record::Usual { v, f_star, .. } = b.record(1, 0) else { panic!("not usual") };
    same(&[v, f_star], &[4.0, 4.0]);
    same(b.filtered(1).mean, &[5.0]);
    same(b.filtered(1).cov, &[0.75]);
    same(b.predicted(2).mean, &[5.0]);
    same(b.predicted(2).cov, &[2.75]);
}

#[test]
fn c_smoothing_b() {
    let c = smooth(&plain(), 2, &[2.0, 6.0]).unwrap();
    same(c.smoothed(0).mean, &[3.0]);
    same(c.smoothed(1).mean, &[5.0]);
    same(c.smoothed(0).cov, &[0.75]);
    same(c.smoothed(1).cov, &[0.75]);
}

#[test]
fn d_a_gap() {
    let d = run(&plain(), &[GAP]);
    same(&[d.loglik()], &[0.0]);
    same(d.filtered(0).mean, &[0.0]);
    same(d.filtered(0).cov, &[0.0]);
    same(d.predicted(1).cov, &[2.0]);
    same(d.predicted(1).diffuse_cov, &[1.0]);
    assert_eq!(d.heard(), 0);
    assert_eq!(d.record(0, 0), Record::Skipped(Cause::Gap));
    assert!(!d.settled_after(0));
}

#[test]
fn e_a_gap_first() {
    let e = run(&plain(), &[GAP, 2.0]);
    assert_eq!(e.d_diffuse(), 2);
    same(e.filtered(1).mean, &[2.0]);
    same(e.filtered(1).cov, &[1.0]);
}

/// H = 2, y = [NaN, 2], and T.
fn washing(t: f64) -> Run {
    run(&Model { h: vec![2.0], transition: Transition::Constant(vec![t]), ..plain() }, &[GAP, 2.0])
}

#[test]
fn f_washed_out() {
    let f = washing(2f64.powi(-9));
    assert_eq!(f.d_diffuse(), 1);
    same(f.filtered(1).mean, &[1.0]);
    same(f.filtered(1).cov, &[1.0]);
}

#[test]
fn g_not_washed_out() {
    assert_eq!(washing(2f64.powi(-8)).d_diffuse(), 2);
}

#[test]
fn h_one_check_on_two_inputs() {
    let h = run(&two_inputs(), &[2.0, 7.0]);
    // F* is 0, and so is its scale.
    assert_eq!(h.record(0, 1), Record::Skipped(Cause::TooSmall));
    same(h.filtered(0).mean, &[2.0]);
    same(h.filtered(0).cov, &[0.0]);
    assert_eq!((h.heard(), h.news()), (2, 1));
}

#[test]
fn i_no_information() {
    let known = Model { h: vec![0.0], diffuse: vec![false], ..plain() };
    assert_eq!(refusal(&known, 1, &[1.0]).number(), 12);
}

#[test]
fn j_an_infinite_reading() {
    assert_eq!(refusal(&plain(), 1, &[f64::INFINITY]).number(), 9);
    assert_eq!(refusal(&plain(), 1, &[f64::NEG_INFINITY]).number(), 9);
}

/// The logarithm can't be called. Figure A's f_inf is 1, so its likelihood term is that of ln 2π and of ln 1, which is +0.0.
#[test]
fn k_the_logarithm_of_one() {
    // 01's logarithm, for normal numbers above 0, operation by operation.
    fn ln(x: f64) -> f64 {
        let mut k = (x.to_bits() >> 52) as i32 - 1023;
        let mut s = x / 2f64.powi(k);
        if s >= 1.5 {
            s *= 0.5;
            k += 1;
        }
        let u = (s - 1.0) / (s + 1.0);
        let w = u * u;
        let q = (0..11).rev().fold(1.0 / 23.0, |q, i| q * w + 1.0 / f64::from(2 * i + 1));
        let (hi, lo) = (f64::from_bits(0x3FE6_2E42_FEE0_0000), f64::from_bits(0x3DEA_39EF_3579_3C76));
        f64::from(k) * hi + (f64::from(k) * lo + (u + u) * q)
    }
    same(&[ln(1.0)], &[0.0]);
    let ln_2pi = ln(2.0 * f64::from_bits(0x4009_21FB_5444_2D18));
    same(&[run(&plain(), &[2.0]).loglik()], &[-(0.5 * ln_2pi)]);
}

#[test]
fn l_nine_states() {
    assert_eq!(refusal(&Model { m: 9, ..plain() }, 1, &[2.0]).number(), 1);
}

/// No flag, P* = 1, p = 2, designs 1, H = (h, 0), any two finite readings: the second is used, used, and skipped as below.
#[test]
fn dust_on_the_second_input() {
    for readings in [[2.0, 7.0], [0.0, -0.0], [-1e300, 5e-324], [3.0, 3.0]] {
        for (power, used) in [(-10, true), (-40, true), (-50, false)] {
            let model = Model { h: vec![2f64.powi(power), 0.0, 0.0, 0.0], p_star: vec![1.0], diffuse: vec![false], ..two_inputs() };
            let dust = run(&model, &readings);
            assert!(matches!(dust.record(0, 0), Record::Usual { .. }));
            assert_eq!(matches!(dust.record(0, 1), Record::Usual { .. }), used, "H = 2^{power}, {readings:?}");
            assert_eq!(dust.record(0, 1) == Record::Skipped(Cause::BelowDust), !used);
        }
    }
}

#[test]
fn the_largest_sizes() {
    let readings = vec![1.0; 4097];
    assert_eq!(run(&sized(8), &readings[..1]).heard(), 1);
    assert_eq!(run(&sized(8), &readings[..4096]).heard(), 4096);
    assert_eq!(refusal(&sized(8), 4097, &readings).number(), 1);
    assert_eq!(refusal(&sized(1), 4097, &readings).number(), 1);
}
