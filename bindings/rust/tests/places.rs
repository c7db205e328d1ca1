//! Every part in its place, row by row: a call in which no two inputs have the same numbers.
//!
//! Two states, two inputs, one disturbance, one period. What is wanted was worked out by hand, by document 01's rules; each step is exact. Input 0 is
//! a gap. Of input 1: v = (27 − 20) − 3, M* = P*·z = (0, 4), F* = 4 + 4. So the gain is (0, 0.5), and P* loses 0.5·4 at (1, 1). Then the step:
//! T·a + c, and T·P·T' + R·Q·R'. Over one period the smoothed moments are the filtered ones.

use goxundar::{filter, smooth, Cause, Design, Model, Record, Run, Transition};

fn model() -> Model {
    Model {
        p: 2,
        m: 2,
        r: 1,
        design: Design::Constant(vec![1.0, 2.0, 0.0, 1.0]),
        h: vec![1.0, 0.0, 0.0, 4.0],
        transition: Transition::Constant(vec![1.0, 1.0, 0.0, 1.0]),
        rr: vec![0.0, 1.0],
        q: vec![2.0],
        c: vec![100.0, 1000.0],
        d: vec![10.0, 20.0],
        a1: vec![5.0, 3.0],
        p_star: vec![1.0, 0.0, 0.0, 4.0],
        diffuse: vec![false, false],
    }
}

fn check(run: &Run) {
    assert_eq!((run.elements(), run.states(), run.periods()), (2, 2, 1));
    assert_eq!((run.d_diffuse(), run.heard(), run.news(), run.cov_off(), run.mean_off()), (0, 1, 1, None, None));
    assert_eq!(run.record(0, 0), Record::Skipped(Cause::Gap));
    assert_eq!(run.record(0, 1), Record::Usual { v: 4.0, f_star: 8.0, m_star: &[0.0, 4.0] });
    assert_eq!(run.predicted(0).mean, [5.0, 3.0]);
    assert_eq!(run.predicted(0).cov, [1.0, 0.0, 0.0, 4.0]);
    assert_eq!(run.filtered(0).mean, [5.0, 5.0]);
    assert_eq!(run.filtered(0).cov, [1.0, 0.0, 0.0, 2.0]);
    assert_eq!(run.predicted(1).mean, [110.0, 1005.0]);
    assert_eq!(run.predicted(1).cov, [3.0, 2.0, 2.0, 4.0]);
    assert_eq!(run.predicted(1).diffuse_cov, [0.0; 4]);
}

#[test]
fn every_part() {
    let readings = [f64::NAN, 27.0];
    check(&filter(&model(), 1, &readings).unwrap());
    let smoothed = smooth(&model(), 1, &readings).unwrap();
    check(smoothed.run());
    assert_eq!(smoothed.smoothed(0).mean, [5.0, 5.0]);
    assert_eq!(smoothed.smoothed(0).cov, [1.0, 0.0, 0.0, 2.0]);
}

/// Figure A, whose start has P* = 0 and a diffuse part of 1: the gain vectors are these, times a design of 1.
#[test]
fn a_diffuse_record() {
    let mut level = Model { q: vec![2.0], diffuse: vec![true], ..Model::zeros(1, 1, 1) };
    level.design = Design::Constant(vec![1.0]);
    level.transition = Transition::Constant(vec![1.0]);
    (level.h, level.rr) = (vec![1.0], vec![1.0]);
    let run = filter(&level, 1, &[2.0]).unwrap();
    assert_eq!(run.record(0, 0), Record::Diffuse { v: 2.0, f_star: 1.0, f_inf: 1.0, m_star: &[0.0], m_inf: &[1.0] });
}
