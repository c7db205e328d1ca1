//! The Nile series with Durbin and Koopman's local level model, against figures from outside: statsmodels 0.13.5, exact diffuse start.
//!
//! Its log-likelihood and ours count the same terms. The first reading, which settles the level, counts −½·(ln 2π + ln F∞) in both; F∞ = 1 here.
//! Programs that leave ln 2π out for such a reading give a figure higher by ½·ln 2π = 0.91894: −632.54563.
//!
//! The tolerance allows for the outside program's own arithmetic. Our bits are fixed.

use goxundar::{smooth, Design, Model, Record, Transition};

fn flows() -> Vec<f64> {
    let text = include_str!("../../../data/nile.txt");
    let lines = text.lines().filter(|line| !line.starts_with('#'));
    lines.map(|line| line.split_whitespace().nth(1).unwrap().parse().unwrap()).collect()
}

fn near(got: f64, want: f64) {
    assert!((got - want).abs() <= 1e-7 * want.abs(), "{got}, and not {want}");
}

#[test]
fn local_level() {
    let flows = flows();
    assert_eq!(flows.len(), 100);
    let level = Model {
        design: Design::Constant(vec![1.0]),
        h: vec![15099.0],
        transition: Transition::Constant(vec![1.0]),
        rr: vec![1.0],
        q: vec![1469.1],
        diffuse: vec![true],
        ..Model::zeros(1, 1, 1)
    };
    let nile = smooth(&level, 100, &flows).unwrap();
    assert_eq!((nile.run().d_diffuse(), nile.run().heard(), nile.run().news()), (1, 100, 100));
    assert!(matches!(nile.run().record(0, 0), Record::Diffuse { f_inf: 1.0, .. }));
    near(nile.run().loglik(), -633.46456364888);
    // The filtered level by hand: the first reading is all that is known of it; the second is weighed against a variance of 15099 + 1469.1.
    let ahead = 15099.0 + 1469.1;
    let by_hand = [(1120.0, 15099.0), (1120.0 + 40.0 * ahead / (ahead + 15099.0), 15099.0 * ahead / (ahead + 15099.0))];
    for (t, (mean, variance)) in by_hand.into_iter().enumerate() {
        near(nile.run().filtered(t).mean[0], mean);
        near(nile.run().filtered(t).cov[0], variance);
    }
    // At the end its variance has settled: the positive root of x² = q·x + q·h is the predicted one.
    let settled = (1469.1 + (1469.1f64 * 1469.1 + 4.0 * 1469.1 * 15099.0).sqrt()) / 2.0;
    near(nile.run().filtered(99).cov[0], settled * 15099.0 / (settled + 15099.0));
    let outside = [(1111.66831913, 4032.15794181), (1110.85766462, 3242.93007322), (1105.26556731, 2818.94217005)];
    for (t, (mean, variance)) in outside.into_iter().enumerate() {
        near(nile.smoothed(t).mean[0], mean);
        near(nile.smoothed(t).cov[0], variance);
    }
}
