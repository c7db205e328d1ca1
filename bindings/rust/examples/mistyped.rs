//! A rate that was mistyped, 98 for 0.98: the answer names the period in which numbers ran off.
//!
//! A crystal's offset and rate, in ms and ms a day. The rate fades: a day later 0.98 of it is left. Radio time is heard on the first four days, and
//! then not for half a year. With 98 typed for 0.98 nothing is refused, and up to the gap the offset looks right. In the gap the rate grows 98 times
//! a day, its variance 98² times, until both overflow. From there on they are infinities and NaNs, and the checks after the gap are no news.

use goxundar::{filter, Design, Model, Refusal, Transition};

const GAP: f64 = f64::NAN;

/// Of the rate, `kept` is left a day later.
fn crystal(kept: f64) -> Model {
    Model {
        design: Design::Constant(vec![1.0, 0.0]),                    // a check reads the offset
        h: vec![25.0],                                               // and is off by 5 ms
        transition: Transition::Constant(vec![1.0, 1.0, 0.0, kept]), // offset: itself, plus the rate. Rate: what is left of it
        rr: vec![1.0, 0.0, 0.0, 1.0],
        q: vec![0.04, 0.0, 0.0, 0.01],
        diffuse: vec![true, true],
        ..Model::zeros(1, 2, 2)
    }
}

/// In words: what a panel would print, or put into its log.
fn told(what: &str, off: Option<usize>) -> String {
    match off {
        None => format!("no {what} ran off"),
        Some(day) => format!("a {what} ran off on day {day}"),
    }
}

fn main() -> Result<(), Refusal> {
    let checks = [&[212.0, 224.5, 236.5, 251.0][..], &[GAP; 180], &[288.5, 291.0]].concat();
    for kept in [0.98, 98.0] {
        let run = filter(&crystal(kept), checks.len(), &checks)?;
        let last = run.filtered(checks.len() - 1);
        println!("the rate keeps {kept} of itself a day:");
        println!("  {}, {}", told("covariance", run.cov_off()), told("mean", run.mean_off()));
        println!("  {} of {} checks were news; in the end the offset is {:.1} ms", run.news(), run.heard(), last.mean[0]);
    }
    Ok(())
}
