//! A crystal's offset and rate from sparse radio checks, with gaps, and with a check that arrives on two inputs.
//!
//! A panel's clock runs on a crystal. Every six hours it may hear radio time, on either of two inputs, or on both, or not at all. A reading is what
//! the clock shows less what the radio says, in milliseconds. The states: the offset (ms), the rate (ms a period), and the radio's own error in this
//! period's check (ms). Both inputs read offset + radio error, with no noise of their own, so a check that arrives on both is one check: the
//! second time it is no news, and is not applied twice.
//!
//! bindings/c/example.c is the same in C.

use goxundar::{smooth, Cause, Design, Model, Moments, Record, Refusal, Transition};

const GAP: f64 = f64::NAN;
const OFFSET: usize = 0;
const RATE: usize = 1;

fn crystal() -> Model {
    Model {
        design: Design::Constant(vec![
            1.0, 0.0, 1.0, // input 0: offset + radio error
            1.0, 0.0, 1.0, // input 1: the same
        ]),
        transition: Transition::Constant(vec![
            1.0, 1.0, 0.0, // offset: itself, plus the rate
            0.0, 1.0, 0.0, // rate: itself
            0.0, 0.0, 0.0, // radio error: nothing of the last one stays
        ]),
        // Each state has a disturbance of its own.
        rr: vec![1.0, 0.0, 0.0, 0.0, 1.0, 0.0, 0.0, 0.0, 1.0],
        q: vec![
            0.04, 0.0, 0.0, // the offset wanders by 0.2 ms in a period
            0.0, 0.01, 0.0, // the rate by 0.1 ms a period
            0.0, 0.0, 25.0, // a check is off by 5 ms
        ],
        // At power-up nothing is known of offset and rate. The radio's error is known to be 0, give or take 5 ms.
        diffuse: vec![true, true, false],
        p_star: vec![0.0, 0.0, 0.0, 0.0, 0.0, 0.0, 0.0, 0.0, 25.0],
        ..Model::zeros(2, 3, 3)
    }
}

/// A state's mean, give or take its standard deviation.
fn estimate(of: Moments<'_>, state: usize) -> String {
    let states = of.mean.len();
    format!("{:8.2} +- {:5.2}", of.mean[state], of.cov[state * states + state].sqrt())
}

/// A reading, and what became of it in a word. The last three are no news: nothing moved, and the cause says why.
fn reading(value: f64, record: Record<'_>) -> String {
    let word = match record {
        Record::Skipped(Cause::Gap) => return "-".to_string(),
        Record::Usual { .. } => "news",
        Record::Diffuse { .. } => "first news",
        Record::Skipped(Cause::TooSmall) => "adds nothing",
        Record::Skipped(Cause::BelowDust) => "only rounding",
        Record::Skipped(Cause::FailedReplay) => "doubtful",
    };
    format!("{value:.1} {word}")
}

fn main() -> Result<(), Refusal> {
    let readings = [
        [GAP, GAP], // power-up: nothing heard yet
        [212.0, GAP],
        [GAP, GAP],
        [236.5, 236.5], // one check, on both inputs
        [GAP, 251.0],
        [GAP, GAP],
        [GAP, GAP],
        [288.5, 288.5],
        [GAP, GAP],
        [313.0, GAP],
    ];
    let answer = smooth(&crystal(), readings.len(), &readings.concat())?;
    let run = answer.run();

    println!("period  {:<19} {:<19}  {:<17}  {:<17}  offset, in hindsight", "input 0", "input 1", "offset so far", "rate so far");
    for (t, [first, second]) in readings.into_iter().enumerate() {
        let (first, second) = (reading(first, run.record(t, 0)), reading(second, run.record(t, 1)));
        // Until the states are settled a standard deviation would be of the bounded part alone, and mislead.
        let so_far = |state| if run.settled_after(t) { estimate(run.filtered(t), state) } else { "not known yet".to_string() };
        let hindsight = estimate(answer.smoothed(t), OFFSET);
        println!("{t:6}  {first:<19} {second:<19}  {:<17}  {:<17}  {hindsight}", so_far(OFFSET), so_far(RATE));
    }
    println!(
        "heard {}, news {}, periods not settled at their start {}, log-likelihood {:.6}",
        run.heard(),
        run.news(),
        run.d_diffuse(),
        run.loglik()
    );
    Ok(())
}
