//! Lists of transitions. The t-th leads from period t to the next, and the step back from t to t − 1 takes the one before it. A list that runs out is
//! refused, and nothing marks it as meant. Equal matrices give what the constant one gives.

mod clock;
mod level;
mod same;

use clock::{clock, designs, readings, same_calls, N};
use goxundar::{begin, filter, smooth, Design, Model, Refusal, Saved, Smoothed, Transition};
use level::level;
use same::{answer, is_part};

const GAP: f64 = f64::NAN;

/// That many transitions of the clock, up to sixteen: no two are the same.
fn transitions(count: usize) -> Vec<f64> {
    (0..4 * count).map(|i| if i % 4 == 2 { 0.0 } else { 1.0 + (i * i % 37) as f64 / 64.0 }).collect()
}

/// The clock with a design, and that many transitions.
fn moved(count: usize) -> Model {
    Model { design: Design::Constant(designs(1)), transition: Transition::Listed(transitions(count)), ..clock() }
}

// ---- by hand

/// Each period's smoothed mean and covariance, of one state.
fn hindsight(s: &Smoothed) -> Vec<(f64, f64)> {
    (0..s.run().periods()).map(|t| (s.smoothed(t).mean[0], s.smoothed(t).cov[0])).collect()
}

/// Each place's predicted ones.
fn foresight(s: &Smoothed) -> Vec<(f64, f64)> {
    (0..=s.run().periods()).map(|t| (s.run().predicted(t).mean[0], s.run().predicted(t).cov[0])).collect()
}

/// T is 2, then 1. With H = 6 the first reading leaves a variance of 6, and the step makes 4·6 + 2 of it. Of the second v = 36 − 4, F* = 26 + 6, so
/// the gain is 26/32. Back by the T of period 0, which led into period 1: r = 2·32/32, N = 4/32, and the first mean is 2 + 6·2. By the T of period 1
/// it would be 8. A third matrix leads from a period that there is not.
#[test]
fn a_change_of_season() {
    for given in 2..=3 {
        let list = [2.0, 1.0, 7.0][..given].to_vec();
        let s = smooth(&Model { h: vec![6.0], transition: Transition::Listed(list), ..level() }, 2, &[2.0, 36.0]).unwrap();
        assert_eq!(foresight(&s)[1..], [(4.0, 26.0), (30.0, 6.875)]);
        assert_eq!(hindsight(&s), [(14.0, 1.5), (30.0, 4.875)]);
    }
}

/// A known level that nothing disturbs, T = 2, 3, 5, and one reading, of the last period. Of that v = 70 − 6, F* = 36 + 28; each step is exact. In
/// hindsight the level still moves by 2 and 3.
#[test]
fn three_steps() {
    let known = Model { h: vec![28.0], q: vec![0.0], a1: vec![1.0], p_star: vec![1.0], diffuse: vec![false], ..level() };
    let s = smooth(&Model { transition: Transition::Listed(vec![2.0, 3.0, 5.0]), ..known }, 3, &[GAP, GAP, 70.0]).unwrap();
    assert_eq!(foresight(&s), [(1.0, 1.0), (2.0, 4.0), (6.0, 36.0), (210.0, 393.75)]);
    assert_eq!(hindsight(&s), [(7.0, 0.4375), (14.0, 1.75), (42.0, 15.75)]);
}

// ---- how long a list is

/// As many copies as there are periods, or more.
#[test]
fn equal_matrices() {
    for design in [Design::Constant(designs(1)), Design::Listed(designs(N)), Design::Repeated(designs(5))] {
        let constant = Model { design, ..clock() };
        let Transition::Constant(one) = &constant.transition else { panic!("the clock's is constant") };
        for copies in N..=16 {
            same_calls(&Model { transition: Transition::Listed(one.repeat(copies)), ..constant.clone() }, &constant);
        }
    }
}

#[test]
fn a_list_that_reaches() {
    for given in N..=16 {
        same_calls(&moved(given), &moved(N));
    }
    // The transitions tell, each of them, the last one in the forecast alone.
    let forecast = |list: Vec<f64>| {
        let run = filter(&Model { transition: Transition::Listed(list), ..moved(N) }, N, &readings()).unwrap();
        run.predicted(N).mean.to_vec()
    };
    for t in 0..N {
        let mut other = transitions(N);
        other[4 * t] += 0.5;
        assert_ne!(forecast(other), forecast(transitions(N)), "transition {t}");
    }
}

/// 2, before 14, and whether or not the designs are repeated.
#[test]
fn twelve_transitions_for_fourteen_periods() {
    let y = &readings();
    let refusals = |model: &Model| [filter(model, N, y).err(), smooth(model, N, y).err(), begin(model, N, y).err()];
    for given in 1..N {
        for design in [Design::Constant(designs(1)), Design::Listed(designs(N)), Design::Listed(designs(12)), Design::Repeated(designs(12))] {
            assert_eq!(refusals(&Model { design, ..moved(given) }), [Some(Refusal::Length); 3], "{given} transitions");
        }
    }
    assert_eq!(refusals(&Model { design: Design::Listed(designs(12)), ..moved(N) }), [Some(Refusal::ListShort); 3]);
    assert_eq!(refusals(&moved(N)), [None; 3]);
}

// ---- what refusals 3 and 10 look at

#[test]
fn each_must_be_finite() {
    for bad in [GAP, f64::INFINITY, f64::NEG_INFINITY] {
        for at in 0..64 {
            let mut list = transitions(16);
            list[at] = bad;
            let model = Model { transition: Transition::Listed(list), ..moved(16) };
            assert_eq!(filter(&model, N, &readings()).unwrap_err(), Refusal::NonFiniteSystem, "{bad} at {at}");
        }
    }
}

/// State 0 is unknown, state 1 is known. The first transition may not lead from one into the other. The second may, and then both are unknown.
#[test]
fn the_first_must_not_lead_from_an_unknown_state() {
    let (stays, leads) = ([1.0, 0.0, 0.0, 1.0], [1.0, 0.0, 1.0, 1.0]);
    let with = |list: [[f64; 4]; 2]| Model {
        design: Design::Constant(vec![1.0, 0.0]),
        transition: Transition::Listed(list.concat()),
        diffuse: vec![true, false],
        ..Model::zeros(1, 2, 1)
    };
    let run = filter(&with([stays, leads]), 2, &[GAP; 2]).unwrap();
    assert_eq!([0, 1, 2].map(|t| run.predicted(t).diffuse_cov), [&[1.0, 0.0, 0.0, 0.0], &[1.0, 0.0, 0.0, 0.0], &[1.0; 4]]);
    assert_eq!(filter(&with([leads, stays]), 2, &[GAP; 2]).unwrap_err(), Refusal::MixedDriven);
    // In stretches too: the first of the list, which may be long done.
    let (_, saved) = begin(&with([stays, leads]), 1, &[GAP]).unwrap();
    assert_eq!(saved.finish(&with([stays, leads]), 1, &[GAP]).unwrap().predicted(1).diffuse_cov, [1.0; 4]);
    assert_eq!(saved.finish(&with([leads, stays]), 1, &[GAP]).unwrap_err(), Refusal::MixedDriven);
}

// ---- in stretches

/// The list counts from the run's first period, and reaches as far as the run has come: the periods done and the stretch's.
#[test]
fn from_the_runs_first_period() {
    let (reaches, short) = (moved(N), moved(12));
    let y = readings();
    let whole = filter(&reaches, N, &y).unwrap();
    for cut in 0..=N {
        let (before, after) = y.split_at(2 * cut);
        let (run, saved) = begin(&reaches, cut, before).unwrap();
        is_part(&run, &whole, 0);
        let rest = saved.finish(&reaches, N - cut, after).unwrap();
        is_part(&rest, &whole, cut);
        assert_eq!(answer(&rest), answer(&whole));
        for n in 0..=N - cut {
            let refusal = saved.resume(&short, n, &after[..2 * n]).err();
            assert_eq!(refusal, (cut + n > 12).then_some(Refusal::Length), "{n} periods after {cut}");
        }
    }
}

/// 1 to 11 and 15 come first, 14 and 12 come after.
#[test]
fn the_order_in_a_stretch() {
    // Figure I: a reading that is heard, and no news.
    let known = Model { design: Design::Listed(vec![1.0]), h: vec![0.0], diffuse: vec![false], ..level() };
    let (_, saved) = begin(&known, 1, &[1.0]).unwrap();
    let mut bytes = saved.as_bytes().to_vec();
    bytes[0] = 1;
    let bad = Saved::from_bytes(bytes);
    let refusal = |model: &Model, saved: &Saved| saved.finish(model, 1, &[GAP]).unwrap_err();
    let with = |transition| Model { transition, ..known.clone() };
    let short = with(Transition::Listed(vec![1.0]));

    assert_eq!(refusal(&with(Transition::Listed(vec![GAP])), &bad), Refusal::NonFiniteSystem);
    assert_eq!(refusal(&Model { rr: vec![1e200], ..short.clone() }, &bad), Refusal::NonFiniteNoise);
    assert_eq!(refusal(&short, &bad), Refusal::BadSaved);
    assert_eq!(refusal(&short, &saved), Refusal::Length);
    assert_eq!(refusal(&Model { design: Design::Repeated(vec![1.0]), ..short }, &saved), Refusal::Length);
    let reaches = with(Transition::Listed(vec![1.0; 2]));
    assert_eq!(refusal(&reaches, &saved), Refusal::ListShort);
    assert_eq!(refusal(&Model { design: Design::Repeated(vec![1.0]), ..reaches }, &saved), Refusal::NoInformation);
}
