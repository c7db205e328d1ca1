//! Document 01's refusals: each, their order, lengths, and what is written. Nothing panics, whatever is passed.

mod level;

use goxundar::lent::{self, Inputs, Lengths, Outputs, SmoothedOutputs};
use goxundar::{filter, smooth, Design, Model, Refusal, Transition};
use level::level as plain;

/// The refusal's number, 0 for none, of both calls.
fn number(model: &Model, n: usize, readings: &[f64]) -> u32 {
    let number = filter(model, n, readings).map_or_else(Refusal::number, |_| 0);
    assert_eq!(smooth(model, n, readings).map_or_else(Refusal::number, |_| 0), number);
    number
}

/// One call breaks every rule. They are mended one by one, in the table's order, so the refusals come in that order too. `transition` makes one of a
/// matrix.
fn in_order(transition: impl Fn([f64; 4]) -> Transition) {
    let mut model = Model::zeros(2, 2, 2);
    let mut designs = vec![0.0, 0.0, 0.0, f64::NAN];
    model.design = Design::Listed(designs.clone());
    model.transition = transition([1.0, 0.0, 1.0, f64::NAN]);
    model.h = vec![0.0, 0.0, 1.0, -1.0];
    model.q = vec![0.0, 1.0, 0.0, 1.0];
    model.d = vec![0.0, f64::INFINITY];
    model.diffuse = vec![true, false];
    model.p_star = vec![1.0, 0.0, 0.0, 0.0];
    model.rr = vec![0.0, 0.0, 0.0, 1e200];
    let mut readings = vec![0.0, f64::NEG_INFINITY, 0.0, 0.0, 0.0];

    assert_eq!(number(&model, 4097, &readings), 1);
    assert_eq!(number(&model, 2, &readings), 2);
    readings.truncate(4);
    assert_eq!(number(&model, 2, &readings), 14);
    model.design = Design::Repeated(designs.clone());
    assert_eq!(number(&model, 2, &readings), 3);
    designs[3] = 0.0;
    model.design = Design::Repeated(designs.clone());
    assert_eq!(number(&model, 2, &readings), 3);
    model.transition = transition([1.0, 0.0, 1.0, 1.0]);
    assert_eq!(number(&model, 2, &readings), 4);
    model.h[3] = 0.0;
    assert_eq!(number(&model, 2, &readings), 5);
    model.q[1] = 0.0;
    assert_eq!(number(&model, 2, &readings), 6);
    model.d[1] = 0.0;
    assert_eq!(number(&model, 2, &readings), 7);
    model.p_star[0] = 0.0;
    assert_eq!(number(&model, 2, &readings), 8);
    model.h[2] = 0.0;
    assert_eq!(number(&model, 2, &readings), 9);
    readings[1] = 0.0;
    assert_eq!(number(&model, 2, &readings), 10);
    model.transition = transition([1.0, 0.0, 0.0, 1.0]);
    assert_eq!(number(&model, 2, &readings), 11);
    model.rr[3] = 1.0;
    assert_eq!(number(&model, 2, &readings), 12);
    designs[0] = 1.0;
    model.design = Design::Repeated(designs);
    assert_eq!(number(&model, 2, &readings), 0);
}

#[test]
fn in_order_with_a_constant_transition() {
    in_order(|t| Transition::Constant(t.to_vec()));
}

/// A list of equal matrices is refused as the constant one is.
#[test]
fn in_order_with_a_list_of_transitions() {
    in_order(|t| Transition::Listed(t.repeat(2)));
}

#[test]
fn sizes_out_of_range() {
    for size in [0, 9, 1 << 20, usize::MAX / 2, usize::MAX] {
        assert_eq!(number(&Model { p: size, ..plain() }, 1, &[2.0]), 1);
        assert_eq!(number(&Model { m: size, ..plain() }, 1, &[2.0]), 1);
        assert_eq!(number(&Model { r: size, ..plain() }, 1, &[2.0]), 1);
        assert_eq!(number(&Model::zeros(size, size, size), size, &[]), 1);
    }
    for n in [0, 4097, usize::MAX / 64, usize::MAX] {
        assert_eq!(number(&plain(), n, &[2.0]), 1);
    }
}

#[test]
fn parts_too_long_or_too_short() {
    assert_eq!(number(&plain(), 1, &[2.0]), 0);
    for wrong in [vec![], vec![0.0; 2], vec![0.0; 65]] {
        assert_eq!(number(&Model { design: Design::Constant(wrong.clone()), ..plain() }, 1, &[2.0]), 2);
        assert_eq!(number(&Model { h: wrong.clone(), ..plain() }, 1, &[2.0]), 2);
        assert_eq!(number(&Model { transition: Transition::Constant(wrong.clone()), ..plain() }, 1, &[2.0]), 2);
        assert_eq!(number(&Model { rr: wrong.clone(), ..plain() }, 1, &[2.0]), 2);
        assert_eq!(number(&Model { q: wrong.clone(), ..plain() }, 1, &[2.0]), 2);
        assert_eq!(number(&Model { c: wrong.clone(), ..plain() }, 1, &[2.0]), 2);
        assert_eq!(number(&Model { d: wrong.clone(), ..plain() }, 1, &[2.0]), 2);
        assert_eq!(number(&Model { a1: wrong.clone(), ..plain() }, 1, &[2.0]), 2);
        assert_eq!(number(&Model { p_star: wrong.clone(), ..plain() }, 1, &[2.0]), 2);
        assert_eq!(number(&Model { diffuse: vec![false; wrong.len()], ..plain() }, 1, &[2.0]), 2);
        assert_eq!(number(&plain(), 1, &wrong), 2);
    }
}

/// A list of 1 to 4096 designs, of a length that is a multiple of p·m. tests/lists.rs has those that run out.
#[test]
fn listed_designs() {
    for list in [Design::Listed, Design::Repeated] {
        let listed = |k: usize| Model { design: list(vec![1.0; k]), ..plain() };
        assert_eq!(number(&listed(0), 1, &[2.0]), 2);
        assert_eq!(number(&listed(1), 1, &[2.0]), 0);
        assert_eq!(number(&listed(4096), 1, &[2.0]), 0);
        assert_eq!(number(&listed(4097), 1, &[2.0]), 2);
        // Two inputs need pairs.
        let pairs = |k: usize| Model { design: list(vec![1.0; k]), diffuse: vec![true], ..Model::zeros(2, 1, 1) };
        assert_eq!(number(&pairs(3), 1, &[2.0, 2.0]), 2);
        assert_eq!(number(&pairs(3), 2, &[2.0; 4]), 2);
        assert_eq!(number(&pairs(4), 2, &[2.0; 4]), 0);
    }
}

/// A list of 1 to 4096 transitions, of a length that is a multiple of m·m. tests/transitions.rs has those that run out.
#[test]
fn listed_transitions() {
    let listed = |k: usize| Model { transition: Transition::Listed(vec![1.0; k]), ..plain() };
    assert_eq!(number(&listed(0), 1, &[2.0]), 2);
    assert_eq!(number(&listed(1), 1, &[2.0]), 0);
    assert_eq!(number(&listed(4096), 1, &[2.0]), 0);
    assert_eq!(number(&listed(4097), 1, &[2.0]), 2);
    // Two states need four numbers.
    let fours = |k: usize| Model { transition: Transition::Listed(vec![1.0; k]), diffuse: vec![true; 2], ..Model::zeros(1, 2, 1) };
    for k in 0..12 {
        let want = if k == 8 { 0 } else { 2 };
        assert_eq!(number(&fours(k), 2, &[f64::NAN; 2]), want, "{k} numbers");
    }
    assert_eq!(number(&fours(12), 2, &[f64::NAN; 2]), 0);
}

/// The outputs of a smoother's call of one state and one period, each with a place more than needed, all 7.
struct Lent {
    pred: [[f64; 3]; 3],
    rest: [[f64; 2]; 9],
    kinds: [u8; 2],
}

impl Lent {
    fn new() -> Lent {
        Lent { pred: [[7.0; 3]; 3], rest: [[7.0; 2]; 9], kinds: [7; 2] }
    }

    fn smooth(&mut self, inputs: &Inputs<'_>) -> Result<lent::Answer, Refusal> {
        let [pred_mean, pred_cov, pred_inf] = &mut self.pred;
        let [filt_mean, filt_cov, v, f_star, f_inf, m_star, m_inf, sm_mean, sm_cov] = &mut self.rest;
        let mut outputs = Outputs { pred_mean, pred_cov, pred_inf, filt_mean, filt_cov, kinds: &mut self.kinds, v, f_star, f_inf, m_star, m_inf };
        lent::smooth(inputs, &mut outputs, &mut SmoothedOutputs { sm_mean, sm_cov })
    }
}

fn one_period<'a>(h: &'a [f64], flags: &'a [u8], y: &'a [f64]) -> Inputs<'a> {
    let (one, zero) = (&[1.0], &[0.0]);
    Inputs { p: 1, m: 1, r: 1, n: 1, z: one, h, t: one, rr: one, q: &[2.0], c: zero, d: zero, a1: zero, p_star: zero, flags, y, ..Inputs::default() }
}

#[test]
fn what_is_written() {
    let need = Lengths::needed(1, 1, 1);
    assert_eq!((need.pred_mean, need.pred_cov, need.mean, need.cov, need.record, need.gain), (2, 2, 1, 1, 1, 1));

    // 7 writes nothing.
    let mut lent = Lent::new();
    assert_eq!(lent.smooth(&one_period(&[1.0], &[2], &[2.0])), Err(Refusal::StartShape));
    assert_eq!((lent.pred, lent.rest, lent.kinds), ([[7.0; 3]; 3], [[7.0; 2]; 9], [7; 2]));

    // Nor does 2, of transitions that are not given, are given twice, or run out.
    for (n, t, ts) in [(1, &[][..], &[][..]), (1, &[1.0], &[1.0]), (2, &[], &[1.0])] {
        assert_eq!(lent.smooth(&Inputs { n, t, ts, ..one_period(&[1.0], &[1], &[2.0, 6.0][..n]) }), Err(Refusal::Length));
        assert_eq!((lent.pred, lent.rest, lent.kinds), ([[7.0; 3]; 3], [[7.0; 2]; 9], [7; 2]));
    }

    // Nor does 14. What is lent has room for a second period: figures B and C, where the list repeats its design.
    let two_periods = Inputs { n: 2, z: &[], zs: &[1.0], ..one_period(&[1.0], &[1], &[2.0, 6.0]) };
    assert_eq!(lent.smooth(&two_periods), Err(Refusal::ListShort));
    assert_eq!((lent.pred, lent.rest, lent.kinds), ([[7.0; 3]; 3], [[7.0; 2]; 9], [7; 2]));
    let mut both = Lent::new();
    let answer = both.smooth(&Inputs { repeats: true, ..two_periods }).unwrap();
    assert_eq!((answer.d_diffuse, answer.heard, answer.news), (1, 2, 2));
    assert_eq!((both.pred[0], both.pred[1]), ([0.0, 2.0, 5.0], [0.0, 3.0, 2.75]));
    assert_eq!((both.rest[7], both.rest[8]), ([3.0, 5.0], [0.75, 0.75]));

    // 12 sets the needed stretch to 0, and leaves the rest.
    assert_eq!(lent.smooth(&one_period(&[0.0], &[0], &[2.0])), Err(Refusal::NoInformation));
    assert_eq!((lent.pred, lent.rest, lent.kinds), ([[0.0, 0.0, 7.0]; 3], [[0.0, 7.0]; 9], [0, 7]));

    // An answer leaves the rest too. Figure A, with the start before it; what is smoothed over one period is what was filtered.
    let answer = lent.smooth(&one_period(&[1.0], &[1], &[2.0])).unwrap();
    assert_eq!((answer.d_diffuse, answer.heard, answer.news, answer.cov_off, answer.mean_off), (1, 1, 1, None, None));
    assert_eq!(lent.pred, [[0.0, 2.0, 7.0], [0.0, 3.0, 7.0], [1.0, 0.0, 7.0]]);
    assert_eq!(lent.kinds, [2, 7]);
    let [filt_mean, filt_cov, v, f_star, f_inf, _, _, sm_mean, sm_cov] = lent.rest;
    assert_eq!([filt_mean, filt_cov, v, f_star, f_inf], [[2.0, 7.0], [1.0, 7.0], [2.0, 7.0], [1.0, 7.0], [1.0, 7.0]]);
    assert_eq!([sm_mean, sm_cov], [[2.0, 7.0], [1.0, 7.0]]);
}

/// Nothing lent at all.
#[test]
fn empty_parts() {
    assert_eq!(lent::filter(&Inputs::default(), &mut Outputs::default()), Err(Refusal::Dimension));
    let one = Inputs { p: 1, m: 1, r: 1, n: 1, ..Inputs::default() };
    assert_eq!(lent::filter(&one, &mut Outputs::default()), Err(Refusal::Length));
    assert_eq!(lent::smooth(&one, &mut Outputs::default(), &mut SmoothedOutputs::default()), Err(Refusal::Length));
}

#[test]
fn numbers_and_words() {
    let numbers = [1, 2, 3, 4, 5, 6, 7, 8, 9, 10, 11, 12, 14, 15];
    assert_eq!(Refusal::ALL.map(Refusal::number), numbers);
    for (number, refusal) in numbers.into_iter().zip(Refusal::ALL) {
        assert_eq!(Refusal::from_number(number), Some(refusal));
        assert!(!refusal.to_string().is_empty());
    }
    assert_eq!((Refusal::ListShort.number(), Refusal::BadSaved.number()), (14, 15));
    for none in [0, 13, 16, u32::MAX] {
        assert_eq!(Refusal::from_number(none), None);
    }
    let error: Box<dyn std::error::Error> = Box::new(Refusal::Length);
    assert_eq!(error.to_string(), Refusal::Length.to_string());
}
