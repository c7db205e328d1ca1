//! Document 02's fourteen periods, of a clock; and that two models of it give the same.

use crate::same::{all_bits, answer, is_part};
use goxundar::{begin, filter, smooth, Model, Run, Saved, Smoothed, Transition};

/// Document 02's periods.
pub const N: usize = 14;

/// An offset and its rate, on two inputs. So a design has four numbers, and a transition too. The designs are still to come.
pub fn clock() -> Model {
    Model {
        h: vec![1.0, 0.0, 0.0, 4.0],
        transition: Transition::Constant(vec![1.0, 1.0, 0.0, 1.0]),
        rr: vec![0.0, 1.0],
        q: vec![0.25],
        diffuse: vec![true; 2],
        ..Model::zeros(2, 2, 1)
    }
}

/// That many designs, up to sixteen: no two are the same.
pub fn designs(count: usize) -> Vec<f64> {
    (0..4 * count).map(|i| (i * i % 67) as f64 - 20.0).collect()
}

pub fn readings() -> Vec<f64> {
    (0..2 * N).map(|i| if i % 5 == 3 { f64::NAN } else { (i * i % 29) as f64 }).collect()
}

fn same_run(got: &Run, want: &Run) {
    assert_eq!((got.periods(), answer(got)), (want.periods(), answer(want)));
    is_part(got, want, 0);
}

fn same_smoothed(got: &Smoothed, want: &Smoothed) {
    same_run(got.run(), want.run());
    for (got, want) in (0..N).map(|t| (got.smoothed(t), want.smoothed(t))) {
        assert_eq!((all_bits(got.mean), all_bits(got.cov)), (all_bits(want.mean), all_bits(want.cov)));
    }
}

/// Three calls give the same, of either model, bit for bit: the filter, the smoother, and the filter as a stretch, with its bytes.
pub fn same_calls(got: &Model, want: &Model) {
    let y = &readings();
    same_run(&filter(got, N, y).unwrap(), &filter(want, N, y).unwrap());
    same_smoothed(&smooth(got, N, y).unwrap(), &smooth(want, N, y).unwrap());
    let (stretches, saved): (Vec<Run>, Vec<Saved>) = [got, want].map(|model| begin(model, N, y).unwrap()).into_iter().unzip();
    same_run(&stretches[0], &stretches[1]);
    assert_eq!(saved[0], saved[1]);
}
