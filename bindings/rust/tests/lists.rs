//! Lists of designs. One that runs out is refused, unless it is said to repeat its last: then it gives what the list gives in which that is written
//! out.

mod clock;
mod level;
mod same;

use clock::{designs, readings, same_calls, N};
use goxundar::{begin, filter, raw, smooth, Design, Model, Refusal, Saved};
use level::level;
use same::{answer, is_part};
use std::ptr::null;

const GAP: f64 = f64::NAN;

/// The clock, with these designs.
fn clock(design: Design) -> Model {
    Model { design, ..clock::clock() }
}

/// The last design, written out for each period that has none.
fn written_out(mut designs: Vec<f64>) -> Vec<f64> {
    while designs.len() < 4 * N {
        designs.extend_from_within(designs.len() - 4..);
    }
    designs
}

#[test]
fn twelve_designs_for_fourteen_periods() {
    for given in 1..N {
        let (listed, repeated) = (clock(Design::Listed(designs(given))), clock(Design::Repeated(designs(given))));
        assert_eq!(filter(&listed, N, &readings()).unwrap_err(), Refusal::ListShort, "{given} designs");
        assert_eq!(smooth(&listed, N, &readings()).unwrap_err(), Refusal::ListShort, "{given} designs");
        assert_eq!(begin(&listed, N, &readings()).unwrap_err(), Refusal::ListShort, "{given} designs");
        same_calls(&repeated, &clock(Design::Listed(written_out(designs(given)))));
    }
    // The designs tell: so it is the last that is used again, and as often as that.
    let mean = |given| filter(&clock(Design::Repeated(designs(given))), N, &readings()).unwrap().filtered(N - 1).mean.to_vec();
    assert!((1..N).all(|given| mean(given) != mean(given + 1)));
}

#[test]
fn a_list_that_reaches() {
    for given in N..=16 {
        same_calls(&clock(Design::Repeated(designs(given))), &clock(Design::Listed(designs(given))));
        same_calls(&clock(Design::Listed(designs(given))), &clock(Design::Listed(designs(N))));
    }
}

/// Of one design, repeated, no period can tell that it is not the constant one.
#[test]
fn one_design_repeated() {
    same_calls(&clock(Design::Repeated(designs(1))), &clock(Design::Constant(designs(1))));
    // Figure B.
    let run = filter(&Model { design: Design::Repeated(vec![1.0]), ..level() }, 2, &[2.0, 6.0]).unwrap();
    assert_eq!((run.filtered(1).mean, run.filtered(1).cov), (&[5.0][..], &[0.75][..]));
}

/// Designs of 1 and 0, four periods. A design of 0 reads noise alone: only the first reading moves the level, to 2.
#[test]
fn by_hand() {
    let run = filter(&Model { design: Design::Repeated(vec![1.0, 0.0]), ..level() }, 4, &[2.0, 6.0, 7.0, 8.0]).unwrap();
    for t in 0..4 {
        assert_eq!((run.filtered(t).mean, run.filtered(t).cov), (&[2.0][..], &[1.0 + 2.0 * t as f64][..]));
    }
}

/// The filter as C calls it, on figure B with a list of one design: what it returns, and the places of the answer, each of which was 7.
#[rustfmt::skip]
fn as_c_calls(repeats: u8) -> (u32, f64, [usize; 5]) {
    let (one, two, zero, flag, y) = (&1.0, &2.0, &0.0, &1, [2.0, 6.0]);
    let (mut pred, mut rest, mut kinds, mut loglik, mut counts) = ([[7.0; 3]; 3], [[7.0; 2]; 7], [7; 2], 7.0, [7; 5]);
    let [pm, pc, pi] = pred.each_mut().map(|part| part.as_mut_ptr());
    let [fm, fc, v, fs, fi, ms, mi] = rest.each_mut().map(|part| part.as_mut_ptr());
    let [d_diffuse, heard, news, cov_off, mean_off] = &mut counts;
    // Safety: each part has as many numbers as its length says, and none overlaps another.
    let number = unsafe {
        raw::goxundar_filter(
            1, 1, 1, 2, null(), 0, one, 1, repeats, one, 1, one, 1, null(), 0, one, 1, two, 1, zero, 1, zero, 1, zero, 1, zero, 1, flag, 1,
            y.as_ptr(), 2,
            pm, 3, pc, 3, pi, 3, fm, 2, fc, 2, kinds.as_mut_ptr(), 2, v, 2, fs, 2, fi, 2, ms, 2, mi, 2,
            &mut loglik, d_diffuse, heard, news, cov_off, mean_off,
        )
    };
    (number, loglik, counts)
}

#[test]
fn any_number_but_0_is_a_marker() {
    assert_eq!(as_c_calls(0), (14, 7.0, [7; 5]));
    for marker in [1, 2, 128, 255] {
        let (number, _, counts) = as_c_calls(marker);
        assert_eq!((number, counts), (0, [1, 2, 2, 0, 0]), "{marker}");
    }
}

// ---- in stretches

/// The list reaches as far as the run has come: the periods done and the stretch's.
#[test]
fn from_the_runs_first_period() {
    let (listed, repeated) = (clock(Design::Listed(designs(12))), clock(Design::Repeated(designs(12))));
    let y = readings();
    let whole = filter(&repeated, N, &y).unwrap();
    for cut in 0..=N {
        let (before, after) = y.split_at(2 * cut);
        let (run, saved) = begin(&repeated, cut, before).unwrap();
        is_part(&run, &whole, 0);
        let rest = saved.finish(&repeated, N - cut, after).unwrap();
        is_part(&rest, &whole, cut);
        assert_eq!(answer(&rest), answer(&whole));
        assert_eq!(saved.finish(&listed, N - cut, after).unwrap_err(), Refusal::ListShort, "cut after {cut}");
        // Up to the twelfth period the list will do. The bytes don't tell which of the two it was.
        match begin(&listed, cut, before) {
            Ok((_, same)) => assert!(cut <= 12 && same == saved, "cut after {cut}"),
            Err(refusal) => assert!(cut > 12 && refusal == Refusal::ListShort, "cut after {cut}"),
        }
        for n in 0..=N - cut {
            let refusal = saved.resume(&listed, n, &after[..2 * n]).err();
            assert_eq!(refusal, (cut + n > 12).then_some(Refusal::ListShort), "{n} periods after {cut}");
        }
    }
}

/// 1 to 11 and 15 come first, and 12 comes after.
#[test]
fn the_order_in_a_stretch() {
    // Figure I: a reading that is heard, and no news.
    let known = Model { design: Design::Listed(vec![1.0]), h: vec![0.0], diffuse: vec![false], ..level() };
    let (_, saved) = begin(&known, 1, &[1.0]).unwrap();
    let refusal = |model: &Model, saved: &Saved| saved.finish(model, 1, &[GAP]).unwrap_err();
    let with = |design| Model { design, ..known.clone() };
    let mut bytes = saved.as_bytes().to_vec();
    bytes[0] = 1;
    let bad = Saved::from_bytes(bytes);

    assert_eq!(refusal(&with(Design::Listed(vec![])), &bad), Refusal::Length);
    assert_eq!(refusal(&with(Design::Listed(vec![GAP])), &bad), Refusal::NonFiniteSystem);
    assert_eq!(refusal(&Model { rr: vec![1e200], ..known.clone() }, &bad), Refusal::NonFiniteNoise);
    assert_eq!(refusal(&known, &bad), Refusal::BadSaved);
    assert_eq!(refusal(&known, &saved), Refusal::ListShort);
    assert_eq!(refusal(&with(Design::Repeated(vec![1.0])), &saved), Refusal::NoInformation);
}
