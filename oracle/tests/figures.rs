//! The bench figures of document 01, starred and not, and of request g.

use oracle::case::run;
use oracle::figures::{all, dust, hold, led_into, sized};
use oracle::marks;
use oracle::rng::pow2;
use parts::{needed, Answer};
use tsecon_ssm_probed::probe::Branch;

fn answer(e: &oracle::case::Expected) -> Answer {
    assert!(oracle::case::same_answer(&e.filter, &e.smooth));
    e.filter.unwrap()
}

#[test]
fn every_figure_is_as_said() {
    for figure in all() {
        hold(&figure, &run(&figure.case));
    }
}

#[test]
fn i_blanks_every_part() {
    let figure = all().into_iter().find(|f| f.name == "I").unwrap();
    let need = needed(1, 1, 1);
    for (k, w) in run(&figure.case).written.iter().enumerate() {
        assert_eq!(*w, vec![0; need[k]], "part {k} is blank");
    }
}

#[test]
fn j_writes_nothing() {
    let figure = all().into_iter().find(|f| f.name == "J").unwrap();
    assert!(run(&figure.case).written.iter().all(|w| w.is_empty()));
}

/// By the T of t the step back would be by 1, and the first mean 8: as it is
/// where a 1 leads into the second period, and c and Q make up for it, so that
/// the same is predicted there.
#[test]
fn the_step_back_takes_the_transition_before() {
    let figure = led_into();
    let mut other = figure.clone();
    other.ts = vec![1.0, 1.0];
    other.c = vec![2.0];
    other.q = vec![20.0];
    let means = |case| run(case).written[11].clone();
    assert_eq!(means(&figure), [14f64, 30.0].map(f64::to_bits));
    assert_eq!(means(&other), [8f64, 30.0].map(f64::to_bits));
}

#[test]
fn k_logarithm_of_one() {
    assert_eq!(tsecon_linalg::ln(1.0).to_bits(), 0);
}

#[test]
fn largest_sizes_pass() {
    assert_eq!(answer(&run(&sized(8, 1))).news, 1);
    assert_eq!(answer(&run(&sized(8, 4096))).heard, 4096);
    assert_eq!(answer(&run(&sized(1, 4096))).news, 4096);
    assert_eq!(run(&sized(1, 4097)).filter.unwrap_err(), 1);
    assert_eq!(run(&sized(8, 4097)).smooth.unwrap_err(), 1);
}

/// Any two finite readings, and the branch that each one takes.
#[test]
fn dust_on_the_second_input() {
    for y in [[2.0, 7.0], [0.0, -0.0], [-1e300, 3e-320]] {
        let e = run(&dust(pow2(-10), y));
        assert_eq!(e.written[5], [1, 1]);
        assert_eq!(e.hits[Branch::ClearBound as usize], 1);
        assert_eq!(e.hits[Branch::RootBuilt as usize], 0);

        let e = run(&dust(pow2(-40), y));
        assert_eq!(e.written[5], [1, 1]);
        assert_eq!(e.hits[Branch::SuspectAccepted as usize], 1);

        let e = run(&dust(pow2(-50), y));
        assert_eq!(e.written[5], [1, 4]);
        assert_eq!(e.hits[Branch::Below as usize], 1);
    }
}

#[test]
fn the_constants() {
    assert_eq!(1e-10f64.to_bits(), 0x3DDB_7CDF_D9D7_BDBB);
    assert_eq!(1e-14f64.to_bits(), 0x3D06_849B_86A1_2B9B);
    assert_eq!(1e-6f64.to_bits(), 0x3EB0_C6F7_A0B5_ED8D);
    assert_eq!(marks::NAMES.len(), marks::COUNT);
}
