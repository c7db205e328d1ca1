//! The inputs of docs/DIFFERENCES.md and docs/DECISIONS.md, in the words used there, and what the call makes of each.
//!
//! A name and its numbers: `p m r n` the sizes; `Z T R P` matrices row by row (P is P*); `L` listed designs in place of Z, one after the other, and
//! `repeats` their marker; `S` listed transitions in place of T; `H Q` matrices, or only their diagonals; `c d a y` vectors (a is a1); `F` flags.
//! Unless said: sizes 1, Z all 1, T the identity, no flag, no marker, readings 0, all else 0. `2^k` is a power of two.

use oracle::case::{run, Buffers, Case, Expected, NAN};
use oracle::rng::pow2;
use oracle::{needed, stretch_call, Stretch};
use parts::Answer;
use tsecon_ssm_probed::probe::Branch;

fn number(word: &str) -> f64 {
    if word == "NaN" {
        return f64::NAN;
    }
    let (sign, rest) = match word.strip_prefix('-') {
        Some(rest) => (-1.0, rest),
        None => (1.0, word),
    };
    let term = |t: &str| match t.strip_prefix("2^") {
        Some(e) => pow2(e.parse().unwrap()),
        None => t.parse().unwrap(),
    };
    sign * rest.split('+').map(term).fold(0.0, |s, x: f64| s + x)
}

/// A square matrix from all its entries, or from its diagonal.
fn square(k: usize, given: Vec<f64>) -> Vec<f64> {
    if given.len() == k * k {
        return given;
    }
    let mut a = vec![0.0; k * k];
    for (i, x) in given.into_iter().enumerate() {
        a[i * k + i] = x;
    }
    a
}

fn case(words: &str) -> Case {
    let mut c = Case {
        p: 1,
        m: 1,
        r: 1,
        n: 1,
        ..Case::default()
    };
    let mut name = "";
    for word in words.split_whitespace() {
        if word.starts_with(char::is_alphabetic) && word != "NaN" {
            name = word;
            continue;
        }
        let x = number(word);
        match name {
            "p" => c.p = x as usize,
            "m" => c.m = x as usize,
            "r" => c.r = x as usize,
            "n" => c.n = x as usize,
            "Z" => c.z.push(x),
            "L" => c.zs.push(x),
            "repeats" => c.repeats = x as u8,
            "H" => c.h.push(x),
            "T" => c.t.push(x),
            "S" => c.ts.push(x),
            "R" => c.rr.push(x),
            "Q" => c.q.push(x),
            "c" => c.c.push(x),
            "d" => c.d.push(x),
            "a" => c.a1.push(x),
            "P" => c.p_star.push(x),
            "F" => c.flags.push(x as u8),
            "y" => c.y.push(x),
            _ => panic!("{name}"),
        }
    }
    let (p, m, r, n) = (c.p, c.m, c.r, c.n);
    if c.z.is_empty() && c.zs.is_empty() {
        c.z = vec![1.0; p * m];
    }
    if c.t.is_empty() && c.ts.is_empty() {
        c.t = square(m, vec![1.0; m]);
    }
    c.h = square(p, c.h);
    c.q = square(r, c.q);
    for (part, len) in [
        (&mut c.rr, m * r),
        (&mut c.c, m),
        (&mut c.d, p),
        (&mut c.a1, m),
        (&mut c.p_star, m * m),
        (&mut c.y, n * p),
    ] {
        part.resize(len, 0.0);
    }
    c.flags.resize(m, 0);
    c.lend_needed();
    c
}

fn calls(words: &str) -> Expected {
    run(&case(words))
}

fn refused(words: &str) -> u32 {
    let e = calls(words);
    assert_eq!(e.filter.unwrap_err(), e.smooth.unwrap_err());
    e.filter.unwrap_err()
}

fn answer(e: &Expected) -> Answer {
    e.filter.unwrap()
}

const NAMES: [&str; 13] = oracle::case::OUTPUT_NAMES;

/// What stands in an output, as bits with NaNs as one; numbers in the words of a case, `inf` besides.
fn holds(e: &Expected, name: &str, want: &str) {
    let k = NAMES.iter().position(|&n| n == name).unwrap();
    let bits = |w: &str| match w {
        "NaN" => NAN,
        _ if name == "kinds" => w.parse().unwrap(),
        _ => number(w).to_bits(),
    };
    let want: Vec<u64> = want.split_whitespace().map(bits).collect();
    let got = &e.written[k];
    let shown: Vec<f64> = got.iter().map(|&b| f64::from_bits(b)).collect();
    assert_eq!(got, &want, "{name} holds {shown:?}");
}

/// What the two reports must say, the covariances' and the means', by both calls.
fn told(words: &str, cov_off: usize, mean_off: usize) -> Expected {
    let e = calls(words);
    for outcome in [e.filter, e.smooth] {
        let a = outcome.unwrap();
        assert_eq!((a.cov_off, a.mean_off), (cov_off, mean_off), "{words}");
    }
    e
}

fn met(e: &Expected, b: Branch) -> bool {
    e.hits[b as usize] > 0
}

#[test]
fn every_input_of_the_documents_is_run() {
    let here = include_str!("points.rs");
    let pages = [
        include_str!("../../docs/DIFFERENCES.md"),
        include_str!("../../docs/DECISIONS.md"),
    ];
    let mut seen = 0;
    for quoted in pages.iter().flat_map(|page| page.split('`').skip(1).step_by(2)) {
        let Some((name, rest)) = quoted.split_once(' ') else {
            continue;
        };
        let number = rest.starts_with(|c: char| c == '-' || c == 'N' || c.is_ascii_digit());
        if name.len() == 1 && number {
            assert!(here.contains(&format!("\"{quoted}\"")), "not run: {quoted}");
            seen += 1;
        }
    }
    assert!(seen > 50, "{seen}");
}

// ---- docs/DIFFERENCES.md

#[test]
fn difference_1_semidefiniteness_is_not_tested() {
    assert!(calls("m 2 H 1 P 0 1 1 0").filter.is_ok());
    let e = calls("m 2 Z 2^40 2^-40 P 0 2^1000 2^1000 0");
    holds(&e, "kinds", "1");
    holds(&e, "f_star", "inf");
    let e = calls("m 2 p 2 Z 1 1 1 -1 H 0 2+2^-20 P 0 1 1 0");
    assert!(met(&e, Branch::RankZero) && met(&e, Branch::SuspectAccepted));
    holds(&e, "kinds", "1 1");
    let e = calls("m 3 p 2 Z 1 0 0 0 1 1 P 1 1 1 1 1 1+2^-21 1 1+2^-21 1");
    assert!(met(&e, Branch::SuspectRefused));
    holds(&e, "kinds", "1 5");
    assert_eq!(refused("m 2 H 1 P 1 1e-9 0 1"), 7);
    assert_eq!(refused("p 2 H 1 -1e-12"), 4);
}

#[test]
fn difference_2_q_and_h_off_the_diagonal() {
    assert_eq!(refused("m 2 r 2 H 1 R 1 0 0 1 Q 1 0.5 0.5 1"), 5);
    assert_eq!(refused("p 2 H 1 2 2 1"), 8);
}

#[test]
fn difference_3_the_start_is_kept() {
    let e = calls("m 3 Z 1 0 0 H 1 P 1 0.5 0 0.5 1 0 -0.0 0 1");
    holds(&e, "pred_cov", "1 0.5 0 0.5 1 0 -0.0 0 1 0.5 0.25 0 0.25 0.875 0 0 0 1");
    let e = calls("m 2 H 1 P 2^1023 2^1023 2^1023 2^1023 y NaN");
    assert_eq!(e.written[1][..4], [pow2(1023).to_bits(); 4]);
    holds(&calls("H 1 a -0.0 y NaN"), "filt_mean", "-0.0");
}

#[test]
fn difference_6_sums_start_from_plus_zero() {
    let e = calls("H 1 P 1 a -0.0 y -0.0");
    holds(&e, "v", "-0.0");
    holds(&e, "filt_mean", "-0.0");
}

#[test]
fn difference_8_a_nan_scale_is_carried_on() {
    let e = calls("m 2 n 2 Z 1 0 H 1 T 2^600 0 2^600 0 P 1 0 0 1");
    holds(&e, "kinds", "1 3");
}

#[test]
fn difference_9_the_logarithm() {
    assert_eq!(answer(&calls("H 0.01")).loglik, 1.3836465597893732);
}

#[test]
fn difference_12_the_order_of_refusals() {
    // Z has NaN and H a wrong length; n is 0 and H not diagonal.
    let mut c = case("Z NaN H 1");
    c.h.push(1.0);
    assert_eq!(run(&c).filter.unwrap_err(), 2);
    let mut c = case("p 2 H 1 2 2 1");
    c.n = 0;
    c.y.clear();
    assert_eq!(run(&c).filter.unwrap_err(), 1);
}

#[test]
fn difference_15_the_step_back() {
    // By the T of t, the Rust's, the first smoothed mean is 8.
    let e = calls("n 2 H 6 S 2 1 R 1 Q 2 F 1 y 2 36");
    holds(&e, "pred_mean", "0 4 30");
    holds(&e, "pred_cov", "0 26 6.875");
    holds(&e, "sm_mean", "14 30");
    holds(&e, "sm_cov", "1.5 4.875");
    // All of a list is looked at, of a short one nothing; refusal 10 looks at the first. The marker is for designs.
    assert_eq!(refused("n 2 S 1 H 1"), 2);
    assert_eq!(refused("n 2 S NaN repeats 1 H 1"), 2);
    assert_eq!(refused("n 2 L 1 S 1 H 1"), 2);
    assert_eq!(refused("n 2 S 1 1 NaN H 1"), 3);
    assert_eq!(refused("m 2 n 2 S 1 0 1 1 1 0 0 1 H 1 P 0 0 0 1 F 1 0"), 10);
    assert!(calls("m 2 n 2 S 1 0 0 1 1 0 1 1 H 1 P 0 0 0 1 F 1 0").filter.is_ok());
}

#[test]
fn difference_16_a_short_list_is_refused() {
    // The Rust takes the last design again, as the marked call does.
    assert_eq!(refused("n 2 L 1 H 1"), 14);
    assert_eq!(answer(&calls("n 2 L 1 repeats 1 H 1")).loglik, answer(&calls("n 2 H 1")).loglik);
    let gains = "1 1 0.33333333333333337";
    holds(&calls("n 3 L 1 2 repeats 255 H 1 P 1"), "m_star", gains);
    holds(&calls("n 3 L 1 2 2 H 1 P 1"), "m_star", gains);
    // Void for a constant design. A longer list is taken, and all of it is looked at; of a short one nothing is, unless it is marked.
    assert!(calls("n 2 repeats 1 H 1").filter.is_ok());
    assert!(calls("n 2 L 1 1 1 H 1").filter.is_ok());
    assert_eq!(refused("n 2 L 1 1 NaN H 1"), 3);
    assert_eq!(refused("n 2 L NaN H 1"), 14);
    assert_eq!(refused("n 2 L NaN repeats 1 H 1"), 3);
}

// ---- docs/DECISIONS.md: lengths and refusals

#[test]
fn decision_1_and_2_lists_of_designs() {
    let listed = |count: usize, last: f64| {
        let mut c = case("H 1 P 1 y 2");
        c.z.clear();
        c.zs = vec![1.0; count];
        *c.zs.last_mut().unwrap() = last;
        run(&c).filter
    };
    assert!(listed(4096, 1.0).is_ok());
    assert_eq!(listed(4097, 1.0).unwrap_err(), 2);
    assert_eq!(listed(2, f64::NAN).unwrap_err(), 3);
    let mut c = case("m 2 H 1");
    c.z.clear();
    c.zs = vec![1.0; 3];
    assert_eq!(run(&c).filter.unwrap_err(), 2);
}

#[test]
fn decision_3_short_outputs() {
    for k in 0..13 {
        let mut c = case("H 1 P 1 y 2");
        c.lent[k] -= 1;
        let e = run(&c);
        assert_eq!(e.filter.is_err(), k < 11);
        assert_eq!(e.smooth.unwrap_err(), 2);
    }
}

#[test]
fn decision_4_refusal_12_blanks() {
    let mut c = case("y 1");
    for l in &mut c.lent {
        *l += 1;
    }
    // `run` itself checks that the last place keeps what was lent.
    let e = run(&c);
    assert_eq!(e.filter.unwrap_err(), 12);
    assert!(e.written.iter().flatten().all(|&w| w == 0));
    holds(&e, "sm_cov", "0");
}

#[test]
fn decision_5_all_gaps() {
    let a = answer(&calls("H 1 P 1 y NaN"));
    assert_eq!((a.loglik.to_bits(), a.heard, a.news), (0, 0, 0));
}

#[test]
fn decision_6_minus_zero_is_zero() {
    assert!(calls("p 2 r 2 H -0.0 -0.0 -0.0 1 Q -0.0 -0.0 -0.0 -0.0 P 1").filter.is_ok());
    assert!(calls("m 2 H 1 T 1 -0.0 0 1 a -0.0 0 P -0.0 0 -0.0 1 F 1 0").filter.is_ok());
    assert!(calls("m 2 H 1 T 1 0 -0.0 1 F 1 0").filter.is_ok());
}

#[test]
fn decision_7_noise_after_symmetrising() {
    assert_eq!(refused("m 2 H 1 R 1 1 Q 2^1023"), 11);
    assert!(calls("H 1 R 1 Q 2^1023").filter.is_ok());
}

#[test]
fn decision_8_any_nan_is_a_gap() {
    for bits in [0x7FF0_0000_0000_0001, 0xFFFF_FFFF_FFFF_FFFF, NAN] {
        let mut c = case("H 1 P 1");
        c.y[0] = f64::from_bits(bits);
        assert_eq!(run(&c).filter.unwrap().heard, 0);
    }
}

// ---- forward

#[test]
fn decision_10_the_sum_of_squares() {
    let e = calls("m 2 n 2 Z 1 0 H 1 T 2^600 -2^600 2^600 2^600 F 1 1 y NaN 2");
    holds(&e, "pred_inf", "1 0 0 1 0 0 0 0 0 0 0 0");
    assert_eq!(answer(&e).d_diffuse, 1);
    let e = calls("n 2 Z 0 H 1 T 2^600 F 1");
    holds(&e, "pred_inf", "1 inf inf");
    assert_eq!(answer(&e).d_diffuse, 2);
}

#[test]
fn decision_11_symmetrising_and_place_n() {
    holds(&calls("m 2 Z 0 1 F 1 1 P 0 0 -0.0 0"), "filt_cov", "0 0 0 0");
    let e = calls("m 2 Z 1 3 T 0 0 1 1 F 1 1");
    holds(&e, "pred_inf", "1 0 0 1 0 0 0 0.4");
    let e = calls("m 2 Z 0 0 H 1 T 2^1023 0 1 0 P 1 0 0 0");
    holds(&e, "pred_cov", "1 0 0 0 inf inf inf 1");
    let e = calls("m 2 Z 1 2 T 0 3 1 1 F 1 1");
    assert_eq!(e.written[2][5], e.written[2][6]);
    let e = calls("m 2 n 2 Z 0 1 T 0 -2^1023 1 1 F 1 1");
    holds(&e, "kinds", "2 2");
    holds(&calls("H 1 T 2^-9 F 1 y NaN"), "pred_inf", "1 2^-18");
}

#[test]
fn decision_12_a_diffuse_update_is_an_update() {
    let e = calls("p 2 n 2 Z 1 2^500 H 0 1 R 1 Q 1 F 1 y NaN NaN 0 0");
    assert!(met(&e, Branch::Below));
    holds(&e, "kinds", "0 0 2 4");
}

#[test]
fn decision_13_a_suspect_of_a_diffuse_period() {
    let e = calls("m 4 p 2 Z 1 0 0 0 0 1 1 0 P 1 1 1 0 1 1 1+2^-21 0 1 1+2^-21 1 0 0 0 0 0 F 0 0 0 1");
    assert!(met(&e, Branch::SuspectDiffuse));
    holds(&e, "kinds", "1 1");
    let e = calls("m 2 p 3 Z 1 0 0 1 1 1 H 2^-40 0 0 T 0 0 0 0 P 0 0 0 1 F 1 0");
    assert!(met(&e, Branch::SuspectDiffuse));
    holds(&e, "kinds", "2 1 1");
}

#[test]
fn decision_14_bound_leaves_nothing_out() {
    let e = calls("m 3 p 3 n 2 Z 1 1 0 1 1 0 0 0 1 H 0 2^-30 0 T 1 0 0 0 1 0 0 0 2^600 P 0 1 0 1 0 0 0 0 1 y NaN NaN NaN 0 0 NaN");
    assert!(met(&e, Branch::BoundNan));
    holds(&e, "kinds", "0 0 0 1 5 0");
}

#[test]
fn decision_15_abs_quad_form() {
    let e = calls("m 2 n 2 Z 1 0 T 2 1 2^1023 0 F 1 1");
    holds(&e, "kinds", "2 3");
    let e = calls("m 2 p 2 Z 0 2^-500 1 0 H 1 0 T 0 0 0 0 P 1 0 0 0 F 0 1");
    holds(&e, "kinds", "2 1");
    assert_eq!(refused("Z 2^600 H 1 F 1"), 12);
}

#[test]
fn decision_16_what_is_left_out() {
    holds(&calls("Z 2^-500 H 1 F 1"), "sm_mean", "NaN");
    holds(&calls("Z 0 H 1 a -0.0"), "filt_mean", "0");
    holds(&calls("n 2 Z 0 H 1 T 2^1023 F 1"), "sm_mean", "0 0");
}

#[test]
fn decision_17_the_support() {
    let e = calls("m 2 p 2 Z 1 0 1 2^-15 P 1 0 0 1");
    assert!(met(&e, Branch::SuspectAccepted));
    holds(&e, "kinds", "1 1");
    // The third element is a gap, and its row counts.
    let e = calls("m 2 p 3 n 2 Z 1 0 1 0 0 1 H 2^-40 0 0 T 1 0 0 2^600 P 1 0 0 1 y NaN NaN NaN 0 0 NaN");
    assert!(met(&e, Branch::SuspectRefused));
    holds(&e, "kinds", "0 0 0 1 5 0");
}

#[test]
fn decision_18_the_star_root_keeps_its_rank() {
    let e = calls("m 2 p 2 H 2^-1068 0 P 2^-1030 2^-1030 2^-1030 2^-1030");
    assert!(met(&e, Branch::RankShort) && met(&e, Branch::SuspectAccepted));
    holds(&e, "kinds", "1 1");
}

#[test]
fn decision_19_used_rows() {
    let e = calls("m 2 p 2 n 3 Z 2^-600 0 2^-1050 0.5 H 0 2^11 T 2^43 -1 1 -1 P 2^-30 2^-20 2^-20 1");
    assert!(met(&e, Branch::SuspectRefused));
    // The first row is so small that its F* underflows.
    holds(&e, "kinds", "3 1 3 1 1 5");
}

#[test]
fn decision_20_downdate_returns_early() {
    let e = calls("m 3 p 3 Z 1 1 0 0 0 1 0 0 1 H 0 2^-40 0 P 0 1 0 1 0 0 0 0 1");
    assert!(met(&e, Branch::DowndateEarly));
    holds(&e, "kinds", "1 1 1");
}

#[test]
fn decision_21_pivots() {
    // An infinite one is chosen.
    let e = calls("m 2 p 3 n 2 Z 1 0 1 0 0 1 H 2^-40 0 0 T 1 0 0 2^600 P 1 0 0 1 y NaN NaN NaN 0 0 NaN");
    holds(&e, "kinds", "0 0 0 1 5 0");
    // A NaN is not.
    let e = calls("m 3 p 3 n 2 Z 1 0 0 1 0 0 0 1 0 H 2^-40 0 0 T 1 0 0 0 2^600 2^600 0 0 0 P 1 0 0 0 4 -2 0 -2 1 y NaN NaN NaN 0 0 NaN");
    holds(&e, "kinds", "0 0 0 1 1 0");
    // The lowest index on a tie.
    let e = calls("m 3 p 2 Z -1 1 1 -1 1 1+2^-15 P 1 0 1 0 1 1 1 1 1");
    assert!(met(&e, Branch::PivotTie));
    holds(&e, "kinds", "1 1");
}

#[test]
fn decision_22_grouping() {
    holds(&calls("Z 0.1 H 1 d 1 a 1 y 1"), "v", "-0.1");
    assert_eq!(answer(&calls("Z 0 H 3 y 1")).loglik, -1.6349113442053944);
    let e = calls("Z 2^511 P 1 a 2");
    assert_eq!(answer(&e).loglik, f64::NEG_INFINITY);
    holds(&calls("Z 1.5137382941684145 H 1 F 1"), "filt_cov", "0.4364137290616456");
    holds(&calls("Z 2^-500 F 1"), "sm_cov", "0");
    holds(&calls("Z 3 H 1 P 1"), "sm_cov", "0.09999999999999987");
    let e = calls("p 2 H 2^1000 0 P 2^1023");
    holds(&e, "kinds", "1 1");
    let e = calls("m 2 Z 1 2 T 1 1 0 0 c 1 0 d 1 F 1 1");
    holds(&e, "pred_mean", "0 0 0.3999999999999999 0");
}

// ---- backward

#[test]
fn decision_23_a_usual_element_of_a_diffuse_period() {
    let e = calls("m 2 p 2 n 2 Z 0 1 2^-40 1 H 1 0 T 0 0 1 1 c 1 0 F 1 1");
    holds(&e, "sm_mean", "-2^-40 0 1 -2^-40");
    let e = calls("m 2 p 2 n 2 Z 2 1 2 1 H 1 1 T 0 0 1 0 F 1 1");
    holds(&e, "sm_cov", "0.5 -1 -1 2.5000000000000013 0 0 0 0.49999999999999994");
}

#[test]
fn decision_102_what_may_not_be_halved() {
    let covariances = |words: &str, want: &str| holds(&calls(words), "sm_cov", want);
    covariances("m 2 n 2 H 1 T 2^1023 2 -2^1023 0", "NaN NaN NaN NaN 0 0 0 0");
    covariances("m 2 p 2 Z 1 1 1 0 P 1 0 0 0 F 0 1", "0 0 0 0");
    covariances("m 2 p 2 Z 4 1 0 1 H 2^60 0 F 1 1", "2^56 0.375 0.375 0");
    covariances("m 2 p 2 Z 4 1 0 3 H 2^60 0 F 1 1", "2^56 -2.5625 -2.5625 -1.5");
    covariances("m 2 n 3 H 1 T -3 0 3 2^40 F 1 1", "-1 0 0 0 -9 9 9 -2^26 -81 81 81 0");
    covariances("m 2 P 2^1023 0 0 2^-100", "0 -2^-101 -2^-101 2^-100");
    covariances("m 2 P 2^1023 0 0 0 F 0 1", "2^1023 -inf -inf 2^1023");
    covariances("m 2 P 1 -0.0 0 0", "0 0 0 0");
    covariances("m 2 Z 1 0 P 1 2^1023 2^1023 0", "0 0 0 -inf");
}

// ---- numbers that ran off: document 02, request h

#[test]
fn decision_113_two_orders() {
    let alone = |words: &str| {
        let c = case(words);
        let i = c.inputs();
        let whole = Stretch { begins: 1, saved: &[], last: 1 };
        stretch_call(&i, &whole, &mut Buffers::patterned(&needed(i.p, i.m, i.n)).lend().0, &mut []).err()
    };
    assert_eq!(refused("n 2 L 1 H -1"), 14);
    assert_eq!(alone("n 2 L 1 H -1"), Some(4));
    assert_eq!(alone("n 2 L 1 H 1"), Some(14));
    assert_eq!(alone("n 2 L 1 repeats 1 H 1"), None);
    // Of lists of T too, before designs.
    assert_eq!(refused("n 2 S 1 H -1"), 2);
    assert_eq!(alone("n 2 S 1 H -1"), Some(4));
    assert_eq!(alone("n 2 L 1 S 1 H 1"), Some(2));
    assert_eq!(alone("n 2 S 1 1 H 1"), None);
}

#[test]
fn reports_of_covariances() {
    // T·P·T' and R·Q·R' are finite, their sum is not.
    told("n 2 H 1 R 1 Q 2^1023 P 2^1023 y NaN NaN", 2, 0);
    // P∞ alone.
    let e = told("n 2 H 1 T 2^1000 F 1 y NaN NaN", 2, 0);
    holds(&e, "pred_cov", "0 0 0");
    // The filtered one of the only period: by an infinite gain, by symmetrising alone.
    told("m 2 Z 1 0 T 0 0 0 0 P 2^-100 2^1000 2^1000 2^1000 y 1", 1, 1);
    let e = told("m 2 H 1 P 2^1023 2^1023 2^1023 2^1023 y NaN", 1, 0);
    holds(&e, "filt_cov", "2^1023 inf inf 2^1023");
    // The first period stays, though the last is finite again.
    let e = told("m 2 n 3 H 1 T 2^600 1 1 0 F 1 1 y NaN NaN NaN", 2, 0);
    holds(&e, "pred_inf", "1 0 0 1 inf 2^600 2^600 1 0 0 0 0 0 0 0 0");
}

#[test]
fn reports_of_means() {
    // v overflows, and with it the filtered mean; no covariance does.
    let e = told("H 1 P 2^1023 a 2^1023 y -2^1023", 0, 1);
    holds(&e, "pred_mean", "2^1023 -inf");
    told("n 2 H 1 P 2^1023 a 2^1023 y -2^1023 NaN", 0, 1);
    // The second period's predicted one: by T, by c.
    told("n 2 H 1 T 2 P 1 a 2^1023 y NaN NaN", 0, 2);
    told("n 2 H 1 P 1 c 2^1023 a 2^1023 y NaN NaN", 0, 2);
    // Each report has a period of its own.
    told("n 3 H 1 T 2 P 2^1022 a 2^1022 y NaN NaN NaN", 2, 3);
}

#[test]
fn reports_leave_out() {
    // Place n: the covariance, P∞, the mean.
    let e = told("H 1 R 1 Q 2^1023 P 2^1023 y NaN", 0, 0);
    holds(&e, "pred_cov", "2^1023 inf");
    let e = told("m 2 Z 1 0 H 1 T 1 0 0 2^600 F 1 1 y 1", 0, 0);
    holds(&e, "pred_inf", "1 0 0 1 0 0 0 inf");
    let e = told("H 1 T 2 P 1 a 2^1023 y NaN", 0, 0);
    holds(&e, "pred_mean", "2^1023 inf");
    // A NaN in P∞ ends the diffuse state, and zeros are stored.
    told("m 2 n 2 Z 1 0 H 1 T 2^600 -2^600 2^600 2^600 F 1 1 y NaN 2", 0, 0);
    // Refusal 12 carries no report.
    assert_eq!(refused("n 2 H 1 R 1 Q 2^1023 P 2^1023 y NaN 1"), 12);
    // An infinite scale, and so a skipped element; P* stays finite.
    let e = told("p 2 Z 2^600 1 H 1 1 P 2^600", 0, 0);
    holds(&e, "kinds", "3 1");
    // The unresolved matrix; the smoothed covariance; v of a reading that is no news.
    let e = told("m 2 n 2 Z 0 1 T 1 2^600 0 0 F 1 1 y 1 1", 0, 0);
    holds(&e, "kinds", "2 3");
    let e = told("n 2 H 2^-100 T 2^500 R 1 Q 2^-100 y NaN 1", 0, 0);
    assert!(f64::from_bits(e.written[12][0]).is_nan());
    told("p 2 Z 0 1 H 0 1 P 1 d 2^1023 0 y -2^1023 1", 0, 0);
}

// ---- why an element was passed over: document 02, request a

/// The kinds of an answered call, by both calls.
fn kinds(words: &str, want: &str) {
    let e = calls(words);
    assert!(e.filter.is_ok() && e.smooth.is_ok(), "{words}");
    holds(&e, "kinds", want);
}

/// The kinds of a stretch that begins a run and is not its last: it is not judged by refusal 12.
fn begun(words: &str, want: &[u8]) {
    let c = case(words);
    let mut b = Buffers::patterned(&needed(c.p, c.m, c.n));
    let stretch = Stretch { begins: 1, saved: &[], last: 0 };
    let mut save = vec![0; oracle::saved_len(c.m)];
    assert!(stretch_call(&c.inputs(), &stretch, &mut b.lend().0, &mut save).is_ok(), "{words}");
    assert_eq!(b.kinds, want, "{words}");
}

#[test]
fn decision_131_the_first_test_that_fails() {
    kinds("p 2 Z 1 1 P 1", "1 3");
    // No news at all is refusal 12.
    assert_eq!(refused("Z 2^1023 H 1 P 1"), 12);
    begun("Z 2^1023 H 1 P 1", &[3]);
}

/// The first test that fails is the cause. Of each input: the pin, where there is one, and what the other elements are.
#[test]
fn causes_by_the_first_test_that_fails() {
    // F* is 0: against its scale, 0, and behind the pin against the reference, 1. Named for its scale.
    kinds("p 2 P 1", "1 3");
    kinds("p 3 P 1 y 1 NaN 2", "1 0 3");
    // F* is 2^-50, its scale 4: against both too.
    kinds("m 3 p 2 Z 1 0 0 0 1 1 H 0 2^-50 P 1 0 0 0 1 -1 0 -1 1", "1 3");
    // F* is 2^-36, its scale 4: the dust test would take it, before the pin and behind it.
    kinds("m 3 p 2 Z 1 0 0 0 1 1 H 0 2^-36 P 1 0 0 0 1 -1 0 -1 1", "1 3");
    kinds("m 3 p 2 Z 0 1 1 1 0 0 H 2^-36 0 P 1 0 0 0 1 -1 0 -1 1", "3 1");
    // F* is its scale, 2^-50, and below 1e-14 of the reference.
    kinds("p 2 H 0 2^-50 P 1", "1 4");
    // F* is its scale, 2^-29, and a suspect. The star root sees nothing of it; with noise enough it does.
    kinds("m 3 p 2 Z 1 0 0 1 1 1 P 1 0 0 0 0 2^-30 0 2^-30 0", "1 5");
    kinds("m 3 p 2 Z 1 0 0 1 1 1 H 0 2^-40 P 1 0 0 0 0 2^-30 0 2^-30 0", "1 1");
    // All three behind one pin, in any order.
    kinds("m 3 p 4 Z 1 0 0 1 0 0 1 0 0 1 1 1 H 0 2^-50 0 0 P 1 0 0 0 0 2^-30 0 2^-30 0", "1 4 3 5");
    kinds("m 3 p 4 Z 1 0 0 1 1 1 1 0 0 1 0 0 H 0 0 0 2^-50 P 1 0 0 0 0 2^-30 0 2^-30 0", "1 5 3 4");
}

/// Exactly at a tolerance, which is not above it: F* at 1e-10 of its scale, at 1e-14 of the reference, at 1e-6 of the bound; the root's F at 1e-14.
#[test]
fn causes_at_a_tolerance() {
    let at = |words: &str, h: u64, want: &str| {
        let mut c = case(words);
        let last = c.h.len() - 1;
        c.h[last] = f64::from_bits(h);
        let e = run(&c);
        assert!(met(&e, Branch::AtTolerance), "{words}");
        holds(&e, "kinds", want);
    };
    at("m 3 p 2 Z 1 0 0 0 1 1 P 1 0 0 0 1 -1 0 -1 1", 0x3DFB_7CDF_D9E3_8C0C, "1 3");
    at("m 2 p 2 Z 1 0 1 0 P 1 0 0 0 F 0 1", 0x3D06_849B_86A1_2BDA, "1 4");
    at("m 3 p 2 Z 1 0 0 1 1 1 P 1 0 0 0 0 5e-7 0 5e-7 0", 0, "1 5");
    at("m 3 p 2 Z 1 0 0 1 1 1 P 1 0 0 0 0 2^-30 0 2^-30 0", 0x3D06_849B_8755_50B7, "1 5");
}

/// A scale that is infinite or NaN is passed by no F*, infinite or not, before an update or behind one.
#[test]
fn causes_by_numbers_that_are_not_finite() {
    kinds("p 2 Z 2^1023 1 H 1 1 P 1", "3 1");
    kinds("p 2 Z 1 2^1023 H 1 1 P 1", "1 3");
    kinds("m 2 p 2 Z 2^600 0 0 1 H 1 1 P 0 0 0 1", "3 1");
    // The reference of this one is NaN too. It can't be where the scale is finite: a term of it that is NaN has an infinite square of the row, or an
    // entry of P* that is not finite, and no update takes either away. So no suspect has such a reference.
    kinds("m 2 p 2 Z 0 1 2^600 0 H 0 1 P 0 0 0 1", "1 3");
    // An infinite reference is above every F*: below. The scale is the noise alone.
    kinds("p 2 Z 1 2^300 H 0 1 P 2^600", "1 4");
    // The bound is NaN, and the star root's F: failed.
    kinds("m 2 p 3 n 2 Z 1 0 1 0 0 1 H 2^-40 0 0 T 1 0 0 2^600 P 1 0 0 1 y NaN NaN NaN 0 0 NaN", "0 0 0 1 5 0");
}

/// In a diffuse period a cause is of F* alone, also where F∞ was refused; a suspect is taken.
#[test]
fn causes_in_a_diffuse_period() {
    let diffuse = |words: &str, want: &str| {
        kinds(words, want);
        assert_eq!(answer(&calls(words)).d_diffuse, case(words).n, "{words}");
    };
    diffuse("m 2 p 3 Z 1 0 1 0 1 0 H 0 2^-50 0 P 1 0 0 0 F 0 1", "1 4 3");
    diffuse("m 4 p 2 Z 1 0 0 0 1 1 1 0 P 1 0 0 0 0 0 2^-30 0 0 2^-30 0 0 0 0 0 0 F 0 0 0 1", "1 1");
    diffuse("p 2 F 1", "2 3");
    diffuse("m 2 n 2 Z 1 0 T 2 1 2^1023 0 F 1 1", "2 3");
    diffuse("p 2 n 2 H 0 2^-50 R 1 Q 1 F 1 y NaN NaN 0 0", "0 0 2 4");
}

/// Refusal 12 blanks: its records are gaps, whatever the causes were. A stretch that is not the last is not judged by it, and tells them.
#[test]
fn causes_and_refusal_12() {
    let silent = "p 3 Z 0 1 2^1023 H 0 0 1 y 1 NaN 2";
    assert_eq!(refused(silent), 12);
    holds(&calls(silent), "kinds", "0 0 0");
    begun(silent, &[3, 0, 3]);
    let c = case(silent);
    let mut b = Buffers::patterned(&needed(3, 1, 1));
    let last = Stretch { begins: 1, saved: &[], last: 1 };
    assert_eq!(stretch_call(&c.inputs(), &last, &mut b.lend().0, &mut []).err(), Some(12));
    assert_eq!(b.kinds, [0; 3]);
}

// ---- numbers

#[test]
fn decision_24_the_tolerances() {
    assert_eq!(1e-10f64.to_bits(), 0x3DDB_7CDF_D9D7_BDBB);
    assert_eq!(1e-14f64.to_bits(), 0x3D06_849B_86A1_2B9B);
    assert_eq!(1e-6f64.to_bits(), 0x3EB0_C6F7_A0B5_ED8D);
}
