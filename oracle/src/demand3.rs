//! Demand 3 and request k, tried on the oracle itself, filter and smoother,
//! the reports of request h among the rest; and the other readings and
//! offsets that they are tried with.

use parts::{Answer, Outcome, GAP, KINDS};

use crate::case::{run, same_answer, writes, Case, Expected};
use crate::gen::Cases;
use crate::kinds::is_skip;
use crate::marks;
use crate::rng::Rng;

/// Parts that neither the values of finite readings nor the offsets must
/// reach: covariances, kinds, variances, gain vectors.
const BLIND: [usize; 9] = [1, 2, 4, 5, 7, 8, 9, 10, 12];

/// What was looked at.
#[derive(Debug, Default, Clone, Copy)]
pub struct Looked {
    /// Calls with other finite readings.
    pub first: u64,
    /// Skipped finite readings, each tried with another number and a gap: by
    /// the kind of their record.
    pub second: [u64; KINDS],
    /// Calls with other offsets, whose means moved.
    pub offsets: u64,
    /// Calls with other offsets that are refused for a list's reach: 2 or 14.
    pub short: u64,
}

/// Another finite number: any at all, the same with the other sign, 0, or
/// one close by.
pub fn other(rng: &mut Rng, x: f64) -> f64 {
    loop {
        let y = match rng.below(4) {
            0 => rng.finite(),
            1 => -x,
            2 => 0.0,
            _ => x + rng.plain(),
        };
        if y.is_finite() && y.to_bits() != x.to_bits() {
            return y;
        }
    }
}

/// The case with other values of finite readings: of all of them, or of
/// some.
pub fn other_values(rng: &mut Rng, case: &Case) -> Case {
    let mut changed = case.clone();
    let all = rng.chance(1, 2);
    for y in changed.y.iter_mut().filter(|y| y.is_finite()) {
        if all || rng.chance(1, 2) {
            *y = other(rng, *y);
        }
    }
    changed
}

/// The case with other c, d and a1, and often with other values of finite
/// readings too. Of a state with a flag a1 stays zero, of the other sign.
pub fn other_offsets(rng: &mut Rng, case: &Case) -> Case {
    let mut changed = match rng.chance(1, 2) {
        true => other_values(rng, case),
        false => case.clone(),
    };
    for x in changed.c.iter_mut().chain(&mut changed.d) {
        *x = other(rng, *x);
    }
    for (x, flag) in changed.a1.iter_mut().zip(&case.flags) {
        *x = if *flag == 0 { other(rng, *x) } else { -*x };
    }
    changed
}

/// The counts, and the report on the covariances. The one on the means may
/// go by readings and offsets.
fn same_counts(a: &Outcome, b: &Outcome) -> bool {
    let counts = |a: &Answer| (a.d_diffuse, a.heard, a.news, a.cov_off);
    match (a, b) {
        (Ok(a), Ok(b)) => counts(a) == counts(b),
        (Err(a), Err(b)) => a == b,
        _ => false,
    }
}

/// First half: other values of finite readings. Request k: other offsets.
fn blind(a: &Expected, b: &Expected, what: &str) -> Result<(), String> {
    if !same_counts(&a.filter, &b.filter) || !same_counts(&a.smooth, &b.smooth) {
        return Err(format!("{what}: refusal or counts"));
    }
    match BLIND.iter().find(|&&k| a.written[k] != b.written[k]) {
        Some(k) => Err(format!("{what}: part {k}")),
        None => Ok(()),
    }
}

/// Second half: another number changes nothing.
fn same(a: &Expected, b: &Expected) -> Result<(), String> {
    if !same_answer(&a.filter, &b.filter) || !same_answer(&a.smooth, &b.smooth) {
        return Err("second half, number: answer".into());
    }
    if a.written != b.written {
        return Err("second half, number: outputs".into());
    }
    Ok(())
}

/// Second half: a gap for reading k changes only `heard`, and the cause that
/// record k tells.
fn one_less(a: &Expected, b: &Expected, k: usize) -> Result<(), String> {
    let heard = |o: Outcome| {
        o.map(|mut x| {
            x.heard += 1;
            x
        })
    };
    if !same_answer(&a.filter, &heard(b.filter)) || !same_answer(&a.smooth, &heard(b.smooth)) {
        return Err("second half, gap: answer".into());
    }
    let mut wanted = a.written.clone();
    wanted[5][k] = u64::from(GAP);
    if wanted != b.written {
        return Err("second half, gap: outputs".into());
    }
    Ok(())
}

/// Both halves on one case, and request k.
pub fn try_case(rng: &mut Rng, case: &Case, looked: &mut Looked) -> Result<(), String> {
    let e = run(case);
    if case.y.iter().any(|x| x.is_finite()) {
        blind(&e, &run(&other_values(rng, case)), "first half")?;
        looked.first += 1;
    }
    // The offsets may bring about refusals 2, 6 and 7: of a call past 1 to
    // 11 they are changed so that they do not. A list's reach is judged
    // before 6 and 7.
    let short = [marks::T_SHORT, marks::REFUSAL_14]
        .iter()
        .any(|&k| e.hits[k] > 0);
    if writes(&e.filter) || short {
        let found = run(&other_offsets(rng, case));
        blind(&e, &found, "request k")?;
        looked.offsets += u64::from(found.written[0] != e.written[0]);
        looked.short += u64::from(short);
    }
    if !matches!(e.filter, Ok(a) if a.news > 0) {
        return Ok(());
    }
    for k in 0..case.y.len() {
        if !case.y[k].is_finite() || !is_skip(e.written[5][k]) {
            continue;
        }
        let mut changed = case.clone();
        changed.y[k] = other(rng, case.y[k]);
        same(&e, &run(&changed))?;
        changed.y[k] = rng.gap();
        one_less(&e, &run(&changed), k)?;
        looked.second[e.written[5][k] as usize] += 1;
    }
    Ok(())
}

/// `oracle demand3 SEED COUNT`.
pub fn command(cases: Cases, seed: u64, count: u64) -> Result<(), String> {
    let mut looked = Looked::default();
    let mut rng = Rng::new(seed.wrapping_add(3));
    for (k, (_, case)) in cases.take(count as usize).enumerate() {
        try_case(&mut rng, &case, &mut looked).map_err(|e| format!("case {k}: {e}\n{case:?}"))?;
    }
    let [.., small, below, failed] = looked.second;
    println!(
        "demand 3: {count} cases, {} calls with other readings, skipped readings {small} too small, {below} below the dust line, {failed} failed on replay, {} calls with other offsets, {} refused for a list's reach: nothing found",
        looked.first, looked.offsets, looked.short
    );
    Ok(())
}
