//! Refusals 1 to 10 of document 01 and the reach of document 02's lists (2
//! for transitions, 14 for designs), each as a test of its own, and the first
//! that applies. Refusal 11 needs R·Q·R' and stands with the call; 12 is
//! judged after the run; a list's reach in a stretch, which counts from the
//! run's first period, after the saved bytes.

use crate::{needed, saved_len, Inputs, MAX_PERIODS, MAX_SIZE};

fn some_size_outside(i: &Inputs<'_>) -> bool {
    let size = 1..=MAX_SIZE;
    !(size.contains(&i.p) && size.contains(&i.m) && size.contains(&i.r))
}

/// 1: p, m, r or n outside its range.
pub fn bad_dimension(i: &Inputs<'_>) -> bool {
    some_size_outside(i) || !(1..=MAX_PERIODS).contains(&i.n)
}

/// Whether a matrix of `size` numbers is given once, or as a list of 1 to
/// 4096: exactly one of the two.
fn once_or_listed(once: &[f64], list: &[f64], size: usize) -> bool {
    if list.is_empty() {
        once.len() == size
    } else {
        once.is_empty() && list.len() % size == 0 && list.len() / size <= MAX_PERIODS
    }
}

/// 2: a lent part has the wrong length, or the rule of Z or of T is broken.
/// `lent` are the lengths of the output parts: eleven in the filter's call,
/// thirteen in the smoother's.
pub fn bad_length(i: &Inputs<'_>, lent: &[usize]) -> bool {
    let (p, m, r, n) = (i.p, i.m, i.r, i.n);
    let inputs_ok = once_or_listed(i.z, i.zs, p * m)
        && once_or_listed(i.t, i.ts, m * m)
        && i.h.len() == p * p
        && i.rr.len() == m * r
        && i.q.len() == r * r
        && i.c.len() == m
        && i.d.len() == p
        && i.a1.len() == m
        && i.p_star.len() == m * m
        && i.flags.len() == m
        && i.y.len() == n * p;
    let outputs_ok = lent.iter().zip(needed(p, m, n)).all(|(&l, k)| l >= k);
    !(inputs_ok && outputs_ok)
}

/// Whether a list is given, and it holds fewer matrices of `size` numbers
/// than the run has periods.
fn falls_short(list: &[f64], size: usize, periods: usize) -> bool {
    !list.is_empty() && list.len() / size < periods
}

/// 2, as a test of its own: the listed transitions do not reach the run's
/// last period. The marker is for designs alone. Sizes and lengths must be
/// right, here and in the next one.
pub fn transitions_short(i: &Inputs<'_>, periods: usize) -> bool {
    falls_short(i.ts, i.m * i.m, periods)
}

/// 14: the listed designs do not, unmarked.
pub fn list_short(i: &Inputs<'_>, periods: usize) -> bool {
    i.repeats == 0 && falls_short(i.zs, i.p * i.m, periods)
}

fn some_non_finite(x: &[f64]) -> bool {
    x.iter().any(|v| !v.is_finite())
}

/// 3: Z, T (each listed one), H, R or Q has NaN or an infinity.
pub fn non_finite_system(i: &Inputs<'_>) -> bool {
    [i.z, i.zs, i.h, i.t, i.ts, i.rr, i.q]
        .iter()
        .any(|x| some_non_finite(x))
}

/// 4: a diagonal entry of H or Q is below 0.
pub fn not_psd(i: &Inputs<'_>) -> bool {
    (0..i.p).any(|k| i.h[k * i.p + k] < 0.0) || (0..i.r).any(|k| i.q[k * i.r + k] < 0.0)
}

fn off_diagonal(a: &[f64], k: usize) -> bool {
    (0..k).any(|i| (0..k).any(|j| i != j && a[i * k + j] != 0.0))
}

/// 5: an off-diagonal entry of Q is not 0.
pub fn q_not_diagonal(i: &Inputs<'_>) -> bool {
    off_diagonal(i.q, i.r)
}

/// 6: c, d, a1 or P* is not finite.
pub fn non_finite_start(i: &Inputs<'_>) -> bool {
    [i.c, i.d, i.a1, i.p_star]
        .iter()
        .any(|x| some_non_finite(x))
}

/// 7: a flag above 1; P* not mirrored as numbers or with a negative diagonal
/// entry; a flagged state with non-zero a1 or a non-zero P* row or column.
pub fn bad_start_shape(i: &Inputs<'_>) -> bool {
    let m = i.m;
    let p_star = |a: usize, b: usize| i.p_star[a * m + b];
    let flag = i.flags.iter().any(|&f| f > 1);
    let mirror = (0..m).any(|a| (0..m).any(|b| p_star(a, b) != p_star(b, a)));
    let negative = (0..m).any(|a| p_star(a, a) < 0.0);
    let held = (0..m).any(|a| {
        i.flags[a] != 0
            && (i.a1[a] != 0.0 || (0..m).any(|b| p_star(a, b) != 0.0 || p_star(b, a) != 0.0))
    });
    flag || mirror || negative || held
}

/// 8: an off-diagonal entry of H is not 0.
pub fn non_diagonal_h(i: &Inputs<'_>) -> bool {
    off_diagonal(i.h, i.p)
}

/// 9: some y is infinite.
pub fn infinite_reading(i: &Inputs<'_>) -> bool {
    i.y.iter().any(|v| v.is_infinite())
}

/// 10: T, of a list its first, at (unflagged, flagged) is not 0.
pub fn mixed_driven(i: &Inputs<'_>) -> bool {
    let m = i.m;
    let first = if i.ts.is_empty() { i.t } else { i.ts };
    (0..m).any(|a| (0..m).any(|b| i.flags[a] == 0 && i.flags[b] != 0 && first[a * m + b] != 0.0))
}

/// The first of refusals 1, 2, T's reach, 14 and 3 to 10 that applies.
pub fn first_refusal(i: &Inputs<'_>, lent: &[usize]) -> Option<u32> {
    if bad_dimension(i) {
        return Some(1);
    }
    if bad_length(i, lent) || transitions_short(i, i.n) {
        return Some(2);
    }
    if list_short(i, i.n) {
        return Some(14);
    }
    after_lengths(i)
}

/// The first of refusals 1 to 10 that applies to a stretch: it may hold no
/// period, and unless it is the last it needs room to save in.
pub fn stretch_refusal(i: &Inputs<'_>, lent: &[usize], last: bool, save: usize) -> Option<u32> {
    if some_size_outside(i) || i.n > MAX_PERIODS {
        return Some(1);
    }
    if bad_length(i, lent) || (!last && save < saved_len(i.m)) {
        return Some(2);
    }
    after_lengths(i)
}

/// The first of refusals 3 to 10 that applies.
fn after_lengths(i: &Inputs<'_>) -> Option<u32> {
    let rest: [fn(&Inputs<'_>) -> bool; 8] = [
        non_finite_system,
        not_psd,
        q_not_diagonal,
        non_finite_start,
        bad_start_shape,
        non_diagonal_h,
        infinite_reading,
        mixed_driven,
    ];
    (3..).zip(rest).find(|(_, holds)| holds(i)).map(|(k, _)| k)
}
