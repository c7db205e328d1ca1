//! Runs in stretches, on the oracle itself: a cut changes nothing, whatever
//! is loaded saves as it was, and the refusals stand in their order.

use oracle::case::{one_nan, same_answer, Buffers, Case};
use oracle::gen::Cases;
use oracle::stretches::{stretches, text};
use oracle::uncut::{uncut, Uncut};
use oracle::{decode, encode, needed, saved_len, stretch_call, Answer, Inputs, Outcome, Stretch};

struct Made {
    outcome: Outcome,
    written: Buffers,
    save: Vec<u8>,
}

fn make(i: &Inputs<'_>, begins: u8, saved: &[u8], last: u8) -> Made {
    let mut written = Buffers::patterned(&needed(i.p, i.m, i.n));
    let room = if last == 0 { saved_len(i.m) } else { 0 };
    let mut save = vec![0xA5; room];
    let stretch = Stretch {
        begins,
        saved,
        last,
    };
    let outcome = stretch_call(i, &stretch, &mut written.lend().0, &mut save);
    Made {
        outcome,
        written,
        save,
    }
}

/// The inputs of periods `from` to `to`.
fn periods(case: &Case, from: usize, to: usize) -> Inputs<'_> {
    let mut i = case.inputs();
    i.n = to - from;
    i.y = &case.y[from * case.p..to * case.p];
    i
}

fn told(u: &Uncut, k: usize) -> Outcome {
    let s = &u.states[k];
    Ok(Answer {
        loglik: s.loglik,
        d_diffuse: s.d_diffuse,
        heard: s.heard,
        news: s.news,
        cov_off: s.cov_off,
        mean_off: s.mean_off,
    })
}

/// Each part of periods `from` to `to` is the uncut run's, the last place of
/// the predicted ones apart, which is what the run carries on.
fn same_blocks(case: &Case, u: &Uncut, made: &Made, from: usize, to: usize) {
    let (m, p) = (case.m, case.p);
    let nan = |w: &[u64]| w.iter().map(|&x| one_nan(x)).collect::<Vec<_>>();
    let state = &u.states[to];
    for (k, width) in [m, m * m, m * m, m, m * m, p, p, p, p, p * m, p * m]
        .into_iter()
        .enumerate()
    {
        let whole = u.written.words(k);
        let mut want = whole[from * width..to * width].to_vec();
        let place_n = [&state.mean, &state.star, &state.p_inf];
        if let Some(x) = place_n.get(k) {
            want.extend(x.iter().map(|v| v.to_bits()));
        }
        assert_eq!(nan(&made.written.words(k)), nan(&want), "part {k}");
    }
}

fn encoded(case: &Case, u: &Uncut, k: usize) -> Vec<u8> {
    encode(case.p, case.m, case.r, &u.states[k])
}

/// Cut at every period, and after every period: the blocks, the bytes and
/// the answers of the run that is not cut.
#[test]
fn a_cut_changes_nothing() {
    let (mut cuts, mut silent) = (0, 0);
    // Stretches that go on after a report, and that are the first to have
    // one.
    let (mut after, mut first) = (0, 0);
    let all = Cases::new(21).take(3_000);
    for (_, case) in all.chain(Cases::running_off(24).take(1_500)) {
        let Ok(u) = uncut(&case.inputs()) else {
            continue;
        };
        let n = case.n;
        assert_eq!(u.states.len(), n + 1);
        silent += usize::from(u.outcome.is_err());
        for k in 0..=n {
            let a = make(&periods(&case, 0, k), 1, &[], 0);
            assert!(same_answer(&a.outcome, &told(&u, k)));
            same_blocks(&case, &u, &a, 0, k);
            assert_eq!(a.save, encoded(&case, &u, k));
            let b = make(&periods(&case, k, n), 0, &a.save, 1);
            assert!(same_answer(&b.outcome, &u.outcome));
            if let Ok(end) = b.outcome {
                same_blocks(&case, &u, &b, k, n);
                let cut = a.outcome.unwrap();
                for (early, late) in [(cut.cov_off, end.cov_off), (cut.mean_off, end.mean_off)] {
                    after += usize::from(early > 0 && k < n);
                    first += usize::from(early == 0 && late > 0 && k > 0);
                    assert!(early == 0 && (late == 0 || late > k) || early == late);
                }
            }
            cuts += 1;
        }
        let mut saved = encoded(&case, &u, 0);
        for k in 0..n {
            let one = make(&periods(&case, k, k + 1), 0, &saved, 0);
            same_blocks(&case, &u, &one, k, k + 1);
            saved = one.save;
            assert_eq!(saved, encoded(&case, &u, k + 1));
        }
    }
    assert!(cuts > 3_000 && silent > 50, "{cuts} {silent}");
    assert!(after > 1_000 && first > 1_000, "{after} {first}");
}

/// A report in the bytes is kept, though all numbers are finite, up to the
/// periods done; past that it is refused 15.
#[test]
fn a_loaded_report_is_kept() {
    let mut kept = 0;
    for (_, case) in Cases::new(25).take(600) {
        let Ok(u) = uncut(&case.inputs()) else {
            continue;
        };
        let n = case.n;
        for k in 0..=n {
            let rest = periods(&case, k, n);
            let plain = make(&rest, 0, &encoded(&case, &u, k), 0);
            let own = plain.outcome.unwrap();
            for (cov_off, mean_off) in [(k, 0), (0, k), (k.min(1), k), (k + 1, 0), (0, k + 1)] {
                let mut state = u.states[k].clone();
                (state.cov_off, state.mean_off) = (cov_off, mean_off);
                let bytes = encode(case.p, case.m, case.r, &state);
                let made = make(&rest, 0, &bytes, 0);
                if cov_off.max(mean_off) > k {
                    assert_eq!(made.outcome.unwrap_err(), 15);
                    assert!(made.save.iter().all(|&byte| byte == 0xA5));
                    continue;
                }
                // What no earlier stretch told is this one's own.
                let late = |told: usize| if told > k { told } else { 0 };
                let or_own = |told: usize, own: usize| if told > 0 { told } else { late(own) };
                let mut want = own;
                want.cov_off = or_own(cov_off, own.cov_off);
                want.mean_off = or_own(mean_off, own.mean_off);
                if u.states[k].cov_off == 0 && u.states[k].mean_off == 0 {
                    assert!(same_answer(&made.outcome, &Ok(want)));
                    let saved = decode(case.p, case.m, case.r, 0, &made.save).unwrap();
                    assert_eq!(
                        (saved.cov_off, saved.mean_off),
                        (want.cov_off, want.mean_off)
                    );
                    kept += usize::from(cov_off + mean_off > 0);
                }
            }
        }
    }
    assert!(kept > 1_000, "{kept}");
}

/// What is loaded saves as it was, P∞ beside an ended diffuse state too; the
/// first period then clears it.
#[test]
fn an_empty_stretch_saves_what_it_loaded() {
    let mut left_over = 0;
    for (_, case) in Cases::new(22).take(1_000) {
        let Ok(u) = uncut(&case.inputs()) else {
            continue;
        };
        let none = periods(&case, 0, 0);
        for k in 0..=case.n {
            let mut state = u.states[k].clone();
            state.live = false;
            let bytes = encode(case.p, case.m, case.r, &state);
            assert_eq!(make(&none, 0, &bytes, 0).save, bytes);
            if k < case.n && state.p_inf.iter().any(|&x| x != 0.0) {
                left_over += 1;
                let one = make(&periods(&case, k, k + 1), 0, &bytes, 0);
                let zero = |x: &u64| *x == 0;
                assert!(one.written.words(2).iter().all(zero));
                let after = decode(case.p, case.m, case.r, 0, &one.save).unwrap();
                assert!(after.p_inf.iter().all(|x| x.to_bits() == 0));
            }
        }
    }
    assert!(left_over > 100, "{left_over}");
}

/// Unmarked, a list gives what it gives marked, as far as it reaches from the
/// run's first period; the stretch that would pass its end is refused 14, and
/// so is every one after it. Nothing is touched then.
#[test]
fn a_list_reaches_so_far() {
    let (mut short, mut before, mut past) = (0, 0, 0);
    let mut at_the_end = 0;
    for (_, case) in Cases::new(26).take(4_000) {
        let Ok(u) = uncut(&case.inputs()) else {
            continue;
        };
        let (n, reach) = (case.n, case.listed());
        if reach == 0 {
            continue;
        }
        short += usize::from(reach < n);
        let mut unmarked = case.clone();
        unmarked.repeats = 0;
        for (from, to) in (0..=n).flat_map(|from| (from..=n).map(move |to| (from, to))) {
            let saved = encoded(&case, &u, from);
            let made = make(&periods(&unmarked, from, to), 0, &saved, 0);
            if to <= reach {
                assert!(same_answer(&made.outcome, &told(&u, to)));
                same_blocks(&case, &u, &made, from, to);
                assert_eq!(made.save, encoded(&case, &u, to));
                before += 1;
                at_the_end += usize::from(to == reach && from < to);
                continue;
            }
            let last = make(&periods(&unmarked, from, to), 0, &saved, 1);
            for made in [made, last] {
                assert_eq!(made.outcome.unwrap_err(), 14);
                let fresh = Buffers::patterned(&needed(case.p, case.m, to - from));
                assert!((0..11).all(|k| made.written.words(k) == fresh.words(k)));
                assert!(made.save.iter().all(|&byte| byte == 0xA5));
            }
            past += 1;
        }
    }
    assert!(
        short > 100 && before > 3_000 && past > 1_000 && at_the_end > 500,
        "{short} {before} {past} {at_the_end}"
    );
}

/// The same of a list of T, and 2, marked or not; 15 comes before it, and 14
/// and 12 come after it.
#[test]
fn a_list_of_transitions_reaches_so_far() {
    let (mut before, mut past, mut before_14, mut before_12) = (0, 0, 0, 0);
    for (_, case) in Cases::new(27).take(4_000) {
        let Ok(u) = uncut(&case.inputs()) else {
            continue;
        };
        let (n, size) = (case.n, case.m * case.m);
        if case.ts.is_empty() {
            continue;
        }
        for reach in 1..=case.listed_t().min(n) {
            let mut cut = case.clone();
            cut.ts.truncate(reach * size);
            for (from, to) in (0..=n).flat_map(|from| [from, n].map(|to| (from, to))) {
                let saved = encoded(&case, &u, from);
                let made = make(&periods(&cut, from, to), 0, &saved, 0);
                if to <= reach {
                    assert!(same_answer(&made.outcome, &told(&u, to)));
                    same_blocks(&case, &u, &made, from, to);
                    assert_eq!(made.save, encoded(&case, &u, to));
                    before += 1;
                    continue;
                }
                let marked_by = |repeats: u8| Inputs {
                    repeats,
                    ..periods(&cut, from, to)
                };
                let last = make(&marked_by(9), 0, &saved, 1);
                let unmarked = make(&marked_by(0), 0, &saved, 0);
                for made in [made, last, unmarked] {
                    assert_eq!(made.outcome.unwrap_err(), 2);
                    let fresh = Buffers::patterned(&needed(case.p, case.m, to - from));
                    assert!((0..11).all(|k| made.written.words(k) == fresh.words(k)));
                    assert!(made.save.iter().all(|&byte| byte == 0xA5));
                }
                let bad = make(&periods(&cut, from, to), 0, &saved[1..], 0);
                assert_eq!(bad.outcome.unwrap_err(), 15);
                past += 1;
                before_14 += usize::from((1..to).contains(&case.listed()));
                before_12 += usize::from(u.outcome.is_err());
            }
        }
    }
    assert!(
        before > 3_000 && past > 3_000 && before_14 > 300 && before_12 > 50,
        "{before} {past} {before_14} {before_12}"
    );
}

/// The largest run: 4096 designs, unmarked, reach its last period, and one
/// less does not, wherever it is cut.
#[test]
fn a_list_reaches_the_largest_run() {
    let mut case = oracle::figures::sized(1, 4096);
    case.list(4096);
    let u = uncut(&case.inputs()).unwrap();
    let mut less = case.clone();
    less.zs.pop();
    for cut in [0, 1, 4094, 4095, 4096] {
        let saved = encoded(&case, &u, cut);
        let rest = make(&periods(&case, cut, 4096), 0, &saved, 1);
        assert!(same_answer(&rest.outcome, &u.outcome));
        let rest = make(&periods(&less, cut, 4096), 0, &saved, 1);
        assert_eq!(rest.outcome.unwrap_err(), 14);
    }
    let saved = encoded(&case, &u, 4094);
    assert!(make(&periods(&less, 4094, 4095), 0, &saved, 0)
        .outcome
        .is_ok());
    // And 4096 transitions.
    let mut case = oracle::figures::sized(1, 4096);
    case.list_t(4096);
    assert!(same_answer(
        &uncut(&case.inputs()).unwrap().outcome,
        &u.outcome
    ));
    let rest = make(&periods(&case, 4094, 4096), 0, &saved, 1);
    assert!(same_answer(&rest.outcome, &u.outcome));
    case.ts.pop();
    let rest = make(&periods(&case, 4094, 4096), 0, &saved, 1);
    assert_eq!(rest.outcome.unwrap_err(), 2);
    assert!(make(&periods(&case, 4094, 4095), 0, &saved, 0)
        .outcome
        .is_ok());
}

/// Refusals 3 to 11 come before 15, 15 before 14, and 14 before 12, which only
/// the last stretch is given; the markers are any byte but 0.
#[test]
fn the_refusals_stand_in_their_order() {
    let mut seen = [0; 15];
    for (_, case) in Cases::new(23).take(3_000) {
        let i = case.inputs();
        match uncut(&i) {
            Err(1) => {}
            Err(2) => {}
            Err(14) => {
                // What the filter's call judges after it comes before it.
                let due = uncut(&Inputs { repeats: 1, ..i }).map_or_else(|k| k, |_| 14);
                let or_15 = if due == 14 { 15 } else { due };
                for last in [0, 1] {
                    assert_eq!(make(&i, 1, &[], last).outcome.unwrap_err(), due);
                    assert_eq!(make(&i, 0, &[1], last).outcome.unwrap_err(), or_15);
                    assert_eq!(make(&i, 1, &[1], last).outcome.unwrap_err(), or_15);
                }
                seen[14] += usize::from(due == 14);
                seen[13] += usize::from(due != 14);
            }
            Err(k) => {
                assert_eq!(make(&i, 0, &[1, 2, 3], 0).outcome.unwrap_err(), k);
                assert_eq!(make(&i, 0, &[], 1).outcome.unwrap_err(), k);
                seen[k as usize] += 1;
            }
            Ok(u) => {
                let n = case.n;
                let bytes = encoded(&case, &u, n);
                let none = periods(&case, n, n);
                assert_eq!(make(&i, 1, &bytes, 0).outcome.unwrap_err(), 15);
                assert_eq!(make(&none, 0, &[], 1).outcome.unwrap_err(), 15);
                assert_eq!(make(&none, 0, &bytes[1..], 1).outcome.unwrap_err(), 15);
                assert!(make(&none, 0, &bytes, 0).outcome.is_ok());
                let ended = make(&none, 0, &bytes, 128);
                assert!(same_answer(&ended.outcome, &u.outcome));
                assert!(same_answer(&make(&i, 255, &[], 2).outcome, &u.outcome));
                if u.outcome.is_err() {
                    // Room for one predicted place is blanked.
                    assert!((0..11).all(|k| ended.written.words(k).iter().all(|&w| w == 0)));
                    seen[12] += 1;
                }
            }
        }
    }
    assert!(seen[3..].iter().all(|&s| s > 10), "{seen:?}");
}

#[test]
fn the_small_stretches_show_every_end() {
    let list = stretches(1);
    for k in (1..=12).chain([14, 15]) {
        assert!(list.iter().any(|s| s.outcome.err() == Some(k)), "{k}");
    }
    let tells = |cov: bool, mean: bool| {
        list.iter()
            .any(|s| matches!(s.outcome, Ok(a) if (a.cov_off > 0, a.mean_off > 0) == (cov, mean)))
    };
    assert!(tells(true, false) && tells(false, true) && tells(true, true));
    for kind in 0..6 {
        let has =
            |s: &&oracle::stretches::Made| s.outcome.is_ok() && s.written.kinds.contains(&kind);
        assert!(list.iter().filter(has).count() > 0, "kind {kind}");
    }
    let saves = |s: &&oracle::stretches::Made| s.outcome.is_ok() && s.last == 0;
    assert!(list.iter().filter(saves).count() > 20);
    // FORMAT.md names each line.
    let format = include_str!("../FORMAT.md");
    for line in text(0, &list[0]).lines() {
        let word = line.split(' ').next().unwrap();
        assert!(format.contains(&format!("`{word}")), "{word}");
    }
}
