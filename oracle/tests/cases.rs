//! The made cases: branches, causes of skips, numbers that run off, lists of
//! designs and their marker, lists of T, the fixed list, the reader, demand 3,
//! request k.

use oracle::case::{probe_hits, records, run, same_answer, Case, Expected};
use oracle::gen::{check_scene, Cases, Scene};
use oracle::kinds::{alike, broken, counts, not_blank};
use oracle::makers::{Maker, Room};
use oracle::marks::{self, Tally};
use oracle::refuse::{pairs, ORDER};
use oracle::replay::{read, replay, Calls, Oracle};
use oracle::rng::Rng;
use oracle::{demand3, list, offs, pointed, small};
use parts::{Inputs, Outcome, Outputs, Smoothed};
use tsecon_ssm_probed::probe::Branch;

const COMMITTED: &[u8] = include_bytes!("../cases.bin");

#[test]
fn no_branch_is_rare() {
    for seed in [1, 77, 123_456_789] {
        let mut tally = Tally::default();
        for (scene, case) in Cases::new(seed).take(20_000) {
            let e = run(&case);
            check_scene(scene, &e);
            tally.add(&e, case.pair);
        }
        assert!(tally.rarest() >= 50, "seed {seed}: {tally:?}");
        // A thousand cases of each kind and more in 200,000.
        assert!(tally.kinds.iter().all(|&k| k >= 200), "{:?}", tally.kinds);
        for (a, b) in pairs() {
            assert!(tally.pairs[a][b] >= 50, "refusals {a} and {b}");
        }
    }
}

#[test]
fn the_list_is_the_committed_one() {
    let (bytes, tally) = list::list();
    assert!(bytes == COMMITTED, "run `oracle list cases.bin` anew");
    assert!(bytes.len() <= 3_000_000);
    assert!(tally.rarest() >= 10);
}

#[test]
fn the_list_replays() {
    let count = replay(COMMITTED, &mut Oracle).unwrap();
    assert_eq!(count, read(COMMITTED).unwrap().len());
    let mut seen = [0; marks::COUNT];
    for c in read(COMMITTED).unwrap() {
        for (k, s) in seen.iter_mut().enumerate() {
            *s += c.marks >> k & 1;
        }
    }
    assert!(seen.iter().all(|&s| s >= 10), "{seen:?}");
}

/// Each kind stands in many cases of the list, and each two causes in one.
#[test]
fn the_list_has_every_cause() {
    let (mut seen, mut together) = ([0; 6], [0; 3]);
    for c in read(COMMITTED).unwrap() {
        let has = counts(&c.written[5]).map(|count| count > 0);
        if c.filter_refusal == 0 {
            seen.iter_mut()
                .zip(has)
                .for_each(|(s, h)| *s += u64::from(h));
            for (count, (a, b)) in together.iter_mut().zip([(3, 4), (3, 5), (4, 5)]) {
                *count += u64::from(has[a] && has[b]);
            }
        }
    }
    assert!(seen.iter().all(|&s| s >= 40), "{seen:?}");
    assert!(together.iter().all(|&s| s >= 4), "{together:?}");
}

/// Records that break a rule are found: a word that is no kind, a gap where
/// there is a reading and a reading where there is a gap, another count of
/// what was heard and of news, a number that a record does not use, and a
/// cause where refusal 12 blanks.
#[test]
fn broken_records_are_found() {
    let mut rng = Rng::new(1);
    let mut mk = Maker {
        rng: &mut rng,
        room: Room::Usual,
    };
    let case = mk.pointed(pointed::CAUSES + 6);
    let e = run(&case);
    let a = e.filter.unwrap();
    let (heard, news) = (a.heard as u64, a.news as u64);
    let holds = |written: &[Vec<u64>], heard: u64, news: u64| {
        broken(&records(written), &case.y, heard, news).is_none()
    };
    let written = &e.written[..11];
    assert!(holds(written, heard, news));
    assert!(!holds(written, heard + 1, news) && !holds(written, heard, news - 1));
    let mut tried = 0;
    let mut find = |part: usize, place: usize, word: u64| {
        let mut other = written.to_vec();
        other[part][place] = word;
        assert!(!holds(&other, heard, news), "{part} {place} {word}");
        tried += 1;
    };
    for k in 0..case.y.len() {
        let kind = written[5][k];
        let others = (0..=255).filter(|&w| w != kind && !alike(kind, w));
        others.for_each(|w| find(5, k, w));
        if kind == 1 || kind == 2 {
            continue;
        }
        for part in [6, 7, 8] {
            find(part, k, 1 << 63);
        }
        for part in [9, 10] {
            (0..case.m).for_each(|j| find(part, k * case.m + j, 1));
        }
    }
    // A usual record does not use F∞ and M∞.
    let usual = written[5].iter().position(|&k| k == 1).unwrap();
    find(8, usual, 1 << 63);
    find(10, usual * case.m, 1);
    assert!(tried > 2_000, "{tried}");
    // One place too many or too few.
    let mut longer = written.to_vec();
    longer[5].push(0);
    assert!(!holds(&longer, heard, news));

    assert!(not_blank(&[0; 9]).is_none());
    assert!((1..=255).all(|kind| not_blank(&[0, kind, 0]).is_some()));
}

/// The kinds that each pointed case of causes has, counted in their order.
#[test]
fn causes_are_told() {
    let want = [
        [0, 1, 0, 1, 0, 0],
        [0, 1, 0, 1, 0, 0],
        [0, 1, 0, 1, 0, 0],
        [0, 1, 0, 0, 1, 0],
        [0, 1, 0, 1, 1, 0],
        [4, 1, 0, 0, 0, 1],
        [5, 1, 1, 1, 1, 1],
    ];
    for (way, want) in want.iter().enumerate() {
        let kind = pointed::CAUSES + way;
        for seed in 0..40 {
            for room in [Room::Usual, Room::Small] {
                let mut rng = Rng::new(seed);
                let mut mk = Maker {
                    rng: &mut rng,
                    room,
                };
                let e = run(&mk.pointed(kind));
                assert!(e.filter.is_ok());
                assert_eq!(&counts(&e.written[5]), want, "{}", pointed::SLIPS[kind]);
            }
        }
    }
    assert_eq!(pointed::CAUSES + want.len(), pointed::OFFS);
}

/// Whether this T would be refused 10.
fn driven(i: &Inputs<'_>, t: &[f64]) -> bool {
    parts::mixed_driven(&Inputs { t, ts: &[], ..*i })
}

/// Versions that are wrong in one way each.
struct Wrong(usize);

impl Calls for Wrong {
    fn filter(&mut self, i: &Inputs<'_>, o: &mut Outputs<'_>) -> Outcome {
        let marked_by = |repeats: u8| Inputs { repeats, ..*i };
        let listed = i.zs.len() / (i.p * i.m).max(1);
        let short = listed > 0 && listed < i.n && i.repeats == 0;
        // One T out of the list for all periods, so many times over.
        let size = (i.m.min(9) * i.m.min(9)).max(1);
        let listed_t = i.ts.len() / size;
        let short_t = listed_t > 0 && listed_t < i.n;
        let taken = |k: usize, times: usize| i.ts[k * size..(k + 1) * size].repeat(times);
        let got = match self.0 {
            0 => return Err(1),
            // The marker: not seen, always taken as set, by its lowest bit.
            12 => tsecon_ssm::filter_call(&marked_by(0), o),
            13 => tsecon_ssm::filter_call(&marked_by(1), o),
            14 => tsecon_ssm::filter_call(&marked_by(i.repeats & 1), o),
            // A list of T: its first for all, its last for all, let through
            // by the marker.
            21 | 22 | 23 if listed_t > 0 && (short_t && i.repeats != 0) == (self.0 == 23) => {
                let k = if self.0 == 21 { 0 } else { listed_t - 1 };
                let ts = &taken(k, listed_t.max(i.n.min(20)));
                tsecon_ssm::filter_call(&Inputs { ts, ..*i }, o)
            }
            _ => tsecon_ssm::filter_call(i, o),
        };
        match (self.0, got) {
            // Refusal 14: of a list that reaches n, of a constant design, of
            // a marked one, before 2, after 3, with blank outputs.
            (15, Ok(_)) if listed == i.n => Err(14),
            (16, Ok(_)) if listed == 0 && i.n > 1 => Err(14),
            (17, Ok(_)) if listed == 0 && i.repeats != 0 => Err(14),
            (18, Err(2)) if short => Err(14),
            (19, Err(14)) if parts::non_finite_system(i) => Err(3),
            (20, Err(14)) => {
                o.blank(i.p, i.m, i.n);
                Err(14)
            }
            // T's reach: of a list that reaches n, given as 14, after 14,
            // after 3.
            (24, Ok(_)) if listed_t == i.n => Err(2),
            (25, Err(2)) if short_t => Err(14),
            (26, Err(2)) if short_t && short => Err(14),
            (27, Err(2)) if short_t && parts::non_finite_system(i) => Err(3),
            // Refusal 10 by a later T.
            (28, Ok(_)) if (1..listed_t).any(|k| driven(i, &taken(k, 1))) => Err(10),
            (1, Ok(mut a)) => {
                a.heard += 1;
                Ok(a)
            }
            // The reports: one for the other, without the 1.
            (7, Ok(mut a)) => {
                std::mem::swap(&mut a.cov_off, &mut a.mean_off);
                Ok(a)
            }
            (8, Ok(mut a)) => {
                a.cov_off = a.cov_off.saturating_sub(1);
                Ok(a)
            }
            (9, Ok(mut a)) => {
                a.mean_off = a.mean_off.saturating_sub(1);
                Ok(a)
            }
            (2, Ok(a)) => {
                // One step into the tail, or over the last place.
                if let Some(x) = o.m_inf.last_mut() {
                    *x = 0.5;
                }
                Ok(a)
            }
            (3, Err(12)) => {
                o.kinds[0] = 1;
                Err(12)
            }
            // Causes: none told, one told for another, told of a gap, told
            // where refusal 12 blanks.
            (29, Ok(a)) => {
                let kinds = &mut o.kinds[..i.n * i.p];
                kinds.iter_mut().filter(|k| **k > 2).for_each(|k| *k = 0);
                Ok(a)
            }
            (30..=35, Ok(a)) => {
                let pairs = [(3, 4), (3, 5), (4, 3), (4, 5), (5, 3), (5, 4)];
                let (from, to) = pairs[self.0 - 30];
                let kinds = &mut o.kinds[..i.n * i.p];
                kinds
                    .iter_mut()
                    .filter(|k| **k == from)
                    .for_each(|k| *k = to);
                Ok(a)
            }
            (36..=38, Ok(a)) => {
                let kinds = o.kinds[..i.n * i.p].iter_mut().zip(i.y);
                let gap = kinds.into_iter().find(|(_, y)| y.is_nan());
                gap.into_iter().for_each(|(k, _)| *k = self.0 as u8 - 33);
                Ok(a)
            }
            (39, Err(12)) => {
                o.kinds[i.n * i.p - 1] = 3;
                Err(12)
            }
            (4, Err(2)) => Err(3),
            (_, got) => got,
        }
    }
    fn smooth(&mut self, i: &Inputs<'_>, o: &mut Outputs<'_>, s: &mut Smoothed<'_>) -> Outcome {
        let mut got = tsecon_ssm::smooth_call(i, o, s);
        if let Ok(a) = &mut got {
            match self.0 {
                5 => s.sm_cov[0] = -s.sm_cov[0],
                10 => a.cov_off = 0,
                11 => a.mean_off = 0,
                _ => {}
            }
        }
        got
    }
}

#[test]
fn the_reader_finds_wrong_versions() {
    for k in (0..=5).chain(7..=39) {
        assert!(replay(COMMITTED, &mut Wrong(k)).is_err(), "version {k}");
    }
    assert!(replay(COMMITTED, &mut Wrong(6)).is_ok());
}

/// A case of one element, two states and a list of so many designs, all
/// different.
fn with_list(n: usize, count: usize, repeats: u8) -> Case {
    let mut rng = Rng::new(8);
    let mut mk = Maker {
        rng: &mut rng,
        room: Room::Usual,
    };
    let mut case = mk.bare(1, 2, n);
    case.list(count);
    for (k, x) in case.zs.iter_mut().enumerate() {
        *x += k as f64 * 0.125;
    }
    case.repeats = repeats;
    case.h = vec![1.0];
    case.q = vec![1.0];
    case
}

/// A list of n designs, one less, one more, one, and the most that there may
/// be: refused where it falls short, unless it is marked.
#[test]
fn a_list_must_reach_n() {
    for n in [1, 2, 3, 5, 20, 4095, 4096] {
        for count in [1, n - 1, n, n + 1, 4096] {
            if count == 0 {
                continue;
            }
            for repeats in [0, 1, 2, 128, 255] {
                let e = run(&with_list(n, count, repeats));
                let due = match count {
                    4097 => Some(2),
                    _ if count < n && repeats == 0 => Some(14),
                    _ => None,
                };
                for got in [e.filter, e.smooth] {
                    assert_eq!(got.err(), due, "{count} designs, n {n}, {repeats}");
                }
                let wrote = e.written.iter().any(|w| !w.is_empty());
                assert_eq!(wrote, due.is_none());
            }
        }
    }
}

/// A case of one element, two states and a list of so many transitions, all
/// different.
fn with_transitions(n: usize, count: usize, repeats: u8) -> Case {
    let mut case = with_list(n, 1, repeats);
    case.z = std::mem::take(&mut case.zs);
    case.list_t(count);
    for (k, one) in case.ts.chunks_mut(4).enumerate() {
        one[1] = (k % 64) as f64 * 0.125;
        one[3] = 0.5;
    }
    case
}

/// A list of n transitions, one less, one more, one, and the most that there
/// may be: refused 2 where it falls short, marked or not.
#[test]
fn a_list_of_transitions_must_reach_n() {
    for n in [1, 2, 3, 5, 20, 4095, 4096] {
        for count in [1, n - 1, n, n + 1, 4096, 4097] {
            if count == 0 {
                continue;
            }
            for repeats in [0, 1, 255] {
                let e = run(&with_transitions(n, count, repeats));
                let due = (count < n || count > 4096).then_some(2);
                for got in [e.filter, e.smooth] {
                    assert_eq!(got.err(), due, "{count} transitions, n {n}");
                }
                let wrote = e.written.iter().any(|w| !w.is_empty());
                assert_eq!(wrote, due.is_none());
            }
        }
    }
}

/// Whether refusals 1 and 2 let a case through, or only T's reach does not.
fn sized(e: &Expected) -> bool {
    !matches!(e.filter, Err(1 | 2)) || e.hits[marks::T_SHORT] > 0
}

/// A list of n equal matrices gives what the constant T gives, refusals
/// included; and what stands past n gives nothing.
#[test]
fn equal_transitions_are_the_constant_one() {
    let (mut ran, mut longer) = (0, 0);
    let mut refused = [0; 15];
    for (_, case) in Cases::new(32).take(8_000) {
        let e = run(&case);
        if !sized(&e) {
            continue;
        }
        let size = case.m * case.m;
        if case.listed_t() > case.n {
            let mut cut = case.clone();
            cut.ts.truncate(case.n * size);
            let past = cut.ts.len();
            if case.ts[past..].iter().all(|x| x.is_finite()) {
                assert!(agree(&e, &run(&cut)));
                longer += 1;
            }
        }
        let mut constant = case.clone();
        if !case.ts.is_empty() {
            constant.t = case.ts[..size].to_vec();
            constant.ts.clear();
        }
        let mut copies = constant.clone();
        copies.list_t(case.n);
        let (constant, copies) = (run(&constant), run(&copies));
        assert!(agree(&constant, &copies));
        match constant.filter {
            Ok(_) => ran += 1,
            Err(k) => refused[k as usize] += 1,
        }
    }
    assert!(ran > 3_000 && longer > 500, "{ran} {longer}");
    let all = (3..=12).chain([14]).all(|k| refused[k] > 50);
    assert!(all, "{refused:?}");
}

/// T is a list in half of all cases, often of matrices that differ, now and
/// then too short, also in a marked call.
#[test]
fn every_second_case_has_a_list_of_transitions() {
    for cases in [Cases::new(34), Cases::running_off(35)] {
        let (mut listed, mut varied, mut copies) = (0, 0, 0);
        let mut short = [0, 0];
        for (_, case) in cases.take(4_000) {
            let e = run(&case);
            listed += usize::from(!case.ts.is_empty());
            varied += e.hits[marks::T_VARIES];
            copies += u64::from(e.hits[marks::T_EXACT] > 0 && e.hits[marks::T_VARIES] == 0);
            short[usize::from(case.repeats != 0)] += e.hits[marks::T_SHORT];
        }
        assert!((1_900..2_300).contains(&listed), "{listed}");
        assert!(varied > 250 && copies > 250, "{varied} {copies}");
        assert!(short.iter().all(|&s| s > 30), "{short:?}");
    }
}

/// The state of period 0, carried along beside the one that moves: its
/// filtered mean and covariance at the end are the smoothed ones.
#[test]
fn the_step_back_is_by_the_transition_that_led_there() {
    let mut rng = Rng::new(36);
    let mut far = 0;
    for round in 0..400 {
        let (m, n) = (1 + round % 2, 2 + round % 4);
        let mut case = with_transitions(n, n, 0);
        case.ts = (0..n * m * m).map(|_| rng.plain()).collect();
        case.m = m;
        case.z = (0..m).map(|_| rng.plain()).collect();
        case.rr = (0..m).map(|_| rng.plain()).collect();
        case.c = (0..m).map(|_| rng.plain()).collect();
        case.a1 = (0..m).map(|_| rng.plain()).collect();
        case.y = (0..n).map(|_| rng.plain()).collect();
        case.flags = vec![0; m];
        case.p_star = vec![0.0; m * m];
        (0..m).for_each(|k| case.p_star[k * m + k] = 1.0 + rng.unit());
        case.lend_needed();
        let mut wide = case.clone();
        let w = 2 * m;
        wide.m = w;
        // Block (a, b) of m by m: the moving state first.
        let block = |k: usize| ((k / w) / m, (k % w) / m, (k / w) % m * m + (k % w) % m);
        let beside = |x: &[f64]| [x, &vec![0.0; m][..]].concat();
        wide.ts = (0..n * w * w)
            .map(|k| match block(k % (w * w)) {
                (0, 0, at) => case.ts[k / (w * w) * m * m + at],
                (1, 1, at) => f64::from(u8::from(at / m == at % m)),
                _ => 0.0,
            })
            .collect();
        wide.p_star = (0..w * w).map(|k| case.p_star[block(k).2]).collect();
        (wide.z, wide.rr, wide.c) = (beside(&case.z), beside(&case.rr), beside(&case.c));
        wide.a1 = case.a1.repeat(2);
        wide.flags = vec![0; w];
        wide.lend_needed();
        let (e, end) = (run(&case), run(&wide));
        let close = |a: u64, b: u64| {
            let (a, b) = (f64::from_bits(a), f64::from_bits(b));
            assert!((a - b).abs() <= 1e-9 * (1.0 + a.abs()), "{a} {b}");
        };
        for i in 0..m {
            close(e.written[11][i], end.written[3][(n - 1) * w + m + i]);
            for j in 0..m {
                let at = (n - 1) * w * w + (m + i) * w + m + j;
                close(e.written[12][i * m + j], end.written[4][at]);
            }
        }
        // By the T of t it is another one.
        let mut late = case.clone();
        late.ts.drain(..m * m);
        late.ts.extend(&case.ts[..m * m]);
        let moved = f64::from_bits(run(&late).written[11][0]);
        far += usize::from((moved - f64::from_bits(e.written[11][0])).abs() > 1e-3);
    }
    assert!(far > 200, "{far}");
}

/// Both answer and write the same.
fn agree(a: &Expected, b: &Expected) -> bool {
    same_answer(&a.filter, &b.filter) && same_answer(&a.smooth, &b.smooth) && a.written == b.written
}

/// A marked list that is short is the list that has its last design again, up
/// to n; of any other design the marker has no effect. Unmarked, a short list
/// is refused 14.
#[test]
fn a_marked_list_repeats_its_last_design() {
    let (mut repeated, mut in_vain, mut refused) = (0, 0, 0);
    let mut rng = Rng::new(4);
    for (_, case) in Cases::new(31).take(6_000) {
        let e = run(&case);
        if matches!(e.filter, Err(1 | 2)) {
            continue;
        }
        let with = |repeats: u8| {
            let mut other = case.clone();
            other.repeats = repeats;
            other
        };
        let (unmarked, marked) = (run(&with(0)), run(&with(rng.marker())));
        let listed = case.listed();
        if listed == 0 || listed >= case.n {
            assert!(agree(&unmarked, &marked));
            in_vain += 1;
            continue;
        }
        let last = &case.zs[(listed - 1) * case.p * case.m..];
        let mut whole = with(0);
        (listed..case.n).for_each(|_| whole.zs.extend(last));
        assert!(agree(&marked, &run(&whole)));
        assert_eq!(unmarked.filter.err(), Some(14));
        // The smoother's own parts may be too short, which is judged before.
        assert!(matches!(unmarked.smooth, Err(2 | 14)));
        repeated += usize::from(marked.filter.is_ok());
        refused += usize::from(case.repeats == 0);
    }
    assert!(
        repeated > 300 && in_vain > 1_000 && refused > 200,
        "{repeated} {in_vain} {refused}"
    );
}

/// On the usual cases, and on those of which every third runs off.
#[test]
fn demand_three_and_request_k_hold() {
    for cases in [Cases::new(9), Cases::running_off(10)] {
        let mut looked = demand3::Looked::default();
        let mut rng = Rng::new(5);
        for (_, case) in cases.take(3_000) {
            demand3::try_case(&mut rng, &case, &mut looked).unwrap();
        }
        let enough = [looked.first, looked.second.iter().sum(), looked.offsets]
            .iter()
            .all(|&n| n > 1_000);
        let [gaps, usual, diffuse, causes @ ..] = looked.second;
        assert_eq!([gaps, usual, diffuse], [0; 3]);
        let each = causes.iter().all(|&n| n > 50);
        assert!(enough && each && looked.short > 50, "{looked:?}");
    }
}

/// The mean report does go by readings and by offsets: what demand 3 leaves
/// free moves, what it holds does not.
#[test]
fn the_mean_report_may_move() {
    let (mut by_values, mut by_offsets) = (0, 0);
    let mut rng = Rng::new(6);
    for (_, case) in Cases::running_off(12).take(3_000) {
        let Ok(told) = run(&case).filter else {
            continue;
        };
        let mean_off = |case: &Case| run(case).filter.map_or(0, |a| a.mean_off);
        let values = mean_off(&demand3::other_values(&mut rng, &case));
        let offsets = mean_off(&demand3::other_offsets(&mut rng, &case));
        by_values += u64::from(values != told.mean_off);
        by_offsets += u64::from(offsets != told.mean_off);
    }
    assert!(
        by_values > 100 && by_offsets > 100,
        "{by_values} {by_offsets}"
    );
}

/// Each way in which a report is told, or must not be.
#[test]
fn what_runs_off_is_told() {
    for (way, want) in offs::TOLD.iter().enumerate() {
        for seed in 0..20 {
            for room in [Room::Usual, Room::Small] {
                let mut rng = Rng::new(seed);
                let mut mk = Maker {
                    rng: &mut rng,
                    room,
                };
                let e = run(&mk.runs_off(way));
                let told = |o: Outcome| match o {
                    Ok(a) => Some((a.cov_off, a.mean_off)),
                    Err(12) => None,
                    Err(k) => panic!("refused {k}"),
                };
                let slip = pointed::SLIPS[pointed::OFFS + way];
                assert_eq!(told(e.filter), *want, "filter: {slip}");
                assert_eq!(told(e.smooth), *want, "smoother: {slip}");
            }
        }
    }
}

/// What only seems to run off: the number that a slip would tell of is there.
#[test]
fn what_is_not_told_is_there() {
    let made = |way: usize| {
        let mut rng = Rng::new(3);
        let mut mk = Maker {
            rng: &mut rng,
            room: Room::Usual,
        };
        run(&mk.runs_off(way))
    };
    let off = |words: &[u64]| words.iter().any(|&w| !f64::from_bits(w).is_finite());
    // Place n: P*, P∞, the mean.
    assert!(off(&made(1).written[1][1..]));
    assert!(off(&made(2).written[2][4..]) && !off(&made(2).written[1]));
    assert!(off(&made(12).written[0][1..]));
    // P∞ cleared: zeros are stored. Of the other one an infinity was.
    assert!(made(4).written[2][4..8].iter().all(|&w| w == 0));
    let e = made(5);
    assert!(off(&e.written[2][4..8]) && e.written[2][8..].iter().all(|&w| w == 0));
    // The smoothed covariances, and nothing of the filter's.
    let e = made(10);
    assert!(off(&e.written[12]) && !e.written[..11].iter().any(|w| off(w)));
}

/// Every third case of those that run off carries a report, as wished.
#[test]
fn every_third_case_runs_off() {
    let mut seen = [0; offs::WISHES.len()];
    for (k, (scene, case)) in Cases::running_off(5).take(2_400).enumerate() {
        check_scene(scene, &run(&case));
        let Scene::RanOff(wish) = scene else {
            assert_ne!(k % 3, 2);
            continue;
        };
        assert!(wish.holds(&case), "{wish:?}");
        let place = offs::WISHES.iter().position(|w| *w == wish).unwrap();
        seen[place] += 1;
    }
    assert!(seen.iter().all(|&s| s >= 100), "{seen:?}");
}

/// The branches that each pointed case is made to take.
#[test]
fn pointed_cases_hit_their_mark() {
    use Branch::*;
    let marks: [&[Branch]; pointed::OFFS] = [
        &[SuspectDiffuse],
        &[AtTolerance],
        &[AtTolerance, DiffuseRefused],
        &[AtTolerance, SuspectRefused],
        &[ClearBound],
        &[DiffuseRefused],
        &[DowndateEarly, SuspectAccepted],
        &[DiffuseRefused],
        &[SuspectAccepted],
        &[Diffuse, Below],
        &[SuspectAccepted],
        &[SuspectAccepted, RankShort],
        &[Usual],
        &[],
        &[Usual],
        &[],
        &[SuspectRefused, RankShort],
        &[AtTolerance, SuspectRefused],
        &[AtTolerance, Below],
        &[AtTolerance, SuspectRefused],
        &[AtTolerance, Scale],
        &[AtTolerance, Usual],
        &[Usual],
        &[],
        &[],
        &[Usual],
        &[Usual],
        &[],
        &[Usual],
        &[Usual],
        &[Usual],
        &[],
        &[],
        &[],
        &[Usual],
        &[],
        &[],
        &[Usual],
        &[],
        &[],
        &[],
        &[ScaleAndDust, Usual],
        &[Scale, Usual],
        &[ScaleOff, Usual],
        &[Below, Usual],
        &[ScaleAndDust, Below, Usual],
        &[BoundNan, SuspectRefused],
        &[Gap, Diffuse, Usual, Scale, Below, SuspectRefused],
    ];
    // What runs off has a test of its own.
    for (k, want) in marks.iter().enumerate() {
        for seed in 0..10 {
            let mut rng = Rng::new(seed);
            let mut mk = Maker {
                rng: &mut rng,
                room: Room::Usual,
            };
            let hits = probe_hits(&mk.pointed(k));
            for b in want.iter() {
                assert!(hits[*b as usize] > 0, "{}: {b:?}", pointed::SLIPS[k]);
            }
        }
    }
}

#[test]
fn small_cases_show_every_branch() {
    let chosen = small::choose(1, small::SHOWN);
    let mut seen = [0; marks::COUNT];
    for (case, e) in &chosen {
        assert!(case.m <= 3 && case.p <= 3 && case.r <= 2 && case.n <= 3);
        for (k, s) in seen.iter_mut().enumerate() {
            *s += e.hits[k];
        }
    }
    let shown = (0..=Branch::AtTolerance as usize).all(|k| seen[k] > 0);
    let refused = ORDER.iter().all(|&k| seen[marks::refusal(k)] > 0);
    let told = seen[marks::COV_OFF] > 0 && seen[marks::MEAN_OFF] > 0;
    let marked = seen[marks::LIST_SHORT] > 0 && seen[marks::MARKED_IN_VAIN] > 0;
    let stepped = [marks::T_EXACT, marks::T_LONG, marks::T_VARIES]
        .iter()
        .all(|&k| seen[k] > 0);
    assert!(shown && refused && told && marked && stepped, "{seen:?}");
    // And the causes that have a scene of their own.
    let causes = [
        Branch::ScaleOff as usize,
        Branch::ScaleAndDust as usize,
        marks::SCALE_DIFFUSE,
        marks::BELOW_DIFFUSE,
    ];
    assert!(causes.iter().all(|&k| seen[k] > 0), "{seen:?}");
}

#[test]
fn the_text_form_is_the_described_one() {
    let mut rng = Rng::new(0);
    let mut mk = Maker {
        rng: &mut rng,
        room: Room::Small,
    };
    let mut case = mk.bare(1, 1, 1);
    case.h = vec![1.0];
    case.q = vec![2.0];
    case.flags = vec![1];
    case.y = vec![2.0];
    let text = small::text(0, &case, &run(&case));
    assert!(include_str!("../FORMAT.md").contains(&text), "{text}");
}

#[test]
fn the_marks_are_the_described_ones() {
    let format = include_str!("../FORMAT.md");
    for (k, name) in marks::NAMES.iter().enumerate() {
        let refusal = (marks::REFUSAL + 1..=marks::REFUSAL + 12).contains(&k);
        let said = format.contains(&format!("| {k} | {name}"));
        assert!(said || refusal, "{k} {name}");
    }
    assert!(format.contains("| 38 to 49 | refusal 1 to 12 |"));
    assert_eq!(marks::REFUSAL + 1, 38);
}

#[test]
fn the_plain_build_has_no_probe() {
    for (_, case) in Cases::new(1).take(50) {
        run(&case);
    }
    assert!(tsecon_ssm::probe::take().iter().all(|&k| k == 0));
}
