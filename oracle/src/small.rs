//! Small cases as text: see FORMAT.md.

use parts::Outcome;
use tsecon_ssm_probed::probe::Branch;

use crate::case::{self, answer_words, Case, Expected, INPUT_NAMES, OUTPUT_NAMES};
use crate::file::mask;
use crate::gen::{check_scene, deck, make, Scene};
use crate::makers::Room;
use crate::marks;
use crate::pointed;
use crate::refuse::T_REACH;
use crate::rng::Rng;

/// So many cases are made a theorem of.
pub const SHOWN: usize = 48;

/// Candidates that the cases are chosen from.
const CANDIDATES: u64 = 30_000;

/// Ways of running off (`offs`) that are shown, since no mark tells them
/// apart: at place n, by P∞, by a P∞ that is cleared or was off for a while,
/// filtered, symmetrised, by T, and both reports in turn.
const WAYS: [usize; 8] = [1, 3, 4, 5, 6, 7, 13, 16];

/// And refusal 14 beside what is judged before and after it, and of a list
/// that has as many numbers as there are periods; a short list that is marked
/// by another byte than 1, and a marked constant design. Then lists of T:
/// their reach, before that of designs, and in a marked call; the step back,
/// steps forward, and what refusal 10 does not see.
const LISTS: [Scene; 11] = [
    Scene::Pair(2, 14),
    Scene::Pair(14, 3),
    Scene::Pair(14, 12),
    Scene::Pointed(pointed::NUMBERS),
    Scene::Pointed(pointed::OTHER_BYTE),
    Scene::Pointed(pointed::CONSTANT),
    Scene::Pair(T_REACH, 14),
    Scene::Pointed(pointed::T_NUMBERS),
    Scene::Pointed(pointed::BACK),
    Scene::Pointed(pointed::FORWARD),
    Scene::Pointed(pointed::LATER_DRIVEN),
];

/// And the causes of skips: of two tests that an element fails, or of one that
/// the other would not see; by numbers that are not finite; and in a diffuse
/// period.
const CAUSES: std::ops::Range<usize> = pointed::CAUSES..pointed::CAUSES + 6;

/// Marks that a small case can't have or need not show.
fn unwanted() -> u64 {
    [
        Branch::BoundNan as usize,
        marks::TAIL,
        marks::SUBNORMAL,
        marks::KNOWN,
        marks::ALL_DIFFUSE,
    ]
    .iter()
    .fold(0, |m, &k| m | 1 << k)
}

fn small_enough(case: &Case) -> bool {
    let listed = case.zs.len().max(case.ts.len());
    case.m <= 3 && case.p <= 3 && case.r <= 2 && case.n <= 3 && listed <= 12
}

/// What a case costs to compute and to read.
fn cost(case: &Case) -> f64 {
    let (p, m, n) = (case.p, case.m, case.n);
    let work = n.min(9) * (p.min(9) * m.min(9).pow(2) + m.min(9).pow(3) + 4);
    let bits: u32 = case
        .input_words()
        .iter()
        .flatten()
        .map(|&w| match w & 0x000F_FFFF_FFFF_FFFF {
            0 => u32::from(w != 0),
            f => 53 - f.trailing_zeros(),
        })
        .sum();
    work as f64 + 0.1 * f64::from(bits)
}

/// Some ways of running off, lists and causes; then cases that with these have
/// every mark that a small case can have; then further ones.
pub fn choose(seed: u64, count: usize) -> Vec<(Case, Expected)> {
    let mut scenes = deck();
    scenes.sort_by_key(|s| format!("{s:?}"));
    scenes.dedup();
    let mut pool = Vec::new();
    for k in 0..CANDIDATES {
        let scene = scenes[(k % scenes.len() as u64) as usize];
        let mut rng = Rng::new(seed.wrapping_mul(0x9E37_79B9).wrapping_add(k));
        let case = make(&mut rng, Room::Small, scene);
        if !small_enough(&case) {
            continue;
        }
        let e = case::run(&case);
        check_scene(scene, &e);
        pool.push((cost(&case), scene, case, e));
    }
    pool.sort_by(|a, b| a.0.total_cmp(&b.0));
    // Plain numbers first; what only overflow shows comes last.
    let ran_off = 1 << marks::INFINITY | 1 << marks::NAN;
    let masks: Vec<u64> = pool.iter().map(|x| mask(&x.3)).collect();
    let mut chosen: Vec<usize> = Vec::new();
    let ways = WAYS.map(|way| Scene::Pointed(pointed::OFFS + way));
    let causes = CAUSES.map(Scene::Pointed);
    for scene in ways.into_iter().chain(LISTS).chain(causes) {
        let first = pool.iter().position(|x| x.1 == scene);
        if let Some(i) = first.filter(|_| chosen.len() < count) {
            chosen.push(i);
        }
    }
    for late in [false, true] {
        let usable: Vec<usize> = (0..pool.len())
            .filter(|&i| late || masks[i] & ran_off == 0)
            .collect();
        let all = usable.iter().fold(0, |m, &i| m | masks[i]);
        let had = chosen.iter().fold(0, |m, &i: &usize| m | masks[i]);
        let mut left = all & !unwanted() & !had;
        while left != 0 && chosen.len() < count {
            // The rarest mark that is left, and the case that has it at the
            // least cost for the marks it adds.
            let share = |k: &u32| masks.iter().filter(|&&m| m >> k & 1 == 1).count();
            let k = (0..64)
                .filter(|k| left >> k & 1 == 1)
                .min_by_key(share)
                .unwrap();
            let worth = |i: usize| {
                let adds = f64::from((masks[i] & left).count_ones());
                pool[i].0 / (3.0 + adds)
            };
            let best = usable
                .iter()
                .copied()
                .filter(|&i| masks[i] >> k & 1 == 1)
                .min_by(|&i, &j| worth(i).total_cmp(&worth(j)))
                .unwrap();
            left &= !masks[best];
            chosen.push(best);
        }
    }
    // Further cases: the cheapest of two periods or more whose set of marks
    // is new.
    let mut seen: Vec<u64> = chosen.iter().map(|&i| masks[i]).collect();
    for (i, x) in pool.iter().enumerate() {
        if chosen.len() >= count {
            break;
        }
        let ran = masks[i] & (1 << Branch::Usual as usize | 1 << Branch::Diffuse as usize) != 0;
        let plain = ran && x.2.n > 1 && masks[i] & ran_off == 0;
        if x.3.filter.is_ok() && plain && !seen.contains(&masks[i]) {
            seen.push(masks[i]);
            chosen.push(i);
        }
    }
    chosen.sort_unstable();
    chosen
        .into_iter()
        .map(|i| (pool[i].2.clone(), pool[i].3.clone()))
        .collect()
}

pub(crate) fn hex(words: &[u64]) -> String {
    words.iter().map(|w| format!(" {w:016x}")).collect()
}

pub(crate) fn plain(words: impl Iterator<Item = u64>) -> String {
    words.map(|w| format!(" {w}")).collect()
}

/// What is handed in, as text: the sizes, the marker, the inputs.
pub(crate) fn handed(case: &Case) -> String {
    let sizes = [case.p, case.m, case.r, case.n];
    let mut s = format!("sizes{}\n", plain(sizes.iter().map(|&k| k as u64)));
    s += &format!("repeats {}\n", case.repeats);
    for (name, words) in INPUT_NAMES.iter().zip(case.input_words()) {
        let values = if *name == "flags" {
            plain(words.into_iter())
        } else {
            hex(&words)
        };
        s += &format!("in {name}{values}\n");
    }
    s
}

/// One case as text.
pub fn text(number: usize, case: &Case, e: &Expected) -> String {
    let mut s = format!("case {number}\n");
    let names: Vec<&str> = (0..marks::COUNT)
        .filter(|&k| e.hits[k] > 0)
        .map(|k| marks::NAMES[k])
        .collect();
    s += &format!("marks {}\n", names.join("; "));
    s += &handed(case);
    s += &format!("lent{}\n", plain(case.lent.iter().map(|&k| k as u64)));
    for (name, o) in [("filter", &e.filter), ("smooth", &e.smooth)] {
        s += &match outcome(o) {
            Ok(a) => format!("{name} answered {a}\n"),
            Err(k) => format!("{name} refused {k}\n"),
        };
    }
    for (name, words) in OUTPUT_NAMES.iter().zip(&e.written) {
        let values = if *name == "kinds" {
            plain(words.iter().copied())
        } else {
            hex(words)
        };
        s += &format!("out {name}{values}\n");
    }
    s + "end\n"
}

pub(crate) fn outcome(o: &Outcome) -> Result<String, u32> {
    o.map(|a| {
        let [loglik, counts @ ..] = answer_words(&a);
        format!("{loglik:016x}{}", plain(counts.into_iter()))
    })
}

/// `oracle small SEED COUNT`.
pub fn command(seed: u64, count: usize) {
    let chosen = choose(seed, count);
    let had = chosen.iter().fold(0, |m, (_, e)| m | mask(e));
    for (k, (case, e)) in chosen.iter().enumerate() {
        println!("{}", text(k, case, e));
    }
    for k in 0..marks::COUNT {
        if (had | unwanted()) >> k & 1 == 0 {
            println!("not shown: {}", marks::NAMES[k]);
        }
    }
}
