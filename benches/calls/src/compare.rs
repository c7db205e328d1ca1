//! The comparison at scale: fresh cases of the oracle's generator through both calls of the library and of the oracle, demand 3 and request k by pairs
//! of calls, wild calls; and each case's run in stretches. The records of every call of the library are held to request a's rules. Case k of a seed is
//! the same in every run, whatever the count and the threads; where numbers are to run off, every third case is another one.

use oracle::case::Case;
use oracle::gen::Cases;
use oracle::rng::Rng;
use oracle::time;

use crate::cuts::Run;
use crate::lent::{Lent, COV_OFF, KINDS, MEAN_OFF};
use crate::library::{Call, CALLS};
use crate::tally::Tally;
use crate::{altered, cuts, kinds, values, watch, wild};

/// The generator's cases have 20 periods at most. After one in so many comes a long run.
const LONG_EVERY: u64 = 997;

/// How a call must end on a case, the library's first difference from the oracle's, and the parts as the oracle leaves them.
fn compared(which: Call, case: &Case, fill: u64) -> (u32, Option<String>, Lent) {
    let mut found = Lent::of(case, fill);
    let mut wanted = found.clone();
    let (outcome, want) = (found.library(which), wanted.oracle(which));
    let difference = if outcome != want {
        Some(format!("outcome {outcome}, wanted {want} (0: answered, else the refusal)"))
    } else {
        found.difference(&wanted, which, want, &[])
    };
    (want, difference.or_else(|| kinds::broken(&found, which, outcome)), wanted)
}

/// How a call must end on a case, and the library's first difference from the oracle's.
pub fn against_oracle(which: Call, case: &Case, fill: u64) -> (u32, Option<String>) {
    let (want, difference, _) = compared(which, case, fill);
    (want, difference)
}

/// Whether an answer carries a report.
fn reports(answered: &Lent) -> [u64; 2] {
    [COV_OFF, MEAN_OFF].map(|part| answered.word(part, 0))
}

/// Lets a state that nothing reads grow by T, so that its covariances overflow late in a long run, and later its mean, by c.
fn grow(rng: &mut Rng, case: &mut Case) {
    let m = case.m;
    let state = rng.below(m);
    for k in 0..m {
        case.t[state * m + k] = 0.0;
        case.t[k * m + state] = 0.0;
    }
    case.t[state * m + state] = rng.pick(&[1.125, 1.25, 1.5, 2.0, 3.0, 8.0, 64.0]);
    case.c[state] = 1.0;
    for z in [&mut case.z, &mut case.zs] {
        z.iter_mut().skip(state).step_by(m).for_each(|x| *x = 0.0);
    }
}

/// A run of up to 4096 periods: the timed model with gaps, elements without noise, often lists of designs and of T, and often numbers that run off.
fn long_case(rng: &mut Rng) -> Case {
    let (m, p, n) = (rng.within(1, 8), rng.within(1, 8), rng.within(21, 4096));
    let mut case = time::case(m, p, n);
    for y in &mut case.y {
        if rng.chance(1, 3) {
            *y = rng.gap();
        }
    }
    for i in (0..p).filter(|_| rng.chance(1, 3)) {
        case.h[i * p + i] = 0.0;
    }
    if rng.chance(1, 2) {
        let designs = rng.pick(&[rng.clone().within(1, n), n - 1, n, (n + 1).min(4096)]);
        case.z.clear();
        case.zs = (0..designs * p * m).map(|_| 0.5 + rng.unit()).collect();
        case.repeats = rng.maybe_marker(if designs < n { 3 } else { 1 }, 4);
    }
    case.lent = case.lent.map(|len| len + rng.below(3));
    if rng.chance(1, 2) {
        grow(rng, &mut case);
    }
    if rng.chance(1, 2) {
        case.list_t(rng.pick(&[n, n, n, (n + 1).min(4096), 4096, n - 1]));
        // Each period's own, and no more zeros than before.
        case.ts.iter_mut().for_each(|x| *x *= 1.0 - 0.0625 * rng.unit());
    }
    case
}

/// Whether a call on the case is refused 2, and by the reach of T alone.
fn by_reach_of_t(which: Call, case: &Case, refusal: u32) -> bool {
    refusal == 2 && Lent::of(&case.reaching(), 0).oracle(which) != 2
}

/// A case's run in stretches, also where a list falls short; and where the case is refused otherwise, as a stretch.
fn stretches(rng: &mut Rng, offset_rng: &mut Rng, case: &Case, k: u64, name: &str, tally: &mut Tally) {
    // As the filter's call sees it if T reaches n, with the lengths that the case lends.
    let refusal = Lent::of(&case.reaching(), 0).oracle(Call::Filter);
    match Run::of(case) {
        Ok(run) if matches!(refusal, 0 | 12 | 14) => {
            tally.listed(case);
            cuts::try_short(rng, &run, name, tally);
            altered::try_run(rng, &run, name, tally);
            altered::try_bits(rng, &run, k, name, tally);
            values::try_stretch(rng, &run, name, tally);
            values::try_stretch_offsets(offset_rng, &run, name, tally);
        }
        // What the filter's call judges after a list's reach, a stretch is given before it.
        Err(other) if refusal == 14 => altered::try_refused(rng, case, other, name, tally),
        _ => altered::try_refused(rng, case, refusal, name, tally),
    }
}

fn one_case(cases: &Cases, seed: u64, k: u64, tally: &mut Tally) {
    tally.start(k);
    let (_, case) = cases.at(k);
    tally.listed_t(&case);
    let name = format!("case {k} of seed {seed}");
    let mut rng = Rng::new(seed.wrapping_mul(0x9E37_79B9).wrapping_add(k));
    // Of its own, so that the wild call does not go by what demand 3 found in the library's answers.
    let mut wild_rng = Rng::new(rng.word());
    // Of their own too, so that what was tried before there were stretches, and before request k, is tried as it was.
    let mut stretch_rng = Rng::new(wild_rng.clone().word() ^ rng.clone().word());
    let mut offset_rng = Rng::new(stretch_rng.clone().word() ^ rng.clone().word());
    let fill = rng.word();
    for which in CALLS {
        let (outcome, difference, wanted) = compared(which, &case, fill);
        tally.ended[outcome as usize] += 1;
        tally.t_short += u64::from(by_reach_of_t(which, &case, outcome));
        if which == Call::Filter && outcome == 0 {
            tally.told(reports(&wanted));
            tally.has_kinds(&wanted.some(KINDS, case.n * case.p));
        }
        let line = if which == Call::Filter { &mut tally.filter } else { &mut tally.smooth };
        line.count(&format!("{name}, {}", which.name()), difference);
    }
    values::try_case(&mut rng, &case, &name, tally);
    values::try_offsets(&mut offset_rng, &case, &name, tally);
    values::try_copies(&case, fill, &name, tally);
    stretches(&mut stretch_rng, &mut offset_rng, &case, k, &name, tally);
    wild::try_case(&mut wild_rng, &mut stretch_rng, case, &name, tally);
    if k % LONG_EVERY == 0 {
        let case = long_case(&mut wild_rng);
        for which in CALLS {
            let (outcome, difference, wanted) = compared(which, &case, fill);
            tally.long.count(&format!("long run after {name}, {}", which.name()), difference);
            tally.long_told += u64::from(which == Call::Filter && outcome == 0 && reports(&wanted) != [0, 0]);
        }
        values::try_offsets(&mut offset_rng, &case, &format!("long run after {name}"), tally);
        let run = Run::of(&case).expect("a long run starts");
        cuts::try_long(&mut stretch_rng, &run, &format!("long run after {name}"), tally);
    }
}

/// Every `threads`th case below `count`, from the one with the thread's number.
fn some_cases(seed: u64, count: u64, off: bool, thread: usize, threads: usize) -> Tally {
    let cases = if off { Cases::running_off(seed) } else { Cases::new(seed) };
    let mut tally = Tally::default();
    let tenth = (count / 10).max(100_000);
    for k in (thread as u64..count).step_by(threads) {
        watch::start(thread, k);
        one_case(&cases, seed, k, &mut tally);
        if k % tenth == 0 && k > 0 {
            eprintln!("{k} of {count} cases");
        }
    }
    watch::end(thread);
    tally
}

/// Compares, and prints what was compared; with `off`, on cases of which every third runs off. Whether nothing differs.
pub fn compare(seed: u64, count: u64, off: bool, threads: usize) -> bool {
    watch::begin();
    if let Some(what) = kinds::faulty() {
        println!("THE RULES OF RECORDS are at fault: {what}");
        return false;
    }
    let mut tally = std::thread::scope(|scope| {
        let started: Vec<_> = (0..threads).map(|thread| scope.spawn(move || some_cases(seed, count, off, thread, threads))).collect();
        started.into_iter().fold(Tally::default(), |mut all, one| {
            all.add(one.join().expect("a thread of the comparison ended early"));
            all
        })
    });
    let cases = tally.cases;
    let (compared, differ) = tally.print();
    let [answered, blanked] = kinds::held();
    println!("records held to their rules: of {answered} answered calls of the library, and of {blanked} that are refused 12");
    let (stretches, altered) = tally.stretches();
    println!("seed {seed}: {cases} cases, {compared} comparisons, of these {stretches} stretches, {altered} from altered bytes; {differ} differ");
    differ == 0
}
