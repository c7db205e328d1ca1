//! Demand 3 and request k, tried on the library by pairs of calls: the values of finite readings reach no covariance, decision, variance, gain vector,
//! count, refusal or report on the covariances, nor do the offsets past refusals 1 to 11, or where a list falls short (2 or 14); and a reading judged
//! no news is no news, for the report on the means too: made a gap, it moves `heard` by one, and its own record's cause becomes that of a gap (request
//! a). And a list of n copies of T is the constant T (request g). The oracle is not asked.

use std::ops::Range;

use oracle::case::Case;
use oracle::demand3::{other, other_offsets, other_values};
use oracle::kinds::is_skip;
use oracle::rng::Rng;
use oracle::{Inputs, GAP};

use crate::altered::{done_before, float, number, report, some_periods, LIKELIHOOD, MEAN, MEAN_REPORT, SIZES, STATE, TALLIES};
use crate::cuts;
use crate::kinds;
use crate::lent::{Ask, Lent, A1, C, D, FILT_MEAN, HEARD, KINDS, LOGLIK, MEAN_OFF, NEWS, PRED_MEAN, SAVE, SAVED, SM_MEAN, T, TS, V, Y};
use crate::library::{Call, CALLS};
use crate::tally::Tally;

/// What other readings and offsets may move in a call that is answered: the means, v, the log-likelihood and the report on the means. A refused call
/// has none to move.
const MOVED: [usize; 6] = [PRED_MEAN, FILT_MEAN, V, SM_MEAN, LOGLIK, MEAN_OFF];
/// How many readings of a run that were judged no news are tried.
const READINGS: usize = 3;

/// A call as it came back.
#[derive(Clone)]
struct Run {
    which: Call,
    refusal: u32,
    lent: Lent,
    /// The first rule that its records break.
    broken: Option<String>,
}

impl Run {
    fn of(which: Call, refusal: u32, lent: Lent) -> Self {
        let broken = kinds::broken(&lent, which, refusal);
        Run { which, refusal, lent, broken }
    }

    /// As it must be with a gap for reading k: its record's cause is another.
    fn with_gap(&self, k: usize) -> Self {
        let mut run = self.clone();
        run.lent.put(KINDS, k, &[u64::from(GAP)]);
        run
    }
}

fn run(which: Call, case: &Case, fill: u64) -> Run {
    let mut lent = Lent::of(case, fill);
    let refusal = lent.library(which);
    Run::of(which, refusal, lent)
}

/// The first difference of `b` from `a`, the parts `free` apart; or what their records break.
fn moved(a: &Run, b: &Run, free: &[usize]) -> Option<String> {
    if let Some(what) = a.broken.as_ref().or(b.broken.as_ref()) {
        return Some(what.clone());
    }
    if a.refusal != b.refusal {
        return Some(format!("outcome {}, before {} (0: answered, else the refusal)", b.refusal, a.refusal));
    }
    b.lent.difference(&a.lent, a.which, a.refusal, free)
}

/// The first difference that demand 3's first half and request k do not allow, of calls that differ in the inputs `handed`.
fn seen(before: &Run, after: &Run, handed: &[usize]) -> Option<String> {
    let means: &[usize] = if before.refusal == 0 { &MOVED } else { &[] };
    moved(before, after, &[handed, means].concat())
}

/// Second half, for one reading: another number there moves nothing; a gap there moves `heard`, by one, and the cause of its own record.
fn no_news(rng: &mut Rng, before: &Run, case: &Case, k: usize, fill: u64, tally: &mut Tally, name: &str) {
    let mut changed = case.clone();
    changed.y[k] = other(rng, case.y[k]);
    let after = run(before.which, &changed, fill);
    tally.other_number.count(&format!("{name}, another number for reading {k}"), moved(before, &after, &[Y]));

    changed.y[k] = rng.gap();
    let after = run(before.which, &changed, fill);
    let less = || {
        let (was, is) = (before.lent.word(HEARD, 0), after.lent.word(HEARD, 0));
        (is.wrapping_add(1) != was).then(|| format!("heard is {is}, before the gap {was}"))
    };
    tally.gap.count(&format!("{name}, a gap for reading {k}"), moved(&before.with_gap(k), &after, &[Y, HEARD]).or_else(less));
}

/// Both halves on one case, for both calls.
pub fn try_case(rng: &mut Rng, case: &Case, name: &str, tally: &mut Tally) {
    let fill = rng.word();
    for which in CALLS {
        let name = format!("demand 3, {name}, {}", which.name());
        let before = run(which, case, fill);
        if case.y.iter().any(|y| y.is_finite()) {
            let after = run(which, &other_values(rng, case), fill);
            tally.other_values.count(&format!("{name}, other values"), seen(&before, &after, &[Y]));
        }
        if before.refusal != 0 || before.lent.word(NEWS, 0) == 0 {
            continue;
        }
        let mut silent: Vec<usize> = (0..case.y.len()).filter(|&k| case.y[k].is_finite() && is_skip(before.lent.word(KINDS, k))).collect();
        for _ in 0..READINGS.min(silent.len()) {
            let k = silent.swap_remove(rng.below(silent.len()));
            tally.no_news[before.lent.word(KINDS, k) as usize] += 1;
            no_news(rng, &before, case, k, fill, tally, &name);
        }
    }
}

/// A constant T against a list of n copies of it, refusals included: both calls, and a stretch that begins a run.
pub fn try_copies(case: &Case, fill: u64, name: &str, tally: &mut Tally) {
    if !case.sized() || !case.ts.is_empty() || case.t.len() != case.m * case.m {
        return;
    }
    let ts = case.t.repeat(case.n);
    let ask = Ask { begins: 1, room: oracle::saved_len(case.m), ..Ask::default() };
    for which in CALLS.into_iter().chain([Call::Stretch]) {
        let both = Lent::new(&Inputs { ts: &ts, ..case.inputs() }, &case.lent, &ask, fill);
        let [constant, copies] = [TS, T].map(|left_out| {
            let mut lent = both.clone();
            let refusal = lent.library_without(which, left_out);
            Run::of(which, refusal, lent)
        });
        tally.copies.count(&format!("request g, {name}, {}, n copies of T", which.name()), moved(&constant, &copies, &[]));
    }
}

/// Request k on one case past refusals 1 to 11, or refused for a list's reach, for both calls. Other offsets have the same lengths, so that 2 stays.
pub fn try_offsets(rng: &mut Rng, case: &Case, name: &str, tally: &mut Tally) {
    let fill = rng.word();
    for which in CALLS {
        let before = run(which, case, fill);
        if matches!(before.refusal, 0 | 2 | 12 | 14) {
            let after = run(which, &other_offsets(rng, case), fill);
            let name = format!("request k, {name}, {}, other offsets", which.name());
            tally.other_offsets.count(&name, seen(&before, &after, &[C, D, A1, Y]));
        }
    }
}

/// A stretch of a run, to be made with the readings, the offsets and the bytes that it has, and with others.
struct Piece {
    from: usize,
    to: usize,
    begins: u8,
    /// It goes on from what is saved after so many periods.
    done: usize,
    last: u8,
    repeats: u8,
    room: [usize; 13],
    fill: u64,
}

impl Piece {
    fn of(rng: &mut Rng, case: &Case, begins: u8) -> Self {
        let (from, to) = some_periods(rng, case.n);
        let done = done_before(rng, case, to - from);
        let last = rng.maybe_marker(1, 4);
        // Often marked, since a list that reaches n may not reach the end of a stretch that is put here.
        let repeats = if rng.chance(1, 2) { rng.marker() } else { case.repeats };
        Piece { from, to, begins, done, last, repeats, room: cuts::room(rng, case.p, case.m, to - from), fill: rng.word() }
    }

    fn readings(&self, p: usize) -> Range<usize> {
        self.from * p..self.to * p
    }

    fn saved(&self, run: &cuts::Run<'_>) -> Vec<u8> {
        if self.begins == 0 {
            run.bytes(self.done)
        } else {
            Vec::new()
        }
    }

    fn run(&self, case: &Case, saved: &[u8]) -> Run {
        let ask = Ask { begins: self.begins, saved, last: self.last, room: oracle::saved_len(case.m) };
        let i = Inputs { repeats: self.repeats, ..cuts::periods(case, self.from, self.to) };
        let mut lent = Lent::new(&i, &self.room, &ask, self.fill);
        let refusal = lent.library(Call::Stretch);
        Run::of(Call::Stretch, refusal, lent)
    }

    /// Whether both have saved a run.
    fn written(&self, before: &Run, after: &Run) -> bool {
        self.last == 0 && before.refusal == 0 && after.refusal == 0
    }

    /// As `seen`; of what is saved the mean, the likelihood and the report on the means may move.
    fn seen(&self, before: &mut Run, mut after: Run, handed: &[usize], m: usize) -> Option<String> {
        if self.written(before, &after) {
            for place in means(m) {
                after.lent.bytes_mut(SAVE)[place.clone()].copy_from_slice(&before.lent.bytes_mut(SAVE)[place]);
            }
        }
        seen(before, &after, handed)
    }

    fn name(&self, tried: &str, name: &str) -> String {
        format!("{tried}, {name}, a stretch of periods {} to {}", self.from, self.to)
    }
}

/// Where a saved run has its mean and its likelihood.
fn mean_floats(m: usize) -> impl Iterator<Item = Range<usize>> {
    (0..m).map(move |k| number(m, MEAN, k)).chain([number(m, LIKELIHOOD, 0)])
}

/// And its report on the means.
fn means(m: usize) -> impl Iterator<Item = Range<usize>> {
    mean_floats(m).chain([number(m, TALLIES, MEAN_REPORT)])
}

/// The number in the bytes there.
fn whole(bytes: &[u8], place: Range<usize>) -> u64 {
    u64::from_be_bytes(bytes[place].try_into().expect("eight bytes"))
}

/// The bytes with another mean, likelihood and report on the means, where there are any.
fn other_means(rng: &mut Rng, bytes: &[u8], m: usize) -> Vec<u8> {
    let mut saved = bytes.to_vec();
    if bytes.is_empty() {
        return saved;
    }
    for place in mean_floats(m) {
        saved[place].copy_from_slice(&float(rng).to_bits().to_be_bytes());
    }
    let done = whole(bytes, number(m, SIZES, 3)) as usize;
    saved[number(m, TALLIES, MEAN_REPORT)].copy_from_slice(&(report(rng, done) as u64).to_be_bytes());
    saved
}

/// Request k in a stretch that begins a run, or goes on from saved bytes with another mean, likelihood and report on the means.
pub fn try_stretch_offsets(rng: &mut Rng, run: &cuts::Run<'_>, name: &str, tally: &mut Tally) {
    let m = run.case.m;
    let begins = rng.maybe_marker(1, 2);
    let piece = Piece::of(rng, run.case, begins);
    let mut saved = piece.saved(run);
    // The diffuse state is 0 or 1. With another one both calls are refused 15.
    if !saved.is_empty() && rng.chance(1, 8) {
        saved[number(m, TALLIES, STATE)].copy_from_slice(&2u64.to_be_bytes());
    }
    let mut before = piece.run(run.case, &saved);
    let after = piece.run(&other_offsets(rng, run.case), &other_means(rng, &saved, m));
    let name = piece.name("request k", name);
    tally.stretch_offsets.count(&format!("{name}, other offsets"), piece.seen(&mut before, after, &[C, D, A1, Y, SAVED], m));
}

/// Demand 3 in a stretch that goes on from saved bytes. Their mean, likelihood and report on the means may differ too.
pub fn try_stretch(rng: &mut Rng, run: &cuts::Run<'_>, name: &str, tally: &mut Tally) {
    let Case { p, m, .. } = *run.case;
    let piece = Piece::of(rng, run.case, 0);
    let saved = piece.saved(run);
    let mut before = piece.run(run.case, &saved);
    let name = piece.name("demand 3", name);

    let mut changed = run.case.clone();
    changed.y[piece.readings(p)].iter_mut().filter(|y| y.is_finite()).for_each(|y| *y = other(rng, *y));
    let after = piece.run(&changed, &other_means(rng, &saved, m));
    tally.stretch_values.count(&format!("{name}, other values"), piece.seen(&mut before, after, &[Y, SAVED], m));

    let first = piece.readings(p).start;
    let silent: Vec<usize> = piece.readings(p).filter(|&k| run.case.y[k].is_finite() && is_skip(before.lent.word(KINDS, k - first))).collect();
    if before.refusal != 0 || silent.is_empty() {
        return;
    }
    let k = rng.pick(&silent);
    tally.no_news[before.lent.word(KINDS, k - first) as usize] += 1;
    let mut changed = run.case.clone();
    changed.y[k] = other(rng, run.case.y[k]);
    let after = piece.run(&changed, &saved);
    tally.stretch_values.count(&format!("{name}, another number for reading {k}"), moved(&before, &after, &[Y]));

    changed.y[k] = rng.gap();
    let mut after = piece.run(&changed, &saved);
    let heard = |run: &Run| run.lent.word(HEARD, 0);
    let less = (heard(&after).wrapping_add(1) != heard(&before)).then(|| format!("heard is {}, before the gap {}", heard(&after), heard(&before)));
    if piece.written(&before, &after) {
        // What is saved tells as many heard as the answer.
        let told = heard(&before).to_be_bytes();
        let place = number(m, TALLIES, 1);
        let own = whole(after.lent.bytes_mut(SAVE), place.clone());
        if own == heard(&after) {
            after.lent.bytes_mut(SAVE)[place].copy_from_slice(&told);
        }
    }
    tally.stretch_values.count(&format!("{name}, a gap for reading {k}"), moved(&before.with_gap(k - first), &after, &[Y, HEARD]).or(less));
}
