//! Runs cut into stretches: every stretch of the library, from the bytes that the one before saved, against the oracle's run that is not cut. The
//! saved bytes are held to the encoder of the oracle, over the state that its own loop had at that period. Where a list of designs falls short and is
//! not marked, the stretches are those of the marked run as far as it reaches, and past that refused 14. Where a list of T falls short, they are those
//! of the run whose list goes on to n, and past its own reach refused 2.

use oracle::case::Case;
use oracle::rng::Rng;
use oracle::uncut::uncut;
use oracle::{encode, needed, saved_len, Carried, Inputs};

use crate::kinds;
use crate::lent::{Ask, Lent, COV_OFF, D_DIFFUSE, HEARD, LOGLIK, MEAN_OFF, NEWS, PRED_MEAN, SAVE};
use crate::library::Call;
use crate::tally::{Line, Tally};

/// How many words the stretches of one long run may be lent in all: the lists are lent to each.
const LONG_WORDS: usize = 4_000_000;

/// A case whose run starts, once it is marked and T reaches n, and the oracle's run.
pub struct Run<'a> {
    pub case: &'a Case,
    /// How many periods the list of designs reaches, and that of T; of a constant one, all.
    reach: usize,
    reach_t: usize,
    /// How the marked filter's call ends if T reaches n: 0, or 12.
    pub ended: u32,
    written: [Vec<u64>; 11],
    /// After 0 to n periods.
    pub states: Vec<Carried>,
}

/// Room for the eleven outputs of a stretch, now and then more than is needed.
pub fn room(rng: &mut Rng, p: usize, m: usize, n: usize) -> [usize; 13] {
    let mut lent = needed(p, m, n).map(|len| len + rng.below(3));
    lent[11..].fill(0);
    lent
}

/// The counts and reports of a run so far, each with its part.
pub fn counts(state: &Carried) -> [(usize, u64); 5] {
    let Carried { d_diffuse, heard, news, cov_off, mean_off, .. } = *state;
    [(D_DIFFUSE, d_diffuse), (HEARD, heard), (NEWS, news), (COV_OFF, cov_off), (MEAN_OFF, mean_off)].map(|(part, count)| (part, count as u64))
}

/// The inputs of a case's periods `from` up to `to`.
pub fn periods(case: &Case, from: usize, to: usize) -> Inputs<'_> {
    let mut i = case.inputs();
    i.n = to - from;
    i.y = &case.y[from * case.p..to * case.p];
    i
}

/// The refusal for a list that falls short of the run's periods, of T or else of designs, unmarked: reckoned anew from document 02, in numbers that
/// can't overflow. The saved bytes tell how many periods are done.
fn by_reach(i: &Inputs<'_>, ask: &Ask<'_>) -> Option<u32> {
    let done = match ask.saved.get(28..36) {
        Some(bytes) if ask.begins == 0 => bytes.iter().fold(0, |v, &byte| v << 8 | u128::from(byte)),
        _ => 0,
    };
    let periods = done + i.n as u128;
    let short = |list: &[f64], size: usize| !list.is_empty() && (list.len() as u128) < periods * size as u128;
    if short(i.ts, i.m * i.m) {
        return Some(2);
    }
    (i.repeats == 0 && short(i.zs, i.p * i.m)).then_some(14)
}

/// The refusal for a list's reach, by document 02 alone, against the oracle's. Whether one before it is due is for others to tell; of refusals 1 and 2
/// `first` does, by sizes and lengths.
pub fn reach_held(want: u32, first: Option<u32>, i: &Inputs<'_>, ask: &Ask<'_>) -> Option<String> {
    let given = match want {
        2 | 14 if first.is_none() => Some(want),
        0 | 12 => None,
        _ => return None,
    };
    let due = by_reach(i, ask);
    (given != due).then(|| format!("THE ORACLE gives {want}, and for the reach of a list document 02 {due:?}"))
}

impl<'a> Run<'a> {
    /// The run, marked and with T up to n, or its refusal, 1 to 11.
    pub fn of(case: &'a Case) -> Result<Self, u32> {
        let whole = uncut(&Inputs { repeats: 1, ..case.reaching().inputs() })?;
        let written = std::array::from_fn(|k| whole.written.words(k));
        let reach = if case.zs.is_empty() { usize::MAX } else { case.listed() };
        let reach_t = if case.ts.is_empty() { usize::MAX } else { case.listed_t() };
        Ok(Run { case, reach, reach_t, ended: whole.outcome.err().unwrap_or(0), written, states: whole.states })
    }

    /// Whether a list falls short of all periods.
    fn short(&self) -> bool {
        self.reach.min(self.reach_t) < self.case.n
    }

    /// A marker for a stretch that ends at `to`: as the case has it where the designs do not reach so far, else any byte.
    fn marker(&self, rng: &mut Rng, to: usize) -> u8 {
        match self.case.repeats {
            _ if to <= self.reach => rng.maybe_marker(1, 2),
            0 => 0,
            _ => rng.marker(),
        }
    }

    /// What is saved after k periods.
    pub fn bytes(&self, k: usize) -> Vec<u8> {
        encode(self.case.p, self.case.m, self.case.r, &self.states[k])
    }

    /// Writes what the stretch over periods `from` up to `to` must leave. How it must end.
    fn put(&self, lent: &mut Lent, from: usize, to: usize, last: bool) -> u32 {
        let (p, m) = (self.case.p, self.case.m);
        if to > self.reach_t {
            return 2;
        }
        if to > self.reach && self.case.repeats == 0 {
            return 14;
        }
        if last && self.ended == 12 {
            for (k, need) in needed(p, m, to - from).into_iter().enumerate().take(11) {
                lent.put(PRED_MEAN + k, 0, &vec![0; need]);
            }
            return 12;
        }
        let widths = [m, m * m, m * m, m, m * m, p, p, p, p, p * m, p * m];
        for (k, width) in widths.into_iter().enumerate() {
            lent.put(PRED_MEAN + k, 0, &self.written[k][from * width..to * width]);
        }
        // The last predicted place is what the run carries on: P∞ is not tested yet.
        let state = &self.states[to];
        for (k, x) in [&state.mean, &state.star, &state.p_inf].into_iter().enumerate() {
            let words: Vec<u64> = x.iter().map(|v| v.to_bits()).collect();
            lent.put(PRED_MEAN + k, (to - from) * widths[k], &words);
        }
        lent.put(LOGLIK, 0, &[state.loglik.to_bits()]);
        for (part, count) in counts(state) {
            lent.put(part, 0, &[count]);
        }
        if !last {
            let bytes = self.bytes(to);
            lent.bytes_mut(SAVE)[..bytes.len()].copy_from_slice(&bytes);
        }
        0
    }

    /// One stretch, from the start or from saved bytes, in memory of its own: the bytes that it saved, if any, or what differs.
    fn stretch(&self, rng: &mut Rng, from: usize, to: usize, saved: Option<&[u8]>, last: bool) -> Result<Option<Vec<u8>>, String> {
        let Case { p, m, .. } = *self.case;
        let need = saved_len(m);
        let ask = Ask {
            begins: if saved.is_none() { rng.marker() } else { 0 },
            saved: saved.unwrap_or(&[]),
            last: if last { rng.marker() } else { 0 },
            room: if last {
                rng.pick(&[0, 0, 1, need - 1, need, need + 9])
            } else {
                need + rng.pick(&[0, 0, 1, 7, 100])
            },
        };
        let lent = room(rng, p, m, to - from);
        let i = Inputs { repeats: self.marker(rng, to), ..periods(self.case, from, to) };
        let mut found = Lent::new(&i, &lent, &ask, rng.word());
        let mut wanted = found.clone();
        let want = self.put(&mut wanted, from, to, last);
        let outcome = found.library(Call::Stretch);
        let difference = if outcome != want {
            Some(format!("outcome {outcome}, wanted {want} (0: answered, else the refusal)"))
        } else {
            found.difference(&wanted, Call::Stretch, want, &[])
        };
        match difference.or_else(|| kinds::broken(&found, Call::Stretch, outcome)) {
            Some(what) => Err(format!("the stretch of periods {from} to {to}: {what}")),
            None if last || want != 0 => Ok(None),
            None => Ok(Some(found.bytes_mut(SAVE)[..need].to_vec())),
        }
    }

    /// The whole run in stretches that end at `cuts`, ascending, and at its end; up to the first that differs. Now and then the last one is empty. One
    /// that is refused for a list's reach leaves the run where it was.
    pub fn chain(&self, rng: &mut Rng, cuts: &[usize], name: &str, line: &mut Line) {
        let n = self.case.n;
        let mut ends = cuts.to_vec();
        if rng.chance(1, 4) {
            ends.push(n);
        }
        let (mut from, mut saved) = (0, None);
        for (k, to) in ends.iter().copied().chain([n]).enumerate() {
            match self.stretch(rng, from, to, saved.as_deref(), k == ends.len()) {
                Ok(Some(bytes)) => (from, saved) = (to, Some(bytes)),
                Ok(None) => {}
                Err(what) => return line.count(name, Some(what)),
            }
            line.count(name, None);
        }
    }
}

/// Cuts anywhere, some of them at one place.
fn anywhere(rng: &mut Rng, n: usize, most: usize) -> Vec<usize> {
    let mut cuts: Vec<usize> = (0..rng.within(1, most)).map(|_| rng.within(0, n)).collect();
    cuts.sort_unstable();
    cuts
}

/// A short run: cut at each period, after every period, anywhere, and not at all; where a list falls short, also gone on with after each period.
pub fn try_short(rng: &mut Rng, run: &Run<'_>, name: &str, tally: &mut Tally) {
    let n = run.case.n;
    for cut in 0..=n {
        run.chain(rng, &[cut], &format!("{name}, cut at {cut}"), &mut tally.cut_once);
    }
    let every: Vec<usize> = (1..n).collect();
    run.chain(rng, &every, &format!("{name}, cut after every period"), &mut tally.cut_each);
    let some = anywhere(rng, n, 4);
    run.chain(rng, &some, &format!("{name}, cut at {some:?}"), &mut tally.cut_anywhere);
    run.chain(rng, &[], &format!("{name}, in one stretch"), &mut tally.cut_anywhere);
    // From what the whole run saves: done past a list's end is refused too, with no period more.
    for from in (0..=n).filter(|_| run.short()) {
        let to = rng.within(from, n);
        let made = run.stretch(rng, from, to, Some(&run.bytes(from)), to == n);
        tally.cut_short.count(&format!("{name}, from the bytes after {from} periods"), made.err());
    }
}

/// A long run: cut anywhere; and after every period from some place on, as far as there is time for.
pub fn try_long(rng: &mut Rng, run: &Run<'_>, name: &str, tally: &mut Tally) {
    let n = run.case.n;
    let some = anywhere(rng, n, 8);
    run.chain(rng, &some, &format!("{name}, cut at {some:?}"), &mut tally.cut_anywhere);
    let most = LONG_WORDS / (run.case.zs.len() + run.case.ts.len() + 1000);
    let first = rng.within(0, n.saturating_sub(most));
    let every: Vec<usize> = (first..n.min(first + most)).collect();
    run.chain(rng, &every, &format!("{name}, cut after every period from {first} on"), &mut tally.cut_each);
}
