//! What was compared, how much of it differs, and the first difference.

use std::cmp::Ordering;

use oracle::case::Case;
use oracle::kinds::counts;
use oracle::{KINDS, KIND_NAMES, TOO_SMALL};

/// One kind of comparison.
#[derive(Debug, Clone, Default)]
pub struct Line {
    pub compared: u64,
    pub differ: u64,
    /// Which case it was in, and what differs.
    pub first: Option<(u64, String)>,
    case: u64,
}

impl Line {
    /// Counts a comparison, and the difference that it found. The first of its kind is told at once, since a later call may crash.
    pub fn count(&mut self, name: &str, difference: Option<String>) {
        self.compared += 1;
        let Some(what) = difference else { return };
        self.differ += 1;
        if self.first.is_none() {
            println!("differs: {name}: {what}");
            self.first = Some((self.case, format!("{name}: {what}")));
        }
    }

    fn add(&mut self, other: Line) {
        self.compared += other.compared;
        self.differ += other.differ;
        let firsts = [self.first.take(), other.first];
        self.first = firsts.into_iter().flatten().min_by_key(|(case, _)| *case);
    }
}

#[derive(Debug, Clone, Default)]
pub struct Tally {
    pub cases: u64,
    /// How the compared calls on made cases ended: answered, or refused with 1 to 12 or 14.
    pub ended: [u64; 15],
    pub wild_ended: [u64; 15],
    /// Runs that are cut and have a list of designs: marked and short, unmarked and reaching n, unmarked and short.
    pub lists: [u64; 3],
    /// Cases that have a list of T: of n matrices, of more, of fewer.
    pub t_lists: [u64; 3],
    /// Calls on made cases that are refused 2 by the reach of T alone, and stretches from saved bytes.
    pub t_short: u64,
    pub stretch_t_short: u64,
    /// Cases that the filter's call answers: with a covariance report, with a mean report, with both, with neither.
    pub reports: [u64; 4],
    /// In how many of these cases each kind of record occurs.
    pub kinds: [u64; KINDS],
    /// The readings that are no news, of which demand 3's second half was tried: by the kinds of their records.
    pub no_news: [u64; KINDS],
    /// Long runs with a report.
    pub long_told: u64,
    /// Wild calls whose empty parts were null.
    pub wild_nulls: u64,
    pub filter: Line,
    pub smooth: Line,
    pub long: Line,
    pub other_values: Line,
    pub other_number: Line,
    pub gap: Line,
    pub other_offsets: Line,
    pub copies: Line,
    pub wild_sizes: Line,
    pub wild_lengths: Line,
    pub wild_claims: Line,
    pub wild_bits: Line,
    pub wild_numbers: Line,
    /// How the compared calls of stretches ended that are not of a cut run.
    pub stretch_ended: [u64; 16],
    pub cut_once: Line,
    pub cut_each: Line,
    pub cut_anywhere: Line,
    pub cut_short: Line,
    pub altered: Line,
    pub each_bit: Line,
    pub stretch_refused: Line,
    pub stretch_values: Line,
    pub stretch_offsets: Line,
    pub stretch_wild: Line,
}

impl Tally {
    fn lines(&mut self) -> [(&'static str, &mut Line); 23] {
        [
            ("filter against the oracle", &mut self.filter),
            ("smoother against the oracle", &mut self.smooth),
            ("long runs, up to 4096 periods, against the oracle", &mut self.long),
            ("demand 3: other values of finite readings", &mut self.other_values),
            ("demand 3: another number for a reading that is no news", &mut self.other_number),
            ("demand 3: a gap for it, the cause excepted", &mut self.gap),
            ("request k: other a1, c and d", &mut self.other_offsets),
            ("request g: n copies of T for a constant T", &mut self.copies),
            ("wild calls: sizes", &mut self.wild_sizes),
            ("wild calls: lengths", &mut self.wild_lengths),
            ("wild calls: lengths claimed that nothing has", &mut self.wild_claims),
            ("wild calls: random bits in the inputs", &mut self.wild_bits),
            ("wild calls: random bits that are not refused at once", &mut self.wild_numbers),
            ("stretches of runs cut once, at each period", &mut self.cut_once),
            ("stretches of runs cut after every period", &mut self.cut_each),
            ("stretches of runs cut anywhere, up to 4096 periods", &mut self.cut_anywhere),
            ("stretches of runs of which a list falls short", &mut self.cut_short),
            ("stretches from saved bytes that were altered", &mut self.altered),
            ("stretches from saved bytes, each bit flipped in turn", &mut self.each_bit),
            ("stretches that refusals 1 to 11 are for, and 15 too", &mut self.stretch_refused),
            ("demand 3 in a stretch", &mut self.stretch_values),
            ("request k in a stretch", &mut self.stretch_offsets),
            ("wild calls of a stretch", &mut self.stretch_wild),
        ]
    }

    /// What is counted from here on is of this case.
    pub fn start(&mut self, case: u64) {
        self.cases += 1;
        for (_, line) in self.lines() {
            line.case = case;
        }
    }

    pub fn add(&mut self, mut other: Tally) {
        self.cases += other.cases;
        self.wild_nulls += other.wild_nulls;
        self.long_told += other.long_told;
        self.t_short += other.t_short;
        self.stretch_t_short += other.stretch_t_short;
        for (a, b) in self.reports.iter_mut().zip(other.reports) {
            *a += b;
        }
        for (a, b) in self.kinds.iter_mut().chain(&mut self.no_news).zip(other.kinds.into_iter().chain(other.no_news)) {
            *a += b;
        }
        for k in 0..15 {
            self.ended[k] += other.ended[k];
            self.wild_ended[k] += other.wild_ended[k];
        }
        for (a, b) in self.lists.iter_mut().chain(&mut self.t_lists).zip(other.lists.into_iter().chain(other.t_lists)) {
            *a += b;
        }
        for (a, b) in self.stretch_ended.iter_mut().zip(other.stretch_ended) {
            *a += b;
        }
        for ((_, a), (_, b)) in self.lines().into_iter().zip(other.lines()) {
            a.add(std::mem::take(b));
        }
    }

    /// Counts the kinds of a case that is answered.
    pub fn has_kinds(&mut self, kinds: &[u64]) {
        for (cases, count) in self.kinds.iter_mut().zip(counts(kinds)) {
            *cases += u64::from(count > 0);
        }
    }

    /// Counts the reports of a case that is answered, the covariances' and the means'.
    pub fn told(&mut self, reports: [u64; 2]) {
        let [cov, mean] = reports.map(|off| off > 0);
        for (count, yes) in self.reports.iter_mut().zip([cov, mean, cov && mean, !cov && !mean]) {
            *count += u64::from(yes);
        }
    }

    /// Counts the list of designs of a run that is cut.
    pub fn listed(&mut self, case: &Case) {
        let short = !case.zs.is_empty() && case.listed() < case.n;
        let kind = match (short, case.repeats) {
            (true, 0) => 2,
            (true, _) => 0,
            (false, 0) if !case.zs.is_empty() => 1,
            _ => return,
        };
        self.lists[kind] += 1;
    }

    /// Counts the list of T of a case, whatever becomes of it.
    pub fn listed_t(&mut self, case: &Case) {
        let reached = case.n.saturating_mul(case.m).saturating_mul(case.m);
        if !case.ts.is_empty() {
            let kind = match case.ts.len().cmp(&reached) {
                Ordering::Equal => 0,
                Ordering::Greater => 1,
                Ordering::Less => 2,
            };
            self.t_lists[kind] += 1;
        }
    }

    /// How many stretches were compared, and how many of them from saved bytes that were altered.
    pub fn stretches(&self) -> (u64, u64) {
        let altered = self.altered.compared + self.each_bit.compared;
        let cut = self.cut_once.compared + self.cut_each.compared + self.cut_anywhere.compared + self.cut_short.compared;
        let blind = self.stretch_values.compared + self.stretch_offsets.compared;
        (cut + altered + blind + self.stretch_refused.compared + self.stretch_wild.compared, altered)
    }

    /// Prints the table. How many comparisons were made, and how many differ.
    pub fn print(&mut self) -> (u64, u64) {
        let ended = |e: &[u64]| {
            let refused: Vec<String> = (1..e.len()).filter(|&k| k != 13).map(|k| format!("{k}: {}", e[k])).collect();
            format!("{} answered; refused {}", e[0], refused.join(", "))
        };
        println!("calls on made cases: {}", ended(&self.ended));
        let [cov, mean, both, neither] = self.reports;
        println!("answered cases: {cov} with a covariance report, {mean} with a mean report, {both} of these with both; {neither} with neither");
        println!("long runs with a report: {}", self.long_told);
        let named = |counts: &[u64; KINDS], from: usize| {
            let each: Vec<String> = (from..KINDS).map(|k| format!("{} {}", KIND_NAMES[k], counts[k])).collect();
            each.join(", ")
        };
        println!("answered cases that have a record of this kind: {}", named(&self.kinds, 0));
        println!("readings that are no news, tried for demand 3: {}", named(&self.no_news, usize::from(TOO_SMALL)));
        let [exact, longer, shorter] = self.t_lists;
        let listed: u64 = self.t_lists.iter().sum();
        println!("cases with a list of T: {listed} of {}; {exact} of n matrices, {longer} of more, {shorter} of fewer", self.cases);
        println!("refused 2 by the reach of T alone: {} calls on made cases, {} stretches from saved bytes", self.t_short, self.stretch_t_short);
        let [repeated, reached, short] = self.lists;
        println!("runs cut that have a list of designs: {repeated} marked and short, {reached} unmarked that reach n, {short} unmarked and short");
        println!("wild calls: {}; empty parts null in {}", ended(&self.wild_ended), self.wild_nulls);
        println!("stretches but those of cut runs: {}", ended(&self.stretch_ended));
        println!("{:<56} {:>10} {:>8}", "", "compared", "differ");
        let (mut compared, mut differ) = (0, 0);
        let mut first: Option<(u64, String)> = None;
        for (name, line) in self.lines() {
            println!("{name:<56} {:>10} {:>8}", line.compared, line.differ);
            compared += line.compared;
            differ += line.differ;
            let firsts = [first.take(), line.first.clone()];
            first = firsts.into_iter().flatten().min_by_key(|(case, _)| *case);
        }
        if let Some((_, what)) = first {
            println!("first difference: {what}");
        }
        (compared, differ)
    }
}
