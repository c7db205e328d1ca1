//! What is counted over cases: the branches inside a run, and what shows in
//! its outputs and answer.

use parts::{KINDS, KIND_NAMES};
use tsecon_ssm_probed::probe::{Branch, BRANCHES};

use crate::case::Expected;
use crate::kinds;
use crate::refuse::{pairs, T_REACH};

/// Names of the marks, in the order of their bits.
pub const NAMES: [&str; COUNT] = [
    "gap",
    "diffuse",
    "diffuse refused by the root",
    "usual",
    "skipped by its scale",
    "clear before any update",
    "clear by bound",
    "clear by reference",
    "below",
    "suspect accepted in a diffuse period",
    "suspect accepted by replay",
    "suspect refused by replay",
    "root built",
    "root used again",
    "rank short",
    "rank zero",
    "pivot tie",
    "downdate that returns early",
    "exactly at a tolerance",
    "bound NaN by a zero",
    "skipped by a scale that is not finite",
    "skipped by its scale, and below too",
    "d_diffuse over 1",
    "infinity inside a run",
    "NaN inside a run",
    "place n's diffuse covariance non-zero",
    "the same, below the tolerance",
    "signed zero in an output",
    "subnormal in an output",
    "listed Z, shorter than n, marked",
    "listed Z, longer than n",
    "longer outputs than needed",
    "known start",
    "diffuse start",
    "mixed start",
    "NaN with odd bits as a gap",
    "all readings gaps, answered",
    "smoother alone refused, by its own parts",
    "refusal 1",
    "refusal 2",
    "refusal 3",
    "refusal 4",
    "refusal 5",
    "refusal 6",
    "refusal 7",
    "refusal 8",
    "refusal 9",
    "refusal 10",
    "refusal 11",
    "refusal 12",
    "covariance report",
    "mean report",
    "refusal 14",
    "marked, and nothing repeats",
    "listed Z, of n designs",
    "listed T, of n matrices",
    "listed T, longer than n",
    "refusal 2 by T's reach",
    "listed T that varies, smoothed",
    "skipped by its scale in a diffuse period",
    "below in a diffuse period",
];

/// Count of marks.
pub const COUNT: usize = BRANCHES + 39;

pub const D_DIFFUSE: usize = BRANCHES;
pub const INFINITY: usize = BRANCHES + 1;
pub const NAN: usize = BRANCHES + 2;
pub const PLACE_N: usize = BRANCHES + 3;
pub const PLACE_N_BELOW: usize = BRANCHES + 4;
pub const MINUS_ZERO: usize = BRANCHES + 5;
pub const SUBNORMAL: usize = BRANCHES + 6;
pub const LIST_SHORT: usize = BRANCHES + 7;
pub const LIST_LONG: usize = BRANCHES + 8;
pub const TAIL: usize = BRANCHES + 9;
pub const KNOWN: usize = BRANCHES + 10;
pub const ALL_DIFFUSE: usize = BRANCHES + 11;
pub const MIXED: usize = BRANCHES + 12;
pub const ODD_NAN: usize = BRANCHES + 13;
pub const ALL_GAPS: usize = BRANCHES + 14;
pub const SMOOTH_ONLY: usize = BRANCHES + 15;
/// Refusal k is mark `REFUSAL + k`, for 1 to 12.
pub const REFUSAL: usize = BRANCHES + 15;
pub const COV_OFF: usize = BRANCHES + 28;
pub const MEAN_OFF: usize = BRANCHES + 29;
pub const REFUSAL_14: usize = BRANCHES + 30;
pub const MARKED_IN_VAIN: usize = BRANCHES + 31;
pub const LIST_EXACT: usize = BRANCHES + 32;
pub const T_EXACT: usize = BRANCHES + 33;
pub const T_LONG: usize = BRANCHES + 34;
pub const T_SHORT: usize = BRANCHES + 35;
pub const T_VARIES: usize = BRANCHES + 36;
pub const SCALE_DIFFUSE: usize = BRANCHES + 37;
pub const BELOW_DIFFUSE: usize = BRANCHES + 38;

/// The mark of a test that refuses.
pub fn refusal(test: usize) -> usize {
    match test {
        T_REACH => T_SHORT,
        14 => REFUSAL_14,
        k => REFUSAL + k,
    }
}

/// The bit of a branch.
pub fn bit(b: Branch) -> u64 {
    1 << (b as usize)
}

/// Counts over many cases: how often a branch was taken, and in how many
/// cases.
#[derive(Debug, Clone)]
pub struct Tally {
    pub cases: u64,
    pub hits: [u64; COUNT],
    pub in_cases: [u64; COUNT],
    /// In how many answered cases each kind occurs.
    pub kinds: [u64; KINDS],
    /// Pairs of refusals that were made to hold together.
    pub pairs: [[u64; 15]; 15],
}

impl Default for Tally {
    fn default() -> Self {
        Tally {
            cases: 0,
            hits: [0; COUNT],
            in_cases: [0; COUNT],
            kinds: [0; KINDS],
            pairs: [[0; 15]; 15],
        }
    }
}

impl Tally {
    pub fn add(&mut self, e: &Expected, pair: Option<(usize, usize)>) {
        self.cases += 1;
        for k in 0..COUNT {
            self.hits[k] += e.hits[k];
            self.in_cases[k] += u64::from(e.hits[k] > 0);
        }
        if e.filter.is_ok() {
            let own = kinds::counts(&e.written[5]);
            for (cases, count) in self.kinds.iter_mut().zip(own) {
                *cases += u64::from(count > 0);
            }
        }
        if let Some((a, b)) = pair {
            self.pairs[a][b] += 1;
        }
    }

    /// The least count of cases over all marks.
    pub fn rarest(&self) -> u64 {
        *self.in_cases.iter().min().unwrap()
    }

    pub fn print(&self) {
        println!("{} cases", self.cases);
        println!("{:<42}{:>10}{:>10}", "branch", "taken", "in cases");
        for (k, name) in NAMES.iter().enumerate() {
            println!("{:<42}{:>10}{:>10}", name, self.hits[k], self.in_cases[k]);
        }
        let pairs: Vec<u64> = pairs().map(|(a, b)| self.pairs[a][b]).collect();
        let had = pairs.iter().filter(|&&count| count > 0).count();
        let least = pairs.iter().min().unwrap();
        println!(
            "pairs of refusals: {had} of {}, each at least {least} times",
            pairs.len()
        );
        println!("rarest mark: in {} cases", self.rarest());
        let named = KIND_NAMES.iter().zip(self.kinds);
        let told: Vec<String> = named.map(|(name, k)| format!("{name} {k}")).collect();
        println!("answered cases with a kind: {}", told.join(", "));
    }
}
