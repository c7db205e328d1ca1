//! Runs compared bit for bit, all NaNs as one.

use goxundar::{Cause, Record, Run};

fn bits(x: f64) -> u64 {
    if x.is_nan() {
        f64::NAN.to_bits()
    } else {
        x.to_bits()
    }
}

pub fn all_bits(part: &[f64]) -> Vec<u64> {
    part.iter().copied().map(bits).collect()
}

fn record(of: Record<'_>) -> (u8, Vec<u64>) {
    match of {
        Record::Skipped(Cause::Gap) => (0, Vec::new()),
        Record::Skipped(Cause::TooSmall) => (3, Vec::new()),
        Record::Skipped(Cause::BelowDust) => (4, Vec::new()),
        Record::Skipped(Cause::FailedReplay) => (5, Vec::new()),
        Record::Usual { v, f_star, m_star } => (1, [&[bits(v), bits(f_star)], &all_bits(m_star)[..]].concat()),
        Record::Diffuse { v, f_star, f_inf, m_star, m_inf } => {
            (2, [&[bits(v), bits(f_star), bits(f_inf)], &all_bits(m_star)[..], &all_bits(m_inf)[..]].concat())
        }
    }
}

pub type Told = (u64, usize, usize, usize, Option<usize>, Option<usize>);

pub fn answer(run: &Run) -> Told {
    (bits(run.loglik()), run.d_diffuse(), run.heard(), run.news(), run.cov_off(), run.mean_off())
}

/// `part` is `whole` from period t on. Its last predicted place is compared where `whole` ends there too, or has not been tested.
pub fn is_part(part: &Run, whole: &Run, t: usize) {
    let places = part.periods() + usize::from(t + part.periods() == whole.periods());
    for k in 0..places {
        let (got, want) = (part.predicted(k), whole.predicted(t + k));
        assert_eq!(all_bits(got.mean), all_bits(want.mean));
        assert_eq!(all_bits(got.cov), all_bits(want.cov));
        assert_eq!(all_bits(got.diffuse_cov), all_bits(want.diffuse_cov));
    }
    for k in 0..part.periods() {
        assert_eq!(all_bits(part.filtered(k).mean), all_bits(whole.filtered(t + k).mean));
        assert_eq!(all_bits(part.filtered(k).cov), all_bits(whole.filtered(t + k).cov));
        for i in 0..whole.elements() {
            assert_eq!(record(part.record(k, i)), record(whole.record(t + k, i)));
        }
    }
}
