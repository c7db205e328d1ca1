//! A run that is not cut, with what stands between its periods: what the
//! stretches of a cut run are held to.

use parts::{needed, Carried, Inputs, Outcome, Stretch};
use tsecon_ssm_probed::probe;

use crate::case::{reports, Buffers};

#[derive(Debug)]
pub struct Uncut {
    /// What the filter's call answers; or refusal 12.
    pub outcome: Outcome,
    /// What the run writes, as much as is needed: also where it ends in
    /// refusal 12, since only the last stretch is judged by that.
    pub written: Buffers,
    /// After 0 to n periods.
    pub states: Vec<Carried>,
}

/// The run, with room lent for its outputs; or refusal 1 to 11 or 14.
pub fn uncut(i: &Inputs<'_>) -> Result<Uncut, u32> {
    let sized = [i.p, i.m, i.r].iter().all(|k| (1..=8).contains(k)) && (1..=4096).contains(&i.n);
    if !sized {
        return Err(1);
    }
    let lent = needed(i.p, i.m, i.n);
    let mut whole = Buffers::patterned(&lent);
    let outcome = tsecon_ssm::filter_call(i, &mut whole.lend().0);
    match outcome {
        Err(k) if k != 12 => return Err(k),
        _ => {}
    }
    let begun = Stretch {
        begins: 1,
        saved: &[],
        last: 0,
    };
    let mut written = Buffers::patterned(&lent);
    let mut save = vec![0; parts::saved_len(i.m)];
    let (kept, told) = probe::keeping(|| {
        tsecon_ssm_probed::stretch_call(i, &begun, &mut written.lend().0, &mut save)
    });
    assert!(told.is_ok(), "only the last stretch is refused 12");
    if outcome.is_ok() {
        let parts = 0..parts::FILTER_PARTS;
        assert!(parts.clone().all(|k| whole.words(k) == written.words(k)));
    }
    // What was told by then: a later period is not known yet.
    let words: Vec<Vec<u64>> = (0..5).map(|k| written.words(k)).collect();
    let (cov_off, mean_off) = reports(&words, i.m, i.n);
    let by = |off: usize, k: usize| if off <= k { off } else { 0 };
    let states = kept
        .iter()
        .enumerate()
        .map(|(k, s)| s.carried(k, by(cov_off, k), by(mean_off, k)))
        .collect();
    Ok(Uncut {
        outcome,
        written,
        states,
    })
}
