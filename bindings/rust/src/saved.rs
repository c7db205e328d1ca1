//! A run in stretches, carried over power cycles as bytes.

use crate::lent::Origin;
use crate::run::stretch;
use crate::{Model, Refusal, Run};

/// A run that was cut, as bytes: what [`begin`] or [`Saved::resume`] left, or what was read from a file.
///
/// A run may be cut after any period, any number of times. Its stretches give what [`filter`](crate::filter) gives over all periods at once, bit for
/// bit: every period's views and, from the last stretch, the answer.
///
/// ```
/// use goxundar::{begin, filter, Design, Model, Refusal, Saved, Transition};
/// let level = Model {
///     design: Design::Constant(vec![1.0]),
///     h: vec![1.0],
///     transition: Transition::Constant(vec![1.0]),
///     rr: vec![1.0],
///     q: vec![2.0],
///     diffuse: vec![true],
///     ..Model::zeros(1, 1, 1)
/// };
///
/// // Two periods; then power goes, and the bytes go to a file.
/// let (before, saved) = begin(&level, 2, &[2.0, f64::NAN])?;
/// let file: Vec<u8> = saved.into_bytes();
///
/// // Power is back: the third period, and the end of the run.
/// let saved = Saved::from_bytes(file);
/// assert_eq!(saved.periods_done(), Some(2));
/// let after = saved.finish(&level, 1, &[6.0])?;
///
/// let uncut = filter(&level, 3, &[2.0, f64::NAN, 6.0])?;
/// assert_eq!(before.filtered(1), uncut.filtered(1));
/// assert_eq!(after.filtered(0), uncut.filtered(2));
/// assert_eq!((after.loglik(), after.heard(), after.news()), (uncut.loglik(), uncut.heard(), uncut.news()));
/// assert_eq!((after.cov_off(), after.mean_off()), (uncut.cov_off(), uncut.mean_off()));
///
/// // Bytes that are no saved run are refused, none at all too: an emptied file does not begin a run anew.
/// assert_eq!(Saved::from_bytes(Vec::new()).finish(&level, 1, &[6.0]).unwrap_err(), Refusal::BadSaved);
/// # Ok::<(), Refusal>(())
/// ```
///
/// The bytes hold the run, and of the model its sizes p, m and r alone. Hand every stretch the same model; nothing can tell if you do. The start is
/// checked each time, and used by [`begin`]. A list, of designs or of transitions, is handed over whole: it counts from the run's first period, and
/// whether the last design is [repeated](crate::Design::Repeated) is not in the bytes. docs/SAVED.md has the bytes one by one, and how to keep them
/// safe.
#[derive(Debug, Clone, PartialEq, Eq)]
pub struct Saved {
    bytes: Vec<u8>,
}

impl Saved {
    /// Takes bytes as they are. Nothing is checked here: what is no saved run, or not one of this model's sizes, the next stretch refuses, with
    /// [`Refusal::BadSaved`].
    pub fn from_bytes(bytes: Vec<u8>) -> Saved {
        Saved { bytes }
    }

    /// The bytes, to write to a file.
    pub fn as_bytes(&self) -> &[u8] {
        &self.bytes
    }

    /// The bytes, handed over.
    pub fn into_bytes(self) -> Vec<u8> {
        self.bytes
    }

    /// How many periods are done, as the bytes say: so the next stretch's first reading is that of this period, from 0. None where there are too few
    /// bytes to say, or where they say more than a run can have. The rest of them is not looked at.
    pub fn periods_done(&self) -> Option<usize> {
        let number = self.bytes.get(28..36)?.try_into().ok()?;
        let done = usize::try_from(u64::from_be_bytes(number)).ok()?;
        (done <= crate::lent::MAX_PERIODS).then_some(done)
    }

    /// Runs the next n periods, 0 to 4096, and saves the run again. `readings` has the n·p places of these periods alone.
    ///
    /// What it was saved as before stays good: where this is refused, or power goes meanwhile, go on from that.
    pub fn resume(&self, model: &Model, n: usize, readings: &[f64]) -> Result<(Run, Saved), Refusal> {
        let (run, bytes) = stretch(model, Origin::Saved(&self.bytes), n, readings, false)?;
        Ok((run, Saved { bytes }))
    }

    /// Runs the last n periods, 0 to 4096, and ends the run. Here it is told if no reading of the whole run was news: [`Refusal::NoInformation`].
    pub fn finish(&self, model: &Model, n: usize, readings: &[f64]) -> Result<Run, Refusal> {
        let (run, _) = stretch(model, Origin::Saved(&self.bytes), n, readings, true)?;
        Ok(run)
    }
}

/// Begins a run that will go on: runs the filter over its first n periods, 0 to 4096, and saves it. `readings` has n·p places, as in
/// [`filter`](crate::filter). A run that ends here is a [`filter`](crate::filter)'s call.
pub fn begin(model: &Model, n: usize, readings: &[f64]) -> Result<(Run, Saved), Refusal> {
    let (run, bytes) = stretch(model, Origin::Start, n, readings, false)?;
    Ok((run, Saved { bytes }))
}
