//! A proved Kalman filter and smoother with exact diffuse start, for readings that are sparse, missing or doubled.
//!
//! Some numbers can't be read directly, a crystal's offset and rate, say: the *states*. Now and then there are *readings* that depend on them, with
//! noise. [`filter`] goes through the periods in order, and estimates the states from the readings so far. [`smooth`] goes back too, and estimates
//! them from all readings. Each estimate is a mean with its covariance. A missing reading is a NaN.
//!
//! Every call ends with an answer or a [`Refusal`], whatever is passed. No caller checks first.
//!
//! ```
//! use goxundar::{smooth, Cause, Design, Model, Record, Transition};
//!
//! // A level that wanders with variance 2 a period, read on two inputs without noise. At the start nothing is known of it.
//! let level = Model {
//!     design: Design::Constant(vec![1.0, 1.0]),
//!     transition: Transition::Constant(vec![1.0]),
//!     rr: vec![1.0],
//!     q: vec![2.0],
//!     diffuse: vec![true],
//!     ..Model::zeros(2, 1, 1)
//! };
//! let gap = f64::NAN;
//! let s = smooth(&level, 3, &[gap, gap, 2.0, 2.0, gap, 5.0])?;
//! assert!(!s.run().settled_after(0));
//! assert!(s.run().settled_after(1));
//! // One check on both inputs: the second is no news, since it adds nothing. Before that there was no check at all.
//! assert_eq!(s.run().record(1, 1), Record::Skipped(Cause::TooSmall));
//! assert_eq!(s.run().record(0, 1), Record::Skipped(Cause::Gap));
//! assert_eq!((s.run().heard(), s.run().news()), (3, 2));
//! assert_eq!(s.smoothed(2).mean, [5.0]);
//! # Ok::<(), goxundar::Refusal>(())
//! ```
//!
//! The values of readings reach no covariance, variance or count, nor which readings are used; and neither do `a1`, `c` and `d`, of a call that is not
//! refused for them. So accuracy tables can be drawn up before there is any reading, and before it is known where the states will start:
//!
//! ```
//! use goxundar::{smooth, Design, Model, Transition};
//!
//! let (gap, to_come) = (f64::NAN, 0.0);
//! let plan = Model {
//!     design: Design::Constant(vec![1.0]),
//!     h: vec![1.0],
//!     transition: Transition::Constant(vec![1.0]),
//!     rr: vec![1.0],
//!     q: vec![0.5],
//!     p_star: vec![4.0],
//!     ..Model::zeros(1, 1, 1)
//! };
//! let table = smooth(&plan, 3, &[to_come, gap, to_come])?;
//! // Later: it started at 1200, and these were read.
//! let panel = Model { a1: vec![1200.0], ..plan };
//! let run = smooth(&panel, 3, &[1199.0, gap, 1203.0])?;
//! for t in 0..3 {
//!     assert_eq!(table.smoothed(t).cov, run.smoothed(t).cov);
//! }
//! # Ok::<(), goxundar::Refusal>(())
//! ```
//!
//! Overflow is not refused: it is carried on. [`Run::cov_off`] and [`Run::mean_off`] name the first period in which numbers ran off, as they do if a
//! model is mistyped.
//!
//! A run can be cut after any period, and carried over a power cycle as bytes: [`begin`], then [`Saved::resume`] and [`Saved::finish`].
//!
//! [`Model`], [`Run`], [`Smoothed`] and [`Saved`] own what they hold. [`lent`] has the same calls on slices, and allocates nothing; [`raw`] has the
//! library's functions as C has them.
//!
//! To link it, name the library when building: `GOXUNDAR_ARCHIVE`, a file or the folder of libgoxundar.a.

#![warn(missing_docs)]

pub mod lent;
#[allow(missing_docs)]
pub mod raw;

mod model;
mod refusal;
mod run;
mod saved;

pub use model::{Design, Model, Transition};
pub use refusal::Refusal;
pub use run::{filter, smooth, Cause, Moments, Predicted, Record, Run, Smoothed};
pub use saved::{begin, Saved};
