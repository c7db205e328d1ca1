//! The oracle: the Rust filter and smoother behind document 01's whole call,
//! and the tools that make and check cases with it.
//!
//! A test harness calls [`filter_call`], [`smooth_call`] and [`stretch_call`]
//! on lent parts, or [`case::run`] on a [`case::Case`].

pub mod case;
pub mod demand3;
pub mod figures;
pub mod file;
pub mod gen;
pub mod kinds;
pub mod list;
pub mod makers;
pub mod marks;
pub mod offs;
pub mod pointed;
pub mod refuse;
pub mod replay;
pub mod rng;
pub mod small;
pub mod stretches;
pub mod time;
pub mod uncut;

pub use parts::{decode, encode, needed, saved_len, section_counts, Carried};
pub use parts::{GAP, KINDS, KIND_NAMES, TOO_SMALL};
pub use parts::{Answer, Inputs, Outcome, Outputs, Smoothed, Stretch};
pub use tsecon_ssm::{filter_call, smooth_call, stretch_call};
