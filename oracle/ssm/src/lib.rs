//! The Rust filter and smoother (`filter`, `smoother`, `model`, `dense`, as
//! nearly unchanged as can be), and the whole call of document 01 around
//! them (`call`).
//!
//! This source is compiled twice: as `tsecon_ssm`, where a probe is nothing,
//! and as `tsecon_ssm_probed`, where a probe counts.

mod dense;

pub mod between;
pub mod call;
pub mod error;
pub mod filter;
pub mod model;
pub mod probe;
pub mod smoother;

pub use call::{filter_call, smooth_call, stretch_call};
