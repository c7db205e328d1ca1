//! Counting of the branches a run takes, and keeping of what stands between
//! its periods. With the feature `probe` off, every call here is nothing, and
//! its closure is never run.

/// A branch inside a run.
#[derive(Debug, Clone, Copy, PartialEq, Eq)]
#[repr(usize)]
pub enum Branch {
    /// A reading is NaN.
    Gap,
    /// An element is accepted as diffuse.
    Diffuse,
    /// F∞ passes against its scale and the root's F refuses it.
    DiffuseRefused,
    /// An element is accepted as usual.
    Usual,
    /// F* is not above its scale's share: skipped for that.
    Scale,
    /// Dust test before any update of the period: clear.
    ClearFirst,
    /// Dust test: clear by the bound.
    ClearBound,
    /// Dust test: clear by the reference.
    ClearReference,
    /// Dust test: below.
    Below,
    /// Dust test: suspect in a diffuse period, accepted.
    SuspectDiffuse,
    /// Dust test: suspect, accepted by replay.
    SuspectAccepted,
    /// Dust test: suspect, refused by replay.
    SuspectRefused,
    /// A star root is built.
    RootBuilt,
    /// A star root built earlier in the period is used again.
    RootAgain,
    /// A star root's rank is below its support, and not 0.
    RankShort,
    /// A star root's rank is 0 on a support that is not empty.
    RankZero,
    /// Two unused diagonal entries share the largest value.
    PivotTie,
    /// A star root's downdate returns early.
    DowndateEarly,
    /// F is exactly at one of its tolerances, which is not 0.
    AtTolerance,
    /// The bound is NaN where the test without its zeros is not.
    BoundNan,
    /// Skipped for its scale, which is not finite.
    ScaleOff,
    /// Skipped for its scale, and below the dust line too.
    ScaleAndDust,
}

/// Count of branches.
pub const BRANCHES: usize = 22;

#[cfg(feature = "probe")]
mod counting {
    use super::{Branch, BRANCHES};
    use crate::between::Between;
    use std::cell::RefCell;

    thread_local! {
        static HITS: RefCell<[u64; BRANCHES]> = const { RefCell::new([0; BRANCHES]) };
        static KEPT: RefCell<Option<Vec<Between>>> = const { RefCell::new(None) };
    }

    /// Keeps what stands before a period, if it was asked for.
    pub fn between(what: impl FnOnce() -> Between) {
        KEPT.with(|k| {
            if let Some(list) = k.borrow_mut().as_mut() {
                list.push(what());
            }
        });
    }

    /// What stood before each period of the runs that `f` makes on this
    /// thread, and its result.
    pub fn keeping<R>(f: impl FnOnce() -> R) -> (Vec<Between>, R) {
        KEPT.with(|k| *k.borrow_mut() = Some(Vec::new()));
        let result = f();
        (KEPT.with(|k| k.take()).unwrap_or_default(), result)
    }

    /// Counts one.
    pub fn hit(b: Branch) {
        HITS.with(|h| h.borrow_mut()[b as usize] += 1);
    }

    /// Counts one if the test holds.
    pub fn hit_if(b: Branch, test: impl FnOnce() -> bool) {
        if test() {
            hit(b);
        }
    }

    /// The counts of this thread since the last call, which starts them anew.
    pub fn take() -> [u64; BRANCHES] {
        HITS.with(|h| std::mem::replace(&mut *h.borrow_mut(), [0; BRANCHES]))
    }
}

#[cfg(not(feature = "probe"))]
mod counting {
    use super::{Branch, BRANCHES};
    use crate::between::Between;

    #[inline(always)]
    pub fn hit(_: Branch) {}

    #[inline(always)]
    pub fn hit_if(_: Branch, _: impl FnOnce() -> bool) {}

    pub fn take() -> [u64; BRANCHES] {
        [0; BRANCHES]
    }

    #[inline(always)]
    pub fn between(_: impl FnOnce() -> Between) {}

    pub fn keeping<R>(f: impl FnOnce() -> R) -> (Vec<Between>, R) {
        (Vec::new(), f())
    }
}

pub use counting::{between, hit, hit_if, keeping, take};

/// Counts one of two, and hands the verdict on.
#[inline(always)]
pub fn replayed(accepted: bool) -> bool {
    hit(if accepted {
        Branch::SuspectAccepted
    } else {
        Branch::SuspectRefused
    });
    accepted
}
