//! The library's calls, by the C calling convention, as the Rust crate (bindings/rust) declares them.

use crate::lent::Args;
use goxundar::raw::{goxundar_filter, goxundar_smooth, goxundar_stretch};

/// Which of the calls.
#[derive(Debug, Clone, Copy, PartialEq, Eq)]
pub enum Call {
    Filter,
    Smooth,
    Stretch,
}

/// The two that make a whole run.
pub const CALLS: [Call; 2] = [Call::Filter, Call::Smooth];

impl Call {
    pub fn name(self) -> &'static str {
        match self {
            Call::Filter => "filter",
            Call::Smooth => "smoother",
            Call::Stretch => "stretch",
        }
    }

    /// How many output parts it is lent.
    pub fn outputs(self) -> usize {
        match self {
            Call::Filter | Call::Stretch => 11,
            Call::Smooth => 13,
        }
    }
}

/// The call with these arguments: 0, or the refusal's number. Only the smoother's sees the two smoothed parts, only a stretch's the saved bytes.
///
/// # Safety
/// Every pointer leads to memory of its length, or the call refuses before it reads or writes there.
#[inline(always)]
pub unsafe fn call(which: Call, a: &Args) -> u32 {
    // Apart, so that the stack that is measured for the whole runs is still theirs: no room for a stretch's parameters.
    match which {
        Call::Filter | Call::Smooth => whole(which, a),
        Call::Stretch => stretch(a),
    }
}

#[rustfmt::skip]
#[inline(never)]
unsafe fn whole(which: Call, a: &Args) -> u32 {
    let [p, m, r, n] = a.sizes;
    let [z, zs, h, t, ts, rr, q, c, d, a1, ps, fl, y] = a.inputs;
    let [pm, pc, pi, fm, fc, k, v, fs, fi, ms, mi, sm, sc] = a.outputs;
    let [loglik, d_diffuse, heard, news, cov_off, mean_off] = a.answer;
    match which {
        Call::Filter => goxundar_filter(
            p, m, r, n,
            z.0.cast(), z.1, zs.0.cast(), zs.1, a.repeats, h.0.cast(), h.1, t.0.cast(), t.1, ts.0.cast(), ts.1,
            rr.0.cast(), rr.1, q.0.cast(), q.1, c.0.cast(), c.1, d.0.cast(), d.1,
            a1.0.cast(), a1.1, ps.0.cast(), ps.1, fl.0.cast(), fl.1, y.0.cast(), y.1,
            pm.0.cast(), pm.1, pc.0.cast(), pc.1, pi.0.cast(), pi.1, fm.0.cast(), fm.1, fc.0.cast(), fc.1,
            k.0.cast(), k.1, v.0.cast(), v.1, fs.0.cast(), fs.1, fi.0.cast(), fi.1, ms.0.cast(), ms.1, mi.0.cast(), mi.1,
            loglik.cast(), d_diffuse.cast(), heard.cast(), news.cast(), cov_off.cast(), mean_off.cast(),
        ),
        _ => goxundar_smooth(
            p, m, r, n,
            z.0.cast(), z.1, zs.0.cast(), zs.1, a.repeats, h.0.cast(), h.1, t.0.cast(), t.1, ts.0.cast(), ts.1,
            rr.0.cast(), rr.1, q.0.cast(), q.1, c.0.cast(), c.1, d.0.cast(), d.1,
            a1.0.cast(), a1.1, ps.0.cast(), ps.1, fl.0.cast(), fl.1, y.0.cast(), y.1,
            pm.0.cast(), pm.1, pc.0.cast(), pc.1, pi.0.cast(), pi.1, fm.0.cast(), fm.1, fc.0.cast(), fc.1,
            k.0.cast(), k.1, v.0.cast(), v.1, fs.0.cast(), fs.1, fi.0.cast(), fi.1, ms.0.cast(), ms.1, mi.0.cast(), mi.1,
            sm.0.cast(), sm.1, sc.0.cast(), sc.1,
            loglik.cast(), d_diffuse.cast(), heard.cast(), news.cast(), cov_off.cast(), mean_off.cast(),
        ),
    }
}

#[rustfmt::skip]
#[inline(never)]
unsafe fn stretch(a: &Args) -> u32 {
    let [p, m, r, n] = a.sizes;
    let [z, zs, h, t, ts, rr, q, c, d, a1, ps, fl, y] = a.inputs;
    let [pm, pc, pi, fm, fc, k, v, fs, fi, ms, mi, ..] = a.outputs;
    let [loglik, d_diffuse, heard, news, cov_off, mean_off] = a.answer;
    goxundar_stretch(
        p, m, r, n,
        z.0.cast(), z.1, zs.0.cast(), zs.1, a.repeats, h.0.cast(), h.1, t.0.cast(), t.1, ts.0.cast(), ts.1,
        rr.0.cast(), rr.1, q.0.cast(), q.1, c.0.cast(), c.1, d.0.cast(), d.1,
        a1.0.cast(), a1.1, ps.0.cast(), ps.1, fl.0.cast(), fl.1, y.0.cast(), y.1,
        a.begins, a.saved.0, a.saved.1, a.last,
        pm.0.cast(), pm.1, pc.0.cast(), pc.1, pi.0.cast(), pi.1, fm.0.cast(), fm.1, fc.0.cast(), fc.1,
        k.0.cast(), k.1, v.0.cast(), v.1, fs.0.cast(), fs.1, fi.0.cast(), fi.1, ms.0.cast(), ms.1, mi.0.cast(), mi.1,
        a.save.0, a.save.1,
        loglik.cast(), d_diffuse.cast(), heard.cast(), news.cast(), cov_off.cast(), mean_off.cast(),
    )
}
