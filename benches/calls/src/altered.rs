//! Stretches from saved bytes that were altered, and stretches that are refused. Each must end with refusal 15 and touch nothing, or do exactly what
//! the oracle does from the state that its own decoder reads. Where document 02 alone tells whether 15 is due, the oracle is held to that too.

use oracle::case::Case;
use oracle::rng::Rng;
use oracle::{encode, saved_len, section_counts, Carried, Inputs};

use crate::cuts::{periods, reach_held, room, Run};
use crate::kinds;
use crate::lent::{Ask, Lent, SAVE};
use crate::library::Call;
use crate::tally::Tally;
use crate::wild::first_ones;

/// After one run in so many, every bit of its bytes is flipped: of runs of up to three states, and of larger ones.
const BITS_EVERY: [u64; 2] = [61, 1511];
/// So many alterations of each run's bytes.
const ALTERATIONS: usize = 6;
/// The sections, in order.
pub const SIZES: usize = 0;
pub const MEAN: usize = 1;
const P_INF: usize = 3;
const ROOT: usize = 4;
pub const LIKELIHOOD: usize = 6;
pub const TALLIES: usize = 7;
/// Places among the tallies: the diffuse state, and the two reports.
pub const STATE: usize = 3;
const REPORTS: [usize; 2] = [4, MEAN_REPORT];
pub const MEAN_REPORT: usize = 5;
/// Numbers outside every range. Some are 0 or small in 32 bits, or with a small number added in 64.
const HUGE: [u64; 7] = [u64::MAX, u64::MAX - 1, u64::MAX - 4095, 1 << 63, 1 << 61, 1 << 32, (1 << 32) + 1];

/// Where a section starts, its count first.
fn section(m: usize, k: usize) -> usize {
    section_counts(m)[..k].iter().map(|count| 4 + 8 * count).sum()
}

/// A number in the bytes, by its section and its place there.
pub fn number(m: usize, k: usize, place: usize) -> std::ops::Range<usize> {
    let at = section(m, k) + 4 + 8 * place;
    at..at + 8
}

/// What was done to the bytes, and whether they must be refused: none where it takes a decoder to tell.
pub struct Altered {
    pub what: String,
    pub bytes: Vec<u8>,
    pub refused: Option<bool>,
}

/// One stretch, of the library and of the oracle, on the same parts. How it must end, which is counted, and the first difference.
fn against_oracle(i: &Inputs<'_>, lent: &[usize; 13], ask: &Ask<'_>, fill: u64, tally: &mut Tally) -> (u32, Option<String>) {
    let mut found = Lent::new(i, lent, ask, fill);
    let mut wanted = found.clone();
    let want = wanted.oracle(Call::Stretch);
    let first = first_ones(Call::Stretch, &found.args());
    tally.stretch_ended[want as usize] += 1;
    tally.stretch_t_short += u64::from(want == 2 && first.is_none());
    if let Some(what) = reach_held(want, first, i, ask) {
        return (want, Some(what));
    }
    let outcome = found.library(Call::Stretch);
    if outcome != want {
        return (want, Some(format!("outcome {outcome}, wanted {want} (0: answered, else the refusal)")));
    }
    let mut difference = found.difference(&wanted, Call::Stretch, want, &[]).or_else(|| kinds::broken(&found, Call::Stretch, outcome));
    // What is loaded and saved again is as it was. For that nobody is asked.
    if difference.is_none() && want == 0 && i.n == 0 && ask.begins == 0 && ask.last == 0 && found.bytes_mut(SAVE)[..ask.saved.len()] != *ask.saved {
        difference = Some("an empty stretch saves other bytes than it was given".into());
    }
    (want, difference)
}

/// The verdict that document 02 gives, against the oracle's.
fn held(want: u32, refused: Option<bool>) -> Option<String> {
    match refused {
        Some(yes) if yes != (want == 15) => {
            Some(format!("THE ORACLE gives {want}, and document 02 says that 15 is {}due", if yes { "" } else { "not " }))
        }
        _ => None,
    }
}

/// The refusal that the documents give, against the oracle's.
fn not_due(want: u32, due: u32) -> Option<String> {
    (want != due).then(|| format!("THE ORACLE gives {want} to a stretch, and {due} is due"))
}

/// A float that a run can hold: any bits, but of the NaNs only the one.
pub fn float(rng: &mut Rng) -> f64 {
    let x = match rng.below(8) {
        0 => rng.pick(&[0.0, -0.0, f64::INFINITY, f64::NEG_INFINITY, f64::NAN, 5e-324, f64::MAX]),
        1 | 2 => rng.finite(),
        3 => rng.power(-60, 60),
        _ => rng.plain(),
    };
    if x.is_nan() {
        f64::from_bits(0x7FF8_0000_0000_0000)
    } else {
        x
    }
}

/// A NaN with other bits than a saved run's: often the one that x86-64 makes, with the other sign, or one that is close to the saved one.
fn other_nan(rng: &mut Rng) -> f64 {
    loop {
        let x = match rng.below(4) {
            0 => f64::from_bits(0xFFF8_0000_0000_0000),
            1 => f64::from_bits(rng.pick(&[0x7FF8_0000_0000_0001, 0x7FFC_0000_0000_0000, 0x7FF0_0000_0000_0001, 0x7FFF_FFFF_FFFF_FFFF])),
            _ => rng.gap(),
        };
        if x.to_bits() != 0x7FF8_0000_0000_0000 {
            return x;
        }
    }
}

/// A report that a run of so many periods can hold: often none.
pub fn report(rng: &mut Rng, done: usize) -> usize {
    match rng.below(4) {
        0 => rng.within(0, done),
        1 => done,
        _ => 0,
    }
}

/// The bytes of a run that nobody made: numbers of all kinds, mostly mirrored, and tallies in their ranges, for a stretch of n periods. Now and then few
/// periods are done, so that a list may reach.
pub fn made_up(rng: &mut Rng, p: usize, m: usize, r: usize, n: usize) -> Vec<u8> {
    let done = rng.pick(&[rng.clone().within(0, 4096 - n), rng.clone().within(0, 2.min(4096 - n))]);
    let heard = rng.within(0, done * p);
    let plain = rng.chance(1, 2);
    let mut floats = |len: usize| -> Vec<f64> { (0..len).map(|_| if plain { rng.plain() } else { float(rng) }).collect() };
    let (mean, star, p_inf, root, unresolved) = (floats(m), floats(m * m), floats(m * m), floats(m * m), floats(m * m));
    let loglik = floats(1)[0];
    let mut state = Carried {
        done,
        mean,
        star,
        p_inf,
        root,
        unresolved,
        loglik,
        d_diffuse: rng.within(0, done),
        heard,
        news: rng.within(0, heard),
        live: rng.chance(2, 3),
        cov_off: report(rng, done),
        mean_off: report(rng, done),
    };
    if rng.chance(3, 4) {
        for x in [&mut state.star, &mut state.p_inf, &mut state.unresolved] {
            for k in 0..m * m {
                let (a, b) = (k / m, k % m);
                x[k] = if a == b { x[k].abs() } else { x[a.min(b) * m + a.max(b)] };
            }
        }
    }
    if rng.chance(1, 4) {
        state.news = 0;
    }
    encode(p, m, r, &state)
}

/// The bytes of a run after k periods, altered in one way, for a stretch of n periods.
fn alter(rng: &mut Rng, run: &Run<'_>, k: usize, n: usize) -> Altered {
    let Case { p, m, r, .. } = *run.case;
    let mut bytes = run.bytes(k);
    let state = &run.states[k];
    let [done, heard, news] = [state.done as u64, state.heard as u64, state.news as u64];
    let len = bytes.len();
    let with = |mut bytes: Vec<u8>, what: &str, section: usize, place: usize, to: u64, refused: Option<bool>| {
        bytes[number(m, section, place)].copy_from_slice(&to.to_be_bytes());
        Altered { what: format!("{what} {to}"), bytes, refused }
    };
    let told = |what: &str, bytes: Vec<u8>, refused: Option<bool>| Altered { what: what.into(), bytes, refused };
    match rng.below(26) {
        0 => {
            let bit = rng.below(len * 8);
            bytes[bit / 8] ^= 1 << (bit % 8);
            told(&format!("bit {bit} flipped"), bytes, None)
        }
        1 => {
            for _ in 0..rng.within(2, 8) {
                bytes[rng.below(len)] = rng.word() as u8;
            }
            told("some bytes anew", bytes, None)
        }
        2 => {
            bytes.truncate(match rng.below(4) {
                0 => len - 1,
                1 => len - 8,
                2 => section(m, rng.below(8)),
                _ => rng.below(len),
            });
            told(&format!("cut to {} bytes", bytes.len()), bytes, Some(true))
        }
        3 => {
            let more = rng.pick(&[1, 4, 8, 12, 100]);
            bytes.extend((0..more).map(|_| rng.word() as u8));
            told(&format!("{more} bytes more"), bytes, Some(true))
        }
        4 => {
            let (a, b) = (rng.below(8), rng.below(8));
            let (a, b) = (a.min(b), a.max(b));
            let counts = section_counts(m);
            let of = |k: usize| &bytes[section(m, k)..section(m, k) + 4 + 8 * counts[k]];
            let mut order: Vec<usize> = (0..8).collect();
            order.swap(a, b);
            let swapped: Vec<u8> = order.iter().flat_map(|&k| of(k)).copied().collect();
            told(&format!("sections {a} and {b} exchanged"), swapped, if counts[a] != counts[b] { Some(true) } else { None })
        }
        5 => {
            let which = rng.below(8);
            let count = section_counts(m)[which] as u32;
            let other = rng.pick(&[count + 1, count - 1, 0, count << 8, count << 24, count + (1 << 16), u32::MAX, rng.clone().word() as u32]);
            let at = section(m, which);
            bytes[at..at + 4].copy_from_slice(&other.to_be_bytes());
            told(&format!("count {other} for section {which}"), bytes, Some(other != count))
        }
        6 => {
            let place = rng.below(3);
            let own = [p, m, r][place] as u64;
            let other = rng.pick(&[own + 1, own - 1, own + 256, own + (1 << 32), own << 56, 0, 9]);
            with(bytes, "a size of", SIZES, place, other, Some(other != own))
        }
        7 => with(bytes, "done as far as it goes,", SIZES, 3, (4096 - n) as u64, Some(false)),
        8 => with(bytes, "done one too far,", SIZES, 3, (4097 - n) as u64, Some(true)),
        9 => {
            let other = rng.pick(&HUGE).wrapping_sub(rng.below(3) as u64);
            with(bytes, "done", SIZES, 3, other, Some(true))
        }
        10 => with(bytes, "diffuse periods at their bound,", TALLIES, 0, done, Some(false)),
        11 => with(bytes, "diffuse periods past their bound,", TALLIES, 0, rng.pick(&[done + 1, done + 256, rng.clone().pick(&HUGE)]), Some(true)),
        12 => with(bytes, "heard at its bound,", TALLIES, 1, done * p as u64, Some(false)),
        13 => with(bytes, "heard past its bound,", TALLIES, 1, rng.pick(&[done * p as u64 + 1, rng.clone().pick(&HUGE)]), Some(true)),
        14 => with(bytes, "news at its bound,", TALLIES, 2, heard, Some(false)),
        15 => with(bytes, "news past its bound,", TALLIES, 2, rng.pick(&[heard + 1, rng.clone().pick(&HUGE)]), Some(true)),
        16 if news > 0 => with(bytes, "heard below news,", TALLIES, 1, rng.pick(&[news - 1, 0]), Some(true)),
        16 | 17 => {
            let to = rng.pick(&[0, 1, 2, 3, 255, 256, rng.clone().pick(&HUGE)]);
            with(bytes, "state", TALLIES, STATE, to, Some(to > 1))
        }
        18 | 19 => {
            let which = rng.within(MEAN, LIKELIHOOD);
            let place = rng.below(section_counts(m)[which]);
            let odd = rng.chance(1, 2);
            let x = if odd { other_nan(rng) } else { float(rng) };
            bytes[number(m, which, place)].copy_from_slice(&x.to_bits().to_be_bytes());
            told(&format!("{:016x} in section {which}, place {place}", x.to_bits()), bytes, Some(odd))
        }
        20 => {
            // What no run leaves: numbers in the spare columns of the root, P∞ beside a diffuse state that has ended, no news.
            for place in 0..m * m {
                for which in rng.pick(&[&[P_INF][..], &[ROOT], &[P_INF, ROOT], &[]]).iter().copied() {
                    bytes[number(m, which, place)].copy_from_slice(&float(rng).to_bits().to_be_bytes());
                }
            }
            if rng.chance(1, 2) {
                bytes[number(m, TALLIES, 2)].fill(0);
            }
            let live = rng.below(2) as u64;
            with(bytes, "another P∞ or root, state", TALLIES, STATE, live, Some(false))
        }
        21 => with(bytes, "a report at its bound,", TALLIES, rng.pick(&REPORTS), done, Some(false)),
        22 => {
            let to = rng.pick(&[done + 1, done + 256, rng.clone().pick(&HUGE)]);
            with(bytes, "a report past its bound,", TALLIES, rng.pick(&REPORTS), to, Some(true))
        }
        23 => with(bytes, "a report of", TALLIES, rng.pick(&REPORTS), rng.within(0, k) as u64, Some(false)),
        24 => {
            // Fewer periods done than a report tells of; the tallies before it are 0, so that it alone can be out of its range.
            let told = state.cov_off.max(state.mean_off) as u64;
            for place in [0, 1, 2] {
                bytes[number(m, TALLIES, place)].fill(0);
            }
            let less = told.saturating_sub(1 + rng.below(2) as u64);
            with(bytes, "done below what a report tells of,", SIZES, 3, less, Some(less < told))
        }
        _ if rng.chance(1, 8) => {
            // Least significant byte first.
            for (which, count) in section_counts(m).into_iter().enumerate() {
                (0..count).for_each(|place| bytes[number(m, which, place)].reverse());
            }
            told("every number the other way round", bytes, Some(true))
        }
        _ => told("a run that nobody made", made_up(rng, p, m, r, n), Some(false)),
    }
}

/// Some periods of a case, by where they start and end.
pub fn some_periods(rng: &mut Rng, n: usize) -> (usize, usize) {
    let from = rng.within(0, n);
    let most = n - from;
    (from, from + rng.pick(&[0, most.min(1), most.min(2), most]))
}

/// So many periods done before a stretch of `len`, where a list of T is given mostly so few that it reaches.
pub fn done_before(rng: &mut Rng, case: &Case, len: usize) -> usize {
    let any = case.ts.is_empty() || rng.chance(1, 4);
    rng.within(0, if any { case.n } else { case.n - len })
}

/// Alterations of the bytes of one run, at any period, for stretches of any of its periods; and a run that begins with bytes, or goes on without.
pub fn try_run(rng: &mut Rng, run: &Run<'_>, name: &str, tally: &mut Tally) {
    let Case { p, m, n, .. } = *run.case;
    for _ in 0..ALTERATIONS {
        let (from, to) = some_periods(rng, n);
        let k = done_before(rng, run.case, to - from);
        let Altered { what, bytes, refused } = alter(rng, run, k, to - from);
        let last = rng.maybe_marker(1, 4);
        let ask = Ask { begins: 0, saved: &bytes, last, room: saved_len(m) + rng.below(9) };
        let lent = room(rng, p, m, to - from);
        let (want, difference) = against_oracle(&periods(run.case, from, to), &lent, &ask, rng.word(), tally);
        let place = format!("{name}, bytes after {k} periods, {what}, then periods {from} to {to}");
        tally.altered.count(&place, held(want, refused).or(difference));
    }
    // Refusal 15 by the markers, also where the run's end is refused 12; and a byte too little to save in, which comes before it.
    let (from, to) = some_periods(rng, n);
    let (whole, need) = (run.bytes(n), saved_len(m));
    let last = rng.maybe_marker(1, 2);
    let any = &whole[rng.below(2)..];
    let asks = [
        (15, Ask { begins: rng.marker(), saved: &whole, last, room: need }),
        (15, Ask { begins: rng.marker(), saved: &whole[..1], last, room: need }),
        (15, Ask { begins: 0, saved: &[], last, room: need }),
        (2, Ask { begins: 0, saved: any, last: 0, room: need - 1 }),
    ];
    for (due, ask) in asks {
        let (want, difference) = against_oracle(&periods(run.case, from, to), &room(rng, p, m, to - from), &ask, rng.word(), tally);
        let name = format!("{name}, begins {}, {} bytes given, room for {}", ask.begins, ask.saved.len(), ask.room);
        tally.altered.count(&name, not_due(want, due).or(difference));
    }
}

/// Every bit of one run's bytes flipped in turn, before a stretch of one period or none.
pub fn try_bits(rng: &mut Rng, run: &Run<'_>, k: u64, name: &str, tally: &mut Tally) {
    let Case { p, m, n, .. } = *run.case;
    if k % BITS_EVERY[usize::from(m > 3)] != 0 {
        return;
    }
    let from = rng.within(0, n - 1);
    let to = from + rng.below(2);
    let after = done_before(rng, run.case, to - from);
    let lent = room(rng, p, m, to - from);
    let last = rng.maybe_marker(1, 4);
    let mut bytes = run.bytes(after);
    for bit in 0..bytes.len() * 8 {
        bytes[bit / 8] ^= 1 << (bit % 8);
        let ask = Ask { begins: 0, saved: &bytes, last, room: saved_len(m) };
        let (_, difference) = against_oracle(&periods(run.case, from, to), &lent, &ask, rng.word(), tally);
        tally.each_bit.count(&format!("{name}, bytes after {after} periods, bit {bit} flipped, then periods {from} to {to}"), difference);
        bytes[bit / 8] ^= 1 << (bit % 8);
    }
}

/// A case that the filter's call refuses with `refusal`, once it is marked, as a stretch: begun, from bytes that are sound, and from bytes that are
/// not. Refusals 2 to 11 are the filter's, whatever the bytes and the marker.
pub fn try_refused(rng: &mut Rng, case: &Case, refusal: u32, name: &str, tally: &mut Tally) {
    let Case { p, m, r, n, .. } = *case;
    let sized = [p, m, r].iter().all(|x| (1..=8).contains(x)) && n <= 4096;
    let sound = if sized { made_up(rng, p, m, r, n) } else { vec![0; rng.below(300)] };
    let cut = &sound[..rng.below(sound.len().max(1))];
    let asks = [
        ("begun", rng.marker(), &[][..]),
        ("from sound bytes", 0, &sound),
        ("from bytes cut short", 0, cut),
        ("begun with bytes", rng.marker(), &sound),
    ];
    let need = if sized { saved_len(m) } else { 0 };
    for (what, begins, saved) in asks {
        let last = rng.maybe_marker(1, 2);
        let room = if rng.chance(1, 8) { need.saturating_sub(1) } else { need };
        let ask = Ask { begins, saved, last, room };
        let (want, difference) = against_oracle(&case.inputs(), &case.lent, &ask, rng.word(), tally);
        let due = match refusal {
            1 if sized => None,
            1 | 2 => Some(refusal),
            _ if last == 0 && room < need => Some(2),
            _ => Some(refusal),
        };
        let told = due.and_then(|due| not_due(want, due));
        tally.stretch_refused.count(&format!("{name}, refused {refusal}, {what}"), told.or(difference));
    }
}
