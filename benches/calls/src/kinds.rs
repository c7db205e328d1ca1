//! The records of the library's calls, held to what must be so of every call (oracle::kinds): the six counts add up to n·p, a gap stands exactly where
//! the reading is NaN, heard and news are counts of the kinds, and the numbers of a skipped record are +0.0; where a call is refused 12, all records
//! are gaps. By what the call wrote and its readings: the oracle's call is not asked.

use std::sync::atomic::{AtomicU64, Ordering::Relaxed};

use oracle::kinds::{alike, broken as rule_broken, is_skip, not_blank, Records};
use oracle::makers::{Maker, Room};
use oracle::rng::Rng;
use oracle::{needed, pointed, saved_len};

use crate::altered::{number, TALLIES};
use crate::cuts::{self, Run};
use crate::lent::{Ask, Lent, F_INF, F_STAR, HEARD, KINDS, M_INF, M_STAR, NEWS, SAVED, V, Y};
use crate::library::Call;

/// Calls of the library whose records were held: answered ones, and those that are refused 12.
static HELD: [AtomicU64; 2] = [const { AtomicU64::new(0) }; 2];

pub fn held() -> [u64; 2] {
    HELD.each_ref().map(|count| count.load(Relaxed))
}

/// How many the run had heard before the call, and how many were news: what a stretch that goes on was given.
fn before(lent: &Lent, which: Call) -> [u64; 2] {
    let [_, m, ..] = lent.sizes();
    match which {
        Call::Stretch if lent.begins() == 0 => [1, 2].map(|place| {
            let bytes: Vec<u8> = number(m, TALLIES, place).map(|k| lent.word(SAVED, k) as u8).collect();
            u64::from_be_bytes(bytes.try_into().expect("eight bytes"))
        }),
        _ => [0, 0],
    }
}

/// The first rule that the records break, of a call that ended so.
fn rule(lent: &Lent, which: Call, refusal: u32) -> Option<String> {
    let [p, m, _, n] = lent.sizes();
    let sized = [p, m].iter().all(|size| (1..=8).contains(size)) && n <= 4096;
    if !sized || !lent.holds(&needed(p, m, n)[..11]) {
        return Some("a call wrote whose sizes or outputs do not fit".into());
    }
    let kinds = lent.some(KINDS, n * p);
    if refusal == 12 {
        return not_blank(&kinds);
    }
    let numbers = [(V, 1), (F_STAR, 1), (F_INF, 1), (M_STAR, m), (M_INF, m)].map(|(part, width)| lent.some(part, n * p * width));
    let y: Vec<f64> = lent.some(Y, n * p).into_iter().map(f64::from_bits).collect();
    let [heard, news] = before(lent, which);
    let own = |part: usize, before: u64| lent.word(part, 0).wrapping_sub(before);
    let records = Records { kinds: &kinds, numbers: numbers.each_ref().map(|part| &part[..]) };
    rule_broken(&records, &y, own(HEARD, heard), own(NEWS, news))
}

/// The same of a call of the library, which is counted. Of one that writes no records there is nothing to hold.
pub fn broken(lent: &Lent, which: Call, refusal: u32) -> Option<String> {
    let place = match refusal {
        0 => 0,
        12 => 1,
        _ => return None,
    };
    HELD[place].fetch_add(1, Relaxed);
    rule(lent, which, refusal)
}

/// What is wrong with the rules themselves: whether records that the oracle made do not pass, or a fault that is planted in them is not found.
pub fn faulty() -> Option<String> {
    let mut rng = Rng::new(1);
    let mut maker = Maker { rng: &mut rng, room: Room::Usual };
    // A record of every kind; in its second period all but a diffuse one.
    let case = maker.pointed(pointed::CAUSES + 6);
    let (p, m) = (case.p, case.m);
    let run = Run::of(&case).expect("it runs");
    let bytes = run.bytes(1);
    let ask = Ask { begins: 0, saved: &bytes, last: 0, room: saved_len(m) };
    let whole = Lent::of(&case, 1);
    let rest = Lent::new(&cuts::periods(&case, 1, 2), &needed(p, m, 1), &ask, 2);
    for (which, mut lent) in [(Call::Filter, whole.clone()), (Call::Smooth, whole), (Call::Stretch, rest)] {
        let [.., n] = lent.sizes();
        if lent.oracle(which) != 0 || rule(&lent, which, 0).is_some() {
            return Some(format!("{}: sound records do not pass", which.name()));
        }
        let with = |part: usize, place: usize, word: u64| {
            let mut faulty = lent.clone();
            faulty.put(part, place, &[word]);
            faulty
        };
        let mut faults = vec![with(HEARD, 0, lent.word(HEARD, 0) + 1), with(NEWS, 0, lent.word(NEWS, 0) - 1)];
        for k in 0..n * p {
            let kind = lent.word(KINDS, k);
            let others = (0..256).filter(|&other| other != kind && !alike(kind, other));
            faults.extend(others.map(|other| with(KINDS, k, other)));
            if is_skip(kind) {
                faults.extend([V, F_STAR, F_INF].map(|part| with(part, k, 1 << 63)));
                faults.extend([M_STAR, M_INF].map(|part| with(part, (k + 1) * m - 1, 1)));
            }
        }
        let unseen = faults.iter().filter(|faulty| rule(faulty, which, 0).is_none()).count();
        // What is blanked may tell no cause.
        let blank = (1..256).filter(|&kind| rule(&with(KINDS, n * p - 1, kind), which, 12).is_none()).count();
        if unseen + blank > 0 {
            return Some(format!("{}: of {} faults {} are not found", which.name(), faults.len() + 255, unseen + blank));
        }
    }
    None
}
