//! Small stretches as text: runs that are cut, some of them where numbers run
//! off, one with skips for each cause, each refusal of a stretch, saved bytes
//! altered in each way, lists that reach so far, of designs marked and
//! unmarked, and of T. See FORMAT.md.

use parts::{encode, needed, saved_len, section_counts, Carried, Inputs, Outcome, Stretch};

use crate::case::{one_nan, Buffers, Case, OUTPUT_NAMES, PATTERN_BYTE};
use crate::makers::{Maker, Room};
use crate::marks;
use crate::rng::{pow2, Rng};
use crate::small::{choose, handed, hex, outcome, plain, SHOWN};
use crate::uncut::{uncut, Uncut};

/// A call of a stretch, and what it must answer and leave.
pub struct Made {
    pub what: String,
    pub case: Case,
    pub begins: u8,
    pub saved: Vec<u8>,
    pub last: u8,
    /// Bytes lent to save in.
    pub room: usize,
    pub outcome: Outcome,
    pub written: Buffers,
    pub save: Vec<u8>,
}

/// The periods `from` up to `to` of a case, with outputs lent for them.
fn part(case: &Case, from: usize, to: usize) -> Case {
    let mut part = case.clone();
    part.n = to - from;
    part.y = case.y[from * case.p..to * case.p].to_vec();
    part.lend_needed();
    part
}

/// Makes the call.
fn make(what: &str, case: Case, begins: u8, saved: &[u8], last: u8, room: usize) -> Made {
    let mut written = Buffers::patterned(&case.lent);
    let mut save = vec![PATTERN_BYTE; room];
    let stretch = Stretch {
        begins,
        saved,
        last,
    };
    let i: Inputs<'_> = case.inputs();
    let outcome = tsecon_ssm::stretch_call(&i, &stretch, &mut written.lend().0, &mut save);
    Made {
        what: what.into(),
        begins,
        saved: saved.to_vec(),
        last,
        room,
        outcome,
        written,
        save,
        case,
    }
}

/// Where number `place` of a section starts.
fn at(m: usize, section: usize, place: usize) -> usize {
    let counts = section_counts(m);
    let before: usize = counts[..section].iter().map(|count| 4 + 8 * count).sum();
    before + 4 + 8 * place
}

/// A run cut at `cut`: begun, gone on with, ended.
fn cut_up(case: &Case, u: &Uncut, cut: usize, list: &mut Vec<Made>) {
    let (m, n) = (case.m, case.n);
    let need = saved_len(m);
    let bytes = encode(case.p, m, case.r, &u.states[cut]);
    let last = 1 + (cut as u8) * 100;
    let begun = make("begins", part(case, 0, cut), last, &[], 0, need + cut);
    assert_eq!(begun.save[..need], bytes);
    list.push(begun);
    list.push(make("goes on", part(case, cut, n), 0, &bytes, 0, need));
    list.push(make("ends", part(case, cut, n), 0, &bytes, last, cut));
}

/// The bytes of a run altered in each way, before one period or none.
fn altered(case: &Case, s: &Carried, list: &mut Vec<Made>) {
    let (p, m, r) = (case.p, case.m, case.r);
    let bytes = encode(p, m, r, s);
    let len = bytes.len();
    let (done, heard) = (s.done as u64, s.heard as u64);
    let one = 0x3FF0_0000_0000_0000;
    // What, section, place, number, periods, marked last.
    let numbers: &[(&str, usize, usize, u64, usize, u8)] = &[
        ("another p", 0, 0, p as u64 + 1, 0, 0),
        ("another m", 0, 1, m as u64 + 1, 0, 0),
        ("another r", 0, 2, r as u64 + 1, 0, 0),
        ("done + n = 4096", 0, 3, 4095, 1, 0),
        ("done + n = 4097", 0, 3, 4096, 1, 0),
        ("done = 4096, no period", 0, 3, 4096, 0, 0),
        ("done beyond 32 bits", 0, 3, done + (1 << 32), 0, 0),
        ("as many diffuse periods as done", 7, 0, done, 1, 0),
        ("more diffuse periods than done", 7, 0, done + 1, 1, 0),
        ("heard at its bound", 7, 1, done * p as u64, 1, 0),
        ("heard past its bound", 7, 1, done * p as u64 + 1, 1, 0),
        ("as much news as heard", 7, 2, heard, 1, 0),
        ("more news than heard", 7, 2, heard + 1, 1, 0),
        ("no news, not the last", 7, 2, 0, 0, 0),
        ("no news, the last", 7, 2, 0, 0, 1),
        ("state 0", 7, 3, 0, 1, 0),
        ("state 1", 7, 3, 1, 1, 0),
        ("state 2", 7, 3, 2, 1, 0),
        ("covariance report at its bound", 7, 4, done, 1, 0),
        ("covariance report past its bound", 7, 4, done + 1, 1, 0),
        ("covariance report, no period", 7, 4, done, 0, 0),
        ("covariance report beyond 32 bits", 7, 4, 1 << 32, 0, 0),
        ("mean report at its bound", 7, 5, done, 1, 0),
        ("mean report past its bound", 7, 5, done + 1, 1, 0),
        ("mean report, the last", 7, 5, done, 1, 1),
        ("another P∞", 3, 0, one, 1, 0),
        ("state 0, no period", 7, 3, 0, 0, 0),
        ("a NaN in the mean", 1, 0, 0x7FF8_0000_0000_0000, 1, 0),
        ("an infinite P*", 2, 0, 0x7FF0_0000_0000_0000, 1, 0),
        ("another root", 4, m * m - 1, one + 1, 1, 0),
        ("another unresolved matrix", 5, 0, one + 2, 1, 0),
        ("-0.0 as the likelihood", 6, 0, 1 << 63, 1, 0),
        ("another NaN in the mean", 1, 0, 0xFFF8_0000_0000_0000, 1, 0),
        ("another NaN in P*", 2, 0, 0x7FF0_0000_0000_0001, 1, 0),
        ("another NaN in P∞", 3, 0, 0x7FF8_0000_0000_0001, 1, 0),
        ("another NaN in the root", 4, 0, 0xFFF8_0000_0000_0000, 1, 0),
        ("another NaN, unresolved", 5, 0, 0x7FFF_FFFF_FFFF_FFFF, 1, 0),
        (
            "another NaN as likelihood",
            6,
            0,
            0xFFF0_0000_0000_0001,
            1,
            0,
        ),
    ];
    for &(what, section, place, number, n, last) in numbers {
        let mut bytes = bytes.clone();
        let from = at(m, section, place);
        bytes[from..from + 8].copy_from_slice(&number.to_be_bytes());
        list.push(make(what, part(case, 0, n), 0, &bytes, last, len));
    }
    for section in 0..8 {
        let mut bytes = bytes.clone();
        bytes[at(m, section, 0) - 1] += 1;
        list.push(make("another count", part(case, 0, 1), 0, &bytes, 0, len));
    }
    let longer = [&bytes[..], &[0]].concat();
    let none = || part(case, 0, 0);
    let short = &bytes[..len - 1];
    list.push(make("a byte less", none(), 0, short, 0, len));
    list.push(make("a byte more", none(), 0, &longer, 0, len));
    list.push(make("goes on from nothing", none(), 0, &[], 0, len));
    list.push(make("begins with bytes", none(), 1, &bytes, 0, len));
    list.push(make("no room to save in", none(), 0, short, 0, len - 1));
    list.push(make("no room needed", none(), 0, &bytes, 2, len - 1));
    list.push(make("begins and ends", part(case, 0, case.n), 7, &[], 9, 0));
    list.push(make("begins, no period", none(), 1, &[], 1, 0));
}

/// Two states, of which the second moves the first, one element, two
/// periods. Where both are flagged, the diffuse state lasts past the first.
fn by_hand(flags: [u8; 2]) -> Case {
    let mut case = Case {
        p: 1,
        m: 2,
        r: 1,
        n: 2,
        z: vec![1.0, 0.0],
        h: vec![1.0],
        t: vec![1.0, 0.5, 0.0, 1.0],
        rr: vec![0.0, 1.0],
        q: vec![2.0],
        c: vec![0.25, 0.0],
        d: vec![0.5],
        a1: vec![0.0; 2],
        p_star: vec![0.0, 0.0, 0.0, f64::from(1 - flags[1])],
        flags: flags.to_vec(),
        y: vec![2.0, 3.5],
        ..Case::default()
    };
    case.lend_needed();
    case
}

/// A size that is out of range; a number in the spare column of the root;
/// and a list of designs of which the first is not the one that goes on.
fn further(list: &mut Vec<Made>) {
    let mut none = by_hand([1, 1]);
    none.r = 0;
    list.push(make("no disturbance", none, 0, &[], 0, saved_len(2)));
    let mixed = by_hand([1, 0]);
    let u = uncut(&mixed.inputs()).expect("it runs");
    let mut state = u.states[1].clone();
    state.root[1] = 3.0;
    let bytes = encode(1, 2, 1, &state);
    let one = part(&mixed, 1, 2);
    list.push(make("spare column", one, 0, &bytes, 0, saved_len(2)));
    let listed = listed(2, 0);
    let u = uncut(&listed.inputs()).expect("it runs");
    cut_up(&listed, &u, 1, list);
}

/// Lists of designs (document 02, request d), as far as they reach: a list of
/// `designs` for the run's two periods, with this marker.
fn listed(designs: usize, repeats: u8) -> Case {
    let mut case = by_hand([1, 1]);
    case.z.clear();
    case.zs = [1.0, 0.0, 1.0, 1.0, 0.5, 2.0][..2 * designs].to_vec();
    case.repeats = repeats;
    case
}

/// What a list's reach makes of a stretch. It counts from the run's first
/// period, and is judged right after the saved bytes.
fn reached(list: &mut Vec<Made>) {
    let room = saved_len(2);
    let marked = listed(1, 1);
    let u = uncut(&marked.inputs()).expect("it runs");
    let [begun, after_one, after_two] = [0, 1, 2].map(|k| encode(1, 2, 1, &u.states[k]));
    let mut put = |what: &str, case: Case, from: &[u8], last: u8| {
        let begins = u8::from(from.is_empty());
        list.push(make(what, case, begins, from, last, room));
    };
    // What, designs, marker, periods, bytes, marked last.
    let asked: [(&str, usize, u8, usize, &[u8], u8); 19] = [
        ("a list of one design, no period", 1, 0, 0, &[], 0),
        ("reached by itself", 1, 0, 1, &[], 0),
        ("14: not reached", 1, 0, 2, &[], 0),
        ("14: not reached, the last", 1, 0, 2, &[], 1),
        ("marked", 1, 1, 2, &[], 0),
        ("reached by itself, from bytes", 1, 0, 1, &begun, 0),
        ("14: not reached, from bytes", 1, 0, 2, &begun, 0),
        ("14: by the periods done", 1, 0, 1, &after_one, 0),
        ("14: by the periods done, the last", 1, 0, 1, &after_one, 9),
        ("marked, going on", 1, 2, 1, &after_one, 0),
        ("marked, going on, the last", 1, 255, 1, &after_one, 1),
        ("no period, done as far as the list", 1, 0, 0, &after_one, 0),
        ("14: no period, done past the list", 1, 0, 0, &after_two, 0),
        (
            "marked, no period, done past the list",
            1,
            128,
            0,
            &after_two,
            0,
        ),
        ("reached with the periods done", 2, 0, 1, &after_one, 1),
        ("marked, and reached", 2, 1, 1, &after_one, 1),
        ("14: the list ended before", 2, 0, 1, &after_two, 0),
        ("marked, the last design again", 2, 1, 1, &after_two, 0),
        ("a longer list", 3, 0, 1, &after_one, 1),
    ];
    for (what, designs, repeats, n, from, last) in asked {
        let case = part(&listed(designs, repeats), 0, n);
        put(what, case, from, last);
    }
    let mut constant = part(&by_hand([1, 1]), 1, 2);
    constant.repeats = 3;
    put("marked, a constant design", constant, &after_one, 0);
    // What comes before 14, and what after it.
    let short = || part(&listed(1, 0), 1, 2);
    put("15 and 14", short(), &after_one[1..], 0);
    let mut with_nan = short();
    with_nan.zs[1] = f64::NAN;
    put("3 and 14", with_nan, &after_one, 0);
    let mut infinite = short();
    infinite.y[0] = f64::INFINITY;
    put("9 and 14", infinite, &after_one, 0);
    let mut noisy = short();
    noisy.rr[1] = 1e200;
    put("11 and 14", noisy, &after_one, 0);
    let mut past = listed(3, 0);
    past.zs[5] = f64::NEG_INFINITY;
    put("3, past the run's end", part(&past, 1, 2), &after_one, 1);
    let mut silent = u.states[1].clone();
    silent.news = 0;
    let bytes = encode(1, 2, 1, &silent);
    let unheard = || {
        let mut case = short();
        case.y[0] = f64::NAN;
        case
    };
    put("14 and 12", unheard(), &bytes, 1);
    let mut repeated = unheard();
    repeated.repeats = 1;
    put("marked, and 12", repeated, &bytes, 1);
}

/// A list of `count` transitions, all different, for the two periods of the
/// run by hand.
fn stepped(flags: [u8; 2], count: usize) -> Case {
    let mut case = by_hand(flags);
    let another = [1.0, 1.0, 0.0, 0.5, 0.5, 0.0, 0.0, 2.0];
    case.ts = [&case.t[..], &another].concat();
    case.ts.truncate(4 * count);
    case.t.clear();
    case
}

/// Lists of T (document 02, request g). They count from the run's first
/// period; their reach is judged after the saved bytes and before that of the
/// designs; refusal 10 looks at the first, wherever the run goes on.
fn steps(list: &mut Vec<Made>) {
    let room = saved_len(2);
    let two = stepped([1, 1], 2);
    let u = uncut(&two.inputs()).expect("it runs");
    cut_up(&two, &u, 1, list);
    let [after_one, after_two] = [1, 2].map(|k| encode(1, 2, 1, &u.states[k]));
    let mut put = |what: &str, case: Case, from: &[u8], last: u8| {
        let begins = u8::from(from.is_empty());
        list.push(make(what, case, begins, from, last, room));
    };
    let some = |count: usize, n: usize| part(&stepped([1, 1], count), 0, n);
    put("2: T not reached", some(1, 2), &[], 0);
    put("T reached by itself", some(1, 1), &[], 0);
    put("no period, done as far as T", some(1, 0), &after_one, 0);
    put("2: no period, done past T", some(1, 0), &after_two, 0);
    put("a longer list of T", some(3, 1), &after_one, 1);
    // T's reach beside others, by the periods done: 15 and 3 come before it,
    // 14 and 12 after it. The marker is not for T.
    let short = || {
        let mut case = part(&stepped([1, 1], 1), 1, 2);
        (case.z, case.zs) = (vec![], vec![1.0, 0.0]);
        case.y[0] = f64::NAN;
        case
    };
    put("15 and T's reach", short(), &after_one[1..], 0);
    let mut with_nan = short();
    with_nan.ts[3] = f64::NAN;
    put("3 and T's reach", with_nan, &after_one, 0);
    put("T's reach and 14", short(), &after_one, 0);
    let mut silent = u.states[1].clone();
    silent.news = 0;
    let mut marked = short();
    marked.repeats = 1;
    let unheard = encode(1, 2, 1, &silent);
    put("T's reach and 12, marked", marked, &unheard, 1);
    // The second state is flagged, and drives the first.
    let mixed = stepped([0, 1], 2);
    put("10: by the first T", part(&mixed, 1, 2), &after_one, 0);
    let mut later = mixed;
    later.ts[1] = 0.0;
    put("driven by a later T", part(&later, 1, 2), &after_one, 0);
}

/// Elements skipped for each cause (document 02, request a), before and after
/// a cut. The first row pins what the second sees, but for noise below the dust
/// line; of the third F* is seen by the covariance alone, and not by the star
/// root. In the second period nothing is left for the first row to see, and
/// the others are usual.
fn skips(list: &mut Vec<Made>) {
    let c = pow2(-30);
    let mut case = Case {
        p: 3,
        m: 3,
        r: 1,
        n: 2,
        z: vec![1.0, 0.0, 0.0, 1.0, 0.0, 0.0, 1.0, 1.0, 1.0],
        h: vec![0.0, 0.0, 0.0, 0.0, pow2(-50), 0.0, 0.0, 0.0, 0.0],
        t: vec![1.0, 0.0, 0.0, 0.0, 1.0, 0.0, 0.0, 0.0, 1.0],
        rr: vec![0.0; 3],
        q: vec![0.0],
        c: vec![0.0; 3],
        d: vec![0.0; 3],
        a1: vec![0.0; 3],
        p_star: vec![1.0, 0.0, 0.0, 0.0, 0.0, c, 0.0, c, 0.0],
        flags: vec![0; 3],
        y: vec![2.0, 3.5, 1.0, 2.5, 2.0, 3.0],
        ..Case::default()
    };
    case.lend_needed();
    let u = uncut(&case.inputs()).expect("it runs");
    assert_eq!(u.written.kinds, [1, 4, 5, 3, 1, 1]);
    cut_up(&case, &u, 1, list);
}

/// Runs whose numbers run off (`offs`), cut before and after that: what an
/// earlier stretch told stays, also where all is finite again; and one whose
/// end is refused 12, with no report.
fn off_and_cut(seed: u64, list: &mut Vec<Made>) {
    for (way, cut) in [(16, 1), (16, 2), (5, 2), (17, 1)] {
        let mut rng = Rng::new(seed);
        let mut mk = Maker {
            rng: &mut rng,
            room: Room::Small,
        };
        let case = mk.runs_off(way);
        let u = uncut(&case.inputs()).expect("it runs");
        cut_up(&case, &u, cut, list);
    }
}

/// The stretches of a seed.
pub fn stretches(seed: u64) -> Vec<Made> {
    let mut list = Vec::new();
    let (mut cuts, mut silent) = ([0, 0], 0);
    let mut refused = [false; 15];
    for (case, e) in choose(seed, SHOWN) {
        match uncut(&case.inputs()) {
            // `steps` has T's reach, which here is not judged where 2 is.
            Err(2) if e.hits[marks::T_SHORT] > 0 => {}
            Err(k) => {
                // With bytes that are bad too; n = 0 is no refusal here.
                if !std::mem::replace(&mut refused[k as usize], true) {
                    let room = if case.m <= 8 { saved_len(case.m) } else { 0 };
                    let what = format!("refusal {k}, bad bytes");
                    list.push(make(&what, case, 0, &[1, 2, 3], 0, room));
                }
            }
            Ok(u) => {
                let (m, n) = (case.m, case.n);
                let quiet = u.outcome.is_err();
                let had = if quiet {
                    &mut silent
                } else {
                    &mut cuts[usize::from(m > 1)]
                };
                if m > 2 || *had >= if quiet { 2 } else { 6 } {
                    continue;
                }
                cut_up(&case, &u, *had % (n + 1), &mut list);
                *had += 1;
                if quiet {
                    let bytes = encode(case.p, m, case.r, &u.states[n]);
                    let none = || part(&case, n, n);
                    list.push(make("12 and 15", none(), 0, &bytes[1..], 1, 0));
                    list.push(make("12 at the end", none(), 0, &bytes, 1, 0));
                }
            }
        }
    }
    let case = by_hand([1, 1]);
    let u = uncut(&case.inputs()).expect("it runs");
    altered(&case, &u.states[1], &mut list);
    further(&mut list);
    skips(&mut list);
    off_and_cut(seed, &mut list);
    reached(&mut list);
    steps(&mut list);
    list
}

/// One stretch as text.
pub fn text(number: usize, k: &Made) -> String {
    let bytes = |x: &[u8]| plain(x.iter().map(|&b| u64::from(b)));
    let mut s = format!("stretch {number}\nmarks {}\n", k.what);
    s += &handed(&k.case);
    s += &format!(
        "begins {}\nlast {}\nsaved{}\n",
        k.begins,
        k.last,
        bytes(&k.saved)
    );
    let lent = k.case.lent[..11].iter().chain([&k.room]);
    s += &format!("lent{}\n", plain(lent.map(|&x| x as u64)));
    s += &match outcome(&k.outcome) {
        Ok(a) => format!("answer answered {a}\n"),
        Err(k) => format!("answer refused {k}\n"),
    };
    let wrote = matches!(k.outcome, Ok(_) | Err(12));
    let sized = wrote.then(|| needed(k.case.p, k.case.m, k.case.n));
    for (part, name) in OUTPUT_NAMES.iter().enumerate().take(11) {
        let words = k.written.words(part);
        let words: Vec<u64> = words[..sized.map_or(0, |need| need[part])].to_vec();
        let values = if part == 5 {
            plain(words.into_iter())
        } else {
            hex(&words.iter().map(|&w| one_nan(w)).collect::<Vec<_>>())
        };
        s += &format!("out {name}{values}\n");
    }
    let saves = k.outcome.is_ok() && k.last == 0;
    let save = if saves { saved_len(k.case.m) } else { 0 };
    s += &format!("out save{}\n", bytes(&k.save[..save]));
    s + "end\n"
}

/// `oracle stretches SEED`.
pub fn command(seed: u64) {
    for (number, made) in stretches(seed).iter().enumerate() {
        println!("{}", text(number, made));
    }
}
