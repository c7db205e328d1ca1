//! Wild calls: sizes, lengths and bits that no sensible caller passes. Each must return, with the refusal that document 01's table says and nothing
//! else touched, or with the oracle's answer.

use oracle::case::{Case, INPUTS};
use oracle::rng::Rng;

use crate::altered::made_up;
use crate::cuts::reach_held;
use crate::kinds;
use crate::lent::{Args, Ask, Lent, OUTPUTS, SAVE, SAVED, T, TS};
use crate::library::{self, Call, CALLS};
use crate::tally::Tally;

/// Sizes and lengths outside every range. Eight times some of them is 0, or a small number, in 64 bits.
const HUGE: [usize; 7] = [usize::MAX, usize::MAX - 1, usize::MAX / 8, 1 << 63, 1 << 61, (1 << 61) + 1, 1 << 32];

/// Inputs of floats: all but the flags.
const FLOATS: usize = INPUTS - 1;

/// Refusals 1 and 2, and a list's reach where it is judged next, reckoned anew from the documents, in numbers that can't overflow. No part of the oracle.
pub fn first_ones(which: Call, a: &Args) -> Option<u32> {
    let [p, m, r, n] = a.sizes.map(|x| x as u128);
    let small = |x: u128| (1..=8).contains(&x);
    let least_n = u128::from(which != Call::Stretch);
    if !(small(p) && small(m) && small(r) && (least_n..=4096).contains(&n)) {
        return Some(1);
    }
    let input = |k: usize| a.inputs[k].1 as u128;
    let output = |k: usize| a.outputs[k].1 as u128;
    // Given once, or listed.
    let rule = |once: usize, list: usize, size: u128| {
        let listed = input(once) == 0 && (1..=4096).any(|count| input(list) == count * size);
        listed || (input(once) == size && input(list) == 0)
    };
    // rr, q, c, d, a1, p_star, flags, y
    let exact = [m * r, r * r, m, p, m, m * m, m, n * p];
    let others = input(2) == p * p && exact.iter().enumerate().all(|(k, &len)| input(k + 5) == len);
    let inputs = rule(0, 1, p * m) && rule(T, TS, m * m) && others;
    #[rustfmt::skip]
    let least = [
        (n + 1) * m, (n + 1) * m * m, (n + 1) * m * m, n * m, n * m * m,
        n * p, n * p, n * p, n * p, n * p * m, n * p * m,
        n * m, n * m * m,
    ];
    let outputs = (0..which.outputs()).all(|k| output(k) >= least[k]);
    let saves = which != Call::Stretch || a.last != 0 || a.save.1 as u128 >= 120 + 8 * m + 32 * m * m;
    if !(inputs && outputs && saves) {
        return Some(2);
    }
    let short = |list: usize, size: u128| which != Call::Stretch && input(list) != 0 && input(list) < n * size;
    if short(TS, m * m) {
        return Some(2);
    }
    (a.repeats == 0 && short(1, p * m)).then_some(14)
}

/// What is claimed of a part's length besides: the part, by its number in `lent`, and the claim.
type Claims = Vec<(usize, usize)>;

/// One wild call. How it must end, and the first difference.
fn one_call(which: Call, case: &Case, ask: &Ask<'_>, claims: &Claims, nulls: bool, fill: u64) -> (u32, Option<String>) {
    let mut found = Lent::new(&case.inputs(), &case.lent, ask, fill);
    let mut wanted = found.clone();
    let mut args = found.args();
    for &(part, claim) in claims {
        match part {
            0..INPUTS => args.inputs[part].1 = claim,
            SAVED => args.saved.1 = claim,
            SAVE => args.save.1 = claim,
            _ => args.outputs[part - INPUTS].1 = claim,
        }
    }
    if nulls {
        for (pointer, len) in args.inputs.iter_mut().chain(&mut args.outputs) {
            if *len == 0 {
                *pointer = std::ptr::null_mut();
            }
        }
        for (pointer, len) in [&mut args.saved, &mut args.save] {
            if *len == 0 {
                *pointer = std::ptr::null_mut();
            }
        }
    }
    let reckoned = first_ones(which, &args);
    let claims_inputs = claims.iter().any(|(part, _)| *part < INPUTS);
    // No slice has such a length, so the oracle can't be asked.
    let want = if claims_inputs {
        reckoned.expect("no input can have a length that is claimed here")
    } else if claims.iter().any(|(part, _)| *part == SAVED) {
        // Of a wrong length too, whichever way the run starts.
        wanted.oracle_from(which, Some(&[0]))
    } else {
        wanted.oracle(which)
    };
    // A stretch is judged by a list's reach later.
    let later = |k: u32| k != 1 && (!matches!(k, 2 | 14) || which == Call::Stretch);
    if !reckoned.map_or(later(want), |k| k == want) {
        return (want, Some(format!("THE ORACLE gives {want}, and the documents' table {reckoned:?}")));
    }
    if let Some(what) = reach_held(want, reckoned, &case.inputs(), ask) {
        return (want, Some(what));
    }
    let outcome = unsafe { library::call(which, &args) };
    if outcome != want {
        return (want, Some(format!("outcome {outcome}, wanted {want} (0: answered, else the refusal)")));
    }
    (want, found.difference(&wanted, which, want, &[]).or_else(|| kinds::broken(&found, which, outcome)))
}

/// Any 64 bits.
fn bits(rng: &mut Rng) -> f64 {
    f64::from_bits(rng.word())
}

fn resize(x: &mut Vec<f64>, len: usize, rng: &mut Rng) {
    x.resize_with(len, || rng.plain());
}

fn float_input(case: &mut Case, k: usize) -> &mut Vec<f64> {
    match k {
        0 => &mut case.z,
        1 => &mut case.zs,
        2 => &mut case.h,
        3 => &mut case.t,
        4 => &mut case.ts,
        5 => &mut case.rr,
        6 => &mut case.q,
        7 => &mut case.c,
        8 => &mut case.d,
        9 => &mut case.a1,
        10 => &mut case.p_star,
        _ => &mut case.y,
    }
}

/// Every part gets the length that these sizes ask for, in 64 bits: where a product overflows, the length that a careless product gives. Lengths that
/// are still large are cut.
fn fit(case: &mut Case, rng: &mut Rng) {
    let (p, m, r, n) = (case.p, case.m, case.r, case.n);
    let cut = |len: usize| if len <= 1 << 16 { len } else { len % 5 };
    let x = |a: usize, b: usize| cut(a.wrapping_mul(b));
    let (next, square) = (n.wrapping_add(1), m.wrapping_mul(m));
    let (t, ts) = if rng.chance(1, 2) { (x(m, m), 0) } else { (0, x(n, square)) };
    let lengths = [x(p, m), 0, x(p, p), t, ts, x(m, r), x(r, r), x(m, 1), x(p, 1), x(m, 1), x(m, m), x(n, p)];
    for (k, len) in lengths.into_iter().enumerate() {
        resize(float_input(case, k), len, rng);
    }
    case.flags.resize(x(m, 1), 0);
    let gain = p.wrapping_mul(m);
    case.lent = [
        x(next, m), x(next, square), x(next, square), x(n, m), x(n, square),
        x(n, p), x(n, p), x(n, p), x(n, p), x(n, gain), x(n, gain),
        x(n, m), x(n, square),
    ];
}

/// Sizes: 0, 9, the largest, and products that overflow. Lengths as they were, fitted, or all 0.
fn sizes(rng: &mut Rng, case: &mut Case) {
    if rng.chance(1, 8) {
        // At the edges: all lengths fit.
        let size = |rng: &mut Rng| rng.pick(&[0, 1, 2, 8, 9]);
        (case.p, case.m, case.r, case.n) = (size(rng), size(rng), size(rng), rng.within(0, 2));
        if rng.chance(1, 16) {
            (case.p, case.m, case.n) = (1, 1, rng.pick(&[4095, 4096, 4097]));
        }
        return fit(case, rng);
    }
    for _ in 0..rng.within(1, 4) {
        let size = match rng.below(4) {
            0 => 0,
            1 => 9,
            2 => rng.pick(&HUGE),
            _ => rng.word() as usize,
        };
        match rng.below(4) {
            0 => case.p = size,
            1 => case.m = size,
            2 => case.r = size,
            _ => case.n = size,
        }
    }
    match rng.below(3) {
        0 => {}
        1 => fit(case, rng),
        _ => {
            for k in 0..FLOATS {
                float_input(case, k).clear();
            }
            case.flags.clear();
            case.lent = [0; OUTPUTS];
        }
    }
}

/// T: none, two of them, the one that is given as the other, or a list of any length.
fn transitions(rng: &mut Rng, case: &mut Case) {
    let one = case.m.min(9) * case.m.min(9);
    let (t, ts) = match rng.below(5) {
        0 => (0, 0),
        1 => (one, one * rng.within(1, 3)),
        2 => (case.ts.len(), case.t.len()),
        3 => (0, one * rng.within(1, 24)),
        _ => (0, rng.within(1, 300)),
    };
    resize(&mut case.t, t, rng);
    resize(&mut case.ts, ts, rng);
}

/// Lengths that do not fit, by one or by a lot.
fn lengths(rng: &mut Rng, case: &mut Case) {
    fn other(rng: &mut Rng, len: usize) -> usize {
        match rng.below(6) {
            0 | 1 => len + 1,
            2 => len.saturating_sub(1),
            3 => 0,
            4 => len * 2,
            _ => len + rng.within(2, 4096),
        }
    }
    if rng.chance(1, 4) {
        return transitions(rng, case);
    }
    for _ in 0..rng.within(1, 2) {
        match rng.below(INPUTS + OUTPUTS) {
            FLOATS => {
                let len = other(rng, case.flags.len());
                case.flags.resize(len, 0);
            }
            k @ 0..FLOATS => {
                let len = other(rng, float_input(case, k).len());
                resize(float_input(case, k), len, rng);
            }
            k => case.lent[k - INPUTS] = other(rng, case.lent[k - INPUTS]),
        }
    }
}

/// Lengths claimed that nothing has. An input is refused by its length, unread. An output may be longer than needed; so no place past the needed
/// stretch is touched, and what is there in truth is enough.
fn claims(rng: &mut Rng, case: &Case, least_n: usize) -> Claims {
    let lent = Lent::of(case, 0).args();
    let enough = |k: usize| {
        let sized = matches!((case.p, case.m), (1..=8, 1..=8)) && (least_n..=4096).contains(&case.n);
        !sized || lent.outputs[k].1 >= oracle::needed(case.p, case.m, case.n)[k]
    };
    let outputs_alone = rng.chance(1, 2);
    (0..rng.within(1, 3))
        .filter_map(|_| {
            let part = if outputs_alone { INPUTS + rng.below(OUTPUTS) } else { rng.below(INPUTS + OUTPUTS) };
            let truth = if part < INPUTS { lent.inputs[part].1 } else { lent.outputs[part - INPUTS].1 };
            // The second: as many bytes as in truth, in 64 bits.
            let claim = if rng.chance(1, 2) { rng.pick(&HUGE) } else { (1 << 61) + truth };
            (part < INPUTS || enough(part - INPUTS)).then_some((part, claim))
        })
        .collect()
}

/// Random bits in one place, in a part or in all inputs.
fn random_bits(rng: &mut Rng, case: &mut Case) {
    let mode = rng.below(3);
    let only = rng.below(INPUTS);
    for k in (0..FLOATS).filter(|&k| mode == 2 || k == only) {
        let part = float_input(case, k);
        if mode == 0 && !part.is_empty() {
            let place = rng.below(part.len());
            part[place] = bits(rng);
        } else {
            part.iter_mut().for_each(|x| *x = bits(rng));
        }
    }
    if mode == 2 || only == FLOATS {
        case.flags.iter_mut().for_each(|f| *f = rng.word() as u8);
    }
}

/// A finite number of random bits, its exponent within `spread` of 0.
fn spread_out(rng: &mut Rng, spread: usize) -> f64 {
    let exponent = (1023 + rng.below(2 * spread + 1) - spread) as u64;
    f64::from_bits(rng.word() & 0x800F_FFFF_FFFF_FFFF | exponent << 52)
}

/// Random bits that refusals 1 to 10 let through: mirrored, held and finite where they must be.
fn random_numbers(rng: &mut Rng) -> Case {
    let (p, m, r, n) = (rng.within(1, 8), rng.within(1, 8), rng.within(1, 8), rng.within(1, 6));
    let spread = rng.pick(&[2, 30, 250, 500, 1022]);
    let mut case = Case { p, m, r, n, ..Case::default() };
    case.lent = oracle::needed(p, m, n).map(|len| len + rng.below(3));
    fn list(rng: &mut Rng, len: usize, spread: usize) -> Vec<f64> {
        (0..len).map(|_| spread_out(rng, spread)).collect()
    }
    fn diagonal(rng: &mut Rng, size: usize, spread: usize) -> Vec<f64> {
        let entry = |k: usize, rng: &mut Rng| if k / size == k % size { spread_out(rng, spread).abs() } else { 0.0 };
        (0..size * size).map(|k| entry(k, rng)).collect()
    }
    if rng.chance(1, 2) {
        case.z = list(rng, p * m, spread);
    } else {
        let designs = rng.within(1, n + 1);
        case.zs = list(rng, designs * p * m, spread);
        case.repeats = rng.maybe_marker(3, 4);
    }
    case.h = diagonal(rng, p, spread);
    case.q = diagonal(rng, r, spread.min(250));
    case.rr = list(rng, m * r, spread.min(250));
    if rng.chance(1, 2) {
        case.t = list(rng, m * m, spread);
    } else {
        let matrices = rng.pick(&[n, n, n + 1, n + 2, rng.clone().within(1, n)]);
        case.ts = list(rng, matrices * m * m, spread);
    }
    case.c = list(rng, m, spread);
    case.d = list(rng, p, spread);
    case.a1 = list(rng, m, spread);
    case.p_star = list(rng, m * m, spread);
    case.flags = (0..m).map(|_| rng.below(2) as u8).collect();
    case.y = (0..n * p).map(|_| if rng.chance(1, 4) { rng.gap() } else { spread_out(rng, spread) }).collect();
    for a in 0..m {
        for b in 0..m {
            let held = case.flags[a] != 0 || case.flags[b] != 0;
            case.p_star[a * m + b] = if held { 0.0 } else { case.p_star[a.min(b) * m + a.max(b)] };
            if case.flags[a] == 0 && case.flags[b] != 0 {
                // Of a list, the first.
                let t = if case.ts.is_empty() { &mut case.t } else { &mut case.ts };
                t[a * m + b] = 0.0;
            }
        }
        case.p_star[a * m + a] = case.p_star[a * m + a].abs();
        if case.flags[a] != 0 {
            case.a1[a] = 0.0;
        }
    }
    case
}

/// The wild case as a stretch: begun or going on, from bytes that are sound or not, with room to save in or not.
fn try_stretch(rng: &mut Rng, case: &Case, claimed: bool, name: &str, tally: &mut Tally) {
    let sized = [case.p, case.m, case.r].iter().all(|k| (1..=8).contains(k)) && case.n <= 4096;
    let need = if sized { oracle::saved_len(case.m) } else { rng.below(300) };
    let mut bytes = if sized { made_up(rng, case.p, case.m, case.r, case.n) } else { vec![7; need] };
    match rng.below(12) {
        0 => bytes.truncate(rng.below(bytes.len() + 1)),
        1 => bytes.iter_mut().for_each(|b| *b = rng.word() as u8),
        2..=5 => bytes.clear(),
        _ => {}
    }
    let ask = Ask {
        begins: if bytes.is_empty() != rng.chance(1, 16) { rng.marker() } else { 0 },
        saved: &bytes,
        last: rng.maybe_marker(1, 3),
        room: if rng.chance(1, 8) { rng.below(need + 1) } else { need + rng.below(9) },
    };
    let mut claims = if claimed { claims(rng, case, 0) } else { Claims::new() };
    if claimed && rng.chance(1, 2) {
        claims.push((SAVED, rng.pick(&HUGE)));
    }
    if claimed && rng.chance(1, 2) && (!sized || ask.last != 0 || ask.room >= need) {
        claims.push((SAVE, rng.pick(&HUGE)));
    }
    let (outcome, difference) = one_call(Call::Stretch, case, &ask, &claims, rng.chance(1, 2), rng.word());
    tally.stretch_ended[outcome as usize] += 1;
    tally.stretch_wild.count(name, difference);
}

/// One wild case after the made case `case`, through both calls, and as a stretch.
pub fn try_case(rng: &mut Rng, stretch_rng: &mut Rng, mut case: Case, name: &str, tally: &mut Tally) {
    let mut claimed = Claims::new();
    let scene = rng.below(5);
    // The marker, whatever the design: as it was, none, any byte.
    case.repeats = rng.pick(&[case.repeats, case.repeats, 0, rng.clone().word() as u8]);
    let (kind, line) = match scene {
        0 => {
            sizes(rng, &mut case);
            ("sizes", &mut tally.wild_sizes)
        }
        1 => {
            lengths(rng, &mut case);
            ("lengths", &mut tally.wild_lengths)
        }
        2 => {
            claimed = claims(rng, &case, 1);
            ("claimed lengths", &mut tally.wild_claims)
        }
        3 => {
            random_bits(rng, &mut case);
            ("random bits", &mut tally.wild_bits)
        }
        _ => {
            case = random_numbers(rng);
            ("random numbers", &mut tally.wild_numbers)
        }
    };
    let nulls = rng.chance(1, 2);
    let fill = rng.word();
    for which in CALLS {
        let (outcome, difference) = one_call(which, &case, &Ask::default(), &claimed, nulls, fill);
        tally.wild_ended[outcome as usize] += 1;
        tally.wild_nulls += u64::from(nulls);
        line.count(&format!("wild call ({kind}) after {name}, {}", which.name()), difference);
    }
    try_stretch(stretch_rng, &case, scene == 2, &format!("wild call ({kind}) after {name}, stretch"), tally);
}
