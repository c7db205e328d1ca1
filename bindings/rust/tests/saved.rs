//! Runs in stretches: cut anywhere they give what the uncut run gives, bit for bit; docs/SAVED.md has the bytes that are saved; and what is refused.

mod level;
mod same;

use goxundar::lent::{self, Ending, Inputs, Lengths, Origin, Outputs};
use goxundar::{begin, filter, Design, Model, Refusal, Saved, Transition};
use level::level;
use same::{answer, is_part};

const GAP: f64 = f64::NAN;

/// Offset, rate and the radio's own error, read on two inputs, as in examples/crystal.rs; from period 2 on both read twice the offset.
fn crystal() -> Model {
    let once = [1.0, 0.0, 1.0, 1.0, 0.0, 1.0];
    let twice = [2.0, 0.0, 1.0, 2.0, 0.0, 1.0];
    Model {
        design: Design::Repeated([once, once, twice].concat()),
        transition: Transition::Constant(vec![1.0, 1.0, 0.0, 0.0, 1.0, 0.0, 0.0, 0.0, 0.0]),
        rr: vec![1.0, 0.0, 0.0, 0.0, 1.0, 0.0, 0.0, 0.0, 1.0],
        q: vec![0.04, 0.0, 0.0, 0.0, 0.01, 0.0, 0.0, 0.0, 25.0],
        diffuse: vec![true, true, false],
        p_star: vec![0.0, 0.0, 0.0, 0.0, 0.0, 0.0, 0.0, 0.0, 25.0],
        ..Model::zeros(2, 3, 3)
    }
}

const CHECKS: [f64; 16] = [GAP, GAP, 212.0, GAP, GAP, GAP, 236.5, 236.5, GAP, 251.0, GAP, GAP, 288.5, 288.5, 313.0, GAP];

/// An overflowing one: after some periods there are infinities, and then NaNs.
fn runaway() -> Model {
    let zeros = Model::zeros(1, 2, 1);
    Model {
        design: Design::Constant(vec![1.0, 0.0]),
        h: vec![1.0],
        transition: Transition::Constant(vec![1e50, -1e50, 0.0, 1e50]),
        p_star: vec![1.0, 0.0, 0.0, 1.0],
        ..zeros
    }
}

// ---- cut anywhere

/// Through a file and back.
fn by_file(saved: &Saved, name: &str) -> Saved {
    let file = std::path::Path::new(env!("CARGO_TARGET_TMPDIR")).join(name);
    std::fs::write(&file, saved.as_bytes()).unwrap();
    Saved::from_bytes(std::fs::read(&file).unwrap())
}

fn cut_everywhere(model: &Model, readings: &[f64], name: &str) {
    let p = model.p;
    let n = readings.len() / p;
    let whole = filter(model, n, readings).unwrap();
    let (_, mut stepwise) = begin(model, 0, &[]).unwrap();
    for cut in 0..=n {
        let (first, saved) = begin(model, cut, &readings[..cut * p]).unwrap();
        assert_eq!(saved.periods_done(), Some(cut));
        if cut > 0 {
            // The first stretch is the filter over its own periods, answer and last place too.
            let alone = filter(model, cut, &readings[..cut * p]).unwrap();
            is_part(&first, &alone, 0);
            assert_eq!(answer(&first), answer(&alone));
        }
        is_part(&first, &whole, 0);
        // Cut after every period, the bytes are the same.
        assert_eq!(stepwise, saved);
        let saved = by_file(&saved, name);
        let rest = saved.finish(model, n - cut, &readings[cut * p..]).unwrap();
        is_part(&rest, &whole, cut);
        assert_eq!(answer(&rest), answer(&whole));
        // Loading then saving gives the same bytes.
        assert_eq!(saved.resume(model, 0, &[]).unwrap().1, saved);
        if cut < n {
            let (day, next) = stepwise.resume(model, 1, &readings[cut * p..(cut + 1) * p]).unwrap();
            is_part(&day, &whole, cut);
            stepwise = next;
        }
    }
}

#[test]
fn the_level_cut_everywhere() {
    cut_everywhere(&level(), &[2.0, GAP, 6.0], "level");
}

#[test]
fn the_crystal_cut_everywhere() {
    cut_everywhere(&crystal(), &CHECKS, "crystal");
}

#[test]
fn infinities_and_nans_are_carried() {
    let readings = [1.0, GAP, GAP, 2.0, GAP, 3.0];
    let whole = filter(&runaway(), 6, &readings).unwrap();
    let some = |of: fn(f64) -> bool| (1..=5).any(|t| whole.predicted(t).cov.iter().any(|&x| of(x)));
    assert!(some(f64::is_infinite) && some(f64::is_nan));
    cut_everywhere(&runaway(), &readings, "runaway");
}

/// Document 01's figure F, cut after its first period: its place 1 holds 2^-18, which the next stretch tests, and finds to be 0.
#[test]
fn the_last_place_is_not_tested() {
    let f = Model { h: vec![2.0], transition: Transition::Constant(vec![2f64.powi(-9)]), ..level() };
    let (first, saved) = begin(&f, 1, &[GAP]).unwrap();
    assert_eq!(first.predicted(1).diffuse_cov, [2f64.powi(-18)]);
    let rest = saved.finish(&f, 1, &[2.0]).unwrap();
    assert_eq!(rest.predicted(0).diffuse_cov, [0.0]);
    assert_eq!((rest.d_diffuse(), rest.filtered(0).mean, rest.filtered(0).cov), (1, &[1.0][..], &[1.0][..]));
}

// ---- the bytes, as docs/SAVED.md has them

const PAGE: &str = include_str!("../../../docs/SAVED.md");

#[test]
fn the_page_has_the_bytes() {
    let (_, saved) = begin(&level(), 2, &[2.0, GAP]).unwrap();
    let blocks: Vec<_> = PAGE.split("```text\n").skip(1).collect();
    assert_eq!(blocks.len(), 1, "docs/SAVED.md has one block of bytes");
    let mut bytes = Vec::new();
    for line in blocks[0].lines().take_while(|line| *line != "```") {
        let (place, rest) = line.split_once(':').unwrap();
        let (hex, _) = rest.split_once('|').unwrap();
        assert_eq!(place.trim().parse(), Ok(bytes.len()), "{line}");
        bytes.extend(hex.split_whitespace().map(|byte| u8::from_str_radix(byte, 16).unwrap()));
    }
    assert_eq!(bytes, saved.as_bytes());
    // And they can go on: README.md's third period.
    let rest = Saved::from_bytes(bytes).finish(&level(), 1, &[6.0]).unwrap();
    assert_eq!(answer(&rest), answer(&filter(&level(), 3, &[2.0, GAP, 6.0]).unwrap()));
}

/// A sum of numbers, of numbers times m, and of numbers times m².
fn worked_out(sum: &str, m: usize) -> usize {
    let times = |number: &str| if number.is_empty() { 1 } else { number.parse().unwrap() };
    let term = |term: &str| match (term.strip_suffix("m²"), term.strip_suffix('m')) {
        (Some(number), _) => times(number) * m * m,
        (_, Some(number)) => times(number) * m,
        _ => times(term),
    };
    sum.split(" + ").map(term).sum()
}

/// At each place that the table gives, by its sum and for m = 1, 2, 3 and 8, there is the section's count.
#[test]
fn the_page_has_the_places() {
    let rows: Vec<Vec<&str>> = PAGE.lines().map(|line| line.split('|').map(str::trim).collect()).collect();
    let places = |row: &[&str], k: usize, m: usize| (worked_out(row[4], m), row[5 + k].parse::<usize>().unwrap());
    for (k, m) in [1usize, 2, 3, 8].into_iter().enumerate() {
        let (_, saved) = begin(&Model { transition: Transition::Constant(vec![0.0; m * m]), ..Model::zeros(1, m, 1) }, 0, &[]).unwrap();
        let mut end = 0;
        for section in 1..=8 {
            let row = rows.iter().find(|row| row.len() == 10 && row[1] == section.to_string()).unwrap();
            let wide = worked_out(row[3], m);
            assert_eq!(places(row, k, m), (end, end), "section {section} of m = {m}");
            assert_eq!(saved.as_bytes()[end..end + 4], (wide as u32).to_be_bytes(), "section {section} of m = {m}");
            end += 4 + 8 * wide;
        }
        let row = rows.iter().find(|row| row.len() == 10 && row[2] == "the end").unwrap();
        assert_eq!(places(row, k, m), (end, end));
        assert_eq!([saved.as_bytes().len(), lent::saved_len(m)], [end; 2]);
    }
}

// ---- what is refused

/// A run of the level with five periods done, and what becomes of it with some bytes changed.
fn damaged(at: usize, bytes: &[u8]) -> Option<Refusal> {
    let (_, saved) = begin(&level(), 5, &[2.0, GAP, 6.0, GAP, 4.0]).unwrap();
    let mut all = saved.into_bytes();
    all[at..at + bytes.len()].copy_from_slice(bytes);
    Saved::from_bytes(all).finish(&level(), 1, &[3.0]).err()
}

#[test]
fn damaged_bytes() {
    let bad = Some(Refusal::BadSaved);
    assert_eq!(damaged(0, &[]), None);
    for count in [0, 36, 48, 60, 72, 84, 96, 108] {
        for byte in count..count + 4 {
            assert_eq!(damaged(byte, &[9]), bad, "byte {byte}");
        }
    }
    for (at, wrong) in [(4, 2u64), (12, 2), (20, 2), (28, 4096), (112, 6), (120, 6), (120, 2), (128, 4), (136, 2), (144, 6), (152, 6)] {
        assert_eq!(damaged(at, &wrong.to_be_bytes()), bad, "{wrong} at {at}");
        assert_eq!(damaged(at, &[1]), bad, "the highest byte at {at}");
    }
    for (at, right) in [(28, 4095u64), (112, 5), (120, 5), (128, 3), (128, 0), (136, 1), (136, 0), (144, 5), (152, 5)] {
        assert_eq!(damaged(at, &right.to_be_bytes()), None, "{right} at {at}");
    }
    for float in [40, 52, 64, 76, 88, 100] {
        assert_eq!(damaged(float, &f64::INFINITY.to_be_bytes()), None);
        assert_eq!(damaged(float, &0x7FF8_0000_0000_0000u64.to_be_bytes()), None);
        assert_eq!(damaged(float, &0x7FF8_0000_0000_0001u64.to_be_bytes()), bad);
        assert_eq!(damaged(float, &0xFFF8_0000_0000_0000u64.to_be_bytes()), bad);
    }
}

#[test]
fn another_length() {
    let (_, saved) = begin(&level(), 1, &[2.0]).unwrap();
    let bytes = saved.into_bytes();
    for length in 0..bytes.len() {
        let short = Saved::from_bytes(bytes[..length].to_vec());
        assert_eq!(short.finish(&level(), 1, &[3.0]).unwrap_err(), Refusal::BadSaved);
        assert_eq!(short.resume(&level(), 0, &[]).unwrap_err(), Refusal::BadSaved);
        assert_eq!(short.periods_done(), (length >= 36).then_some(1));
    }
    let long = Saved::from_bytes([&bytes[..], &[0]].concat());
    assert_eq!(long.finish(&level(), 1, &[3.0]).unwrap_err(), Refusal::BadSaved);
    // More than a run can have.
    assert_eq!(Saved::from_bytes(vec![255; 160]).periods_done(), None);
}

/// What the library saved before it had the reports: four tallies, and 16 bytes less. docs/SAVED.md says so.
#[test]
fn saved_by_an_older_library() {
    for (m, model) in [(1, level()), (3, crystal())] {
        let p = model.p;
        let (_, saved) = begin(&model, 1, &vec![2.0; p]).unwrap();
        let mut bytes = saved.into_bytes();
        bytes.truncate(104 + 8 * m + 32 * m * m);
        bytes[68 + 8 * m + 32 * m * m + 3] = 4;
        assert_eq!(Saved::from_bytes(bytes.clone()).periods_done(), Some(1));
        for mended in [4, 6] {
            bytes[68 + 8 * m + 32 * m * m + 3] = mended;
            assert_eq!(Saved::from_bytes(bytes.clone()).finish(&model, 1, &vec![3.0; p]).unwrap_err(), Refusal::BadSaved);
        }
    }
    // No length of that form is one of today's.
    for m in 1..=8 {
        assert!((1..=8).all(|other| lent::saved_len(other) != 104 + 8 * m + 32 * m * m));
    }
}

#[test]
fn a_model_of_other_sizes() {
    let (_, saved) = begin(&level(), 1, &[2.0]).unwrap();
    assert_eq!(saved.finish(&crystal(), 1, &[3.0, GAP]).unwrap_err(), Refusal::BadSaved);
    let doubled = Model { design: Design::Constant(vec![1.0; 2]), h: vec![0.0; 4], d: vec![0.0; 2], p: 2, ..level() };
    assert_eq!(saved.finish(&doubled, 1, &[3.0, GAP]).unwrap_err(), Refusal::BadSaved);
    assert_eq!(saved.finish(&Model { rr: vec![1.0; 2], q: vec![0.0; 4], r: 2, ..level() }, 1, &[3.0]).unwrap_err(), Refusal::BadSaved);
}

#[test]
fn four_thousand_and_ninety_six_periods_together() {
    let (_, saved) = begin(&level(), 4000, &vec![1.0; 4000]).unwrap();
    assert_eq!(saved.resume(&level(), 97, &[1.0; 97]).unwrap_err(), Refusal::BadSaved);
    let (run, full) = saved.resume(&level(), 96, &[1.0; 96]).unwrap();
    assert_eq!((run.heard(), full.periods_done()), (4096, Some(4096)));
    assert_eq!(full.resume(&level(), 1, &[1.0]).unwrap_err(), Refusal::BadSaved);
    assert_eq!(full.finish(&level(), 0, &[]).unwrap().heard(), 4096);
    for n in [4097, usize::MAX] {
        assert_eq!(begin(&level(), n, &[]).unwrap_err(), Refusal::Dimension);
        assert_eq!(full.finish(&level(), n, &[]).unwrap_err(), Refusal::Dimension);
    }
    for m in [0, 9, usize::MAX] {
        assert_eq!(begin(&Model { m, ..level() }, 1, &[1.0]).unwrap_err(), Refusal::Dimension);
    }
}

/// Figure I: a reading of a known level without noise is heard, and no news. That is told at the end of the run, and not before.
#[test]
fn no_information() {
    let known = Model { h: vec![0.0], diffuse: vec![false], ..level() };
    let (first, saved) = begin(&known, 1, &[1.0]).unwrap();
    assert_eq!((first.heard(), first.news()), (1, 0));
    assert_eq!(saved.finish(&known, 0, &[]).unwrap_err(), Refusal::NoInformation);
    assert_eq!(saved.finish(&known, 1, &[GAP]).unwrap_err(), Refusal::NoInformation);
    let (_, saved) = saved.resume(&known, 1, &[GAP]).unwrap();
    let rest = saved.finish(&known, 1, &[5.0]).unwrap();
    assert_eq!((rest.heard(), rest.news()), (2, 1));
    // 15 comes before 12, and 11 before 15.
    let mut bytes = saved.into_bytes();
    bytes[0] = 1;
    let bad = Saved::from_bytes(bytes);
    assert_eq!(bad.finish(&known, 0, &[]).unwrap_err(), Refusal::BadSaved);
    assert_eq!(bad.finish(&Model { rr: vec![1e200], ..known }, 0, &[]).unwrap_err(), Refusal::NonFiniteNoise);
}

/// The start of a run that goes on is checked, and not used.
#[test]
fn the_start_is_not_used() {
    let (_, saved) = begin(&level(), 1, &[2.0]).unwrap();
    let other = Model { a1: vec![100.0], p_star: vec![50.0], diffuse: vec![false], ..level() };
    assert_eq!(saved.finish(&other, 1, &[6.0]).unwrap().filtered(0).mean, [5.0]);
    assert_eq!(saved.finish(&Model { diffuse: vec![true], ..other }, 1, &[6.0]).unwrap_err(), Refusal::StartShape);
}

// ---- on slices

/// The outputs of one period of the level, each with a place more than needed, all 7.
#[derive(Debug, Clone, PartialEq)]
struct Lent {
    pred: [[f64; 3]; 3],
    rest: [[f64; 2]; 7],
    kinds: [u8; 2],
}

const UNTOUCHED: Lent = Lent { pred: [[7.0; 3]; 3], rest: [[7.0; 2]; 7], kinds: [7; 2] };

/// The inputs of that period.
fn reading(y: &[f64; 1]) -> Inputs<'_> {
    let (one, zero) = (&[1.0], &[0.0]);
    let (a1, p_star, flags) = (zero, zero, &[1]);
    Inputs { p: 1, m: 1, r: 1, n: 1, z: one, h: one, t: one, rr: one, q: &[2.0], c: zero, d: zero, a1, p_star, flags, y, ..Inputs::default() }
}

impl Lent {
    /// A stretch of that period, and the answer's counts.
    fn stretch(&mut self, inputs: &Inputs<'_>, from: Origin<'_>, then: Ending<'_>) -> Result<(usize, usize, usize), Refusal> {
        let [pred_mean, pred_cov, pred_inf] = &mut self.pred;
        let [filt_mean, filt_cov, v, f_star, f_inf, m_star, m_inf] = &mut self.rest;
        let mut outputs = Outputs { pred_mean, pred_cov, pred_inf, filt_mean, filt_cov, kinds: &mut self.kinds, v, f_star, f_inf, m_star, m_inf };
        lent::stretch(inputs, from, &mut outputs, then).map(|a| (a.d_diffuse, a.heard, a.news))
    }
}

#[test]
fn what_is_written() {
    let mut save = [7; 163];

    // Too short by a byte: nothing is written.
    let mut lent = UNTOUCHED;
    assert_eq!(lent.stretch(&reading(&[2.0]), Origin::Start, Ending::Save(&mut save[..159])), Err(Refusal::Length));
    assert_eq!((lent, save), (UNTOUCHED, [7; 163]));

    // Figure A, saved. What is beyond stays.
    let mut lent = UNTOUCHED;
    assert_eq!(lent.stretch(&reading(&[2.0]), Origin::Start, Ending::Save(&mut save)), Ok((1, 1, 1)));
    assert_eq!(lent.pred, [[0.0, 2.0, 7.0], [0.0, 3.0, 7.0], [1.0, 0.0, 7.0]]);
    assert_eq!((lent.rest[0], lent.rest[1], lent.kinds), ([2.0, 7.0], [1.0, 7.0], [2, 7]));
    assert_eq!(save[..160], *begin(&level(), 1, &[2.0]).unwrap().1.as_bytes());
    assert_eq!(save[160..], [7; 3]);

    // Figure B's second period, the last.
    let mut lent = UNTOUCHED;
    assert_eq!(lent.stretch(&reading(&[6.0]), Origin::Saved(&save[..160]), Ending::Last), Ok((1, 2, 2)));
    assert_eq!(lent.pred, [[2.0, 5.0, 7.0], [3.0, 2.75, 7.0], [0.0, 0.0, 7.0]]);
    assert_eq!((lent.rest[0], lent.rest[1], lent.kinds), ([5.0, 7.0], [0.75, 7.0], [1, 7]));

    // 12, with the reading of the first period made no news: the needed places are 0, and the rest stays.
    let (mut lent, mut no_news) = (UNTOUCHED, save);
    no_news[135] = 0;
    assert_eq!(lent.stretch(&reading(&[GAP]), Origin::Saved(&no_news[..160]), Ending::Last), Err(Refusal::NoInformation));
    assert_eq!(lent, Lent { pred: [[0.0, 0.0, 7.0]; 3], rest: [[0.0, 7.0]; 7], kinds: [0, 7] });

    // 15 writes nothing, to the place for saving neither.
    for wrong in [&save[..0], &save[..159], &save] {
        let (mut lent, mut again) = (UNTOUCHED, [7; 163]);
        assert_eq!(lent.stretch(&reading(&[6.0]), Origin::Saved(wrong), Ending::Save(&mut again)), Err(Refusal::BadSaved));
        assert_eq!((lent, again), (UNTOUCHED, [7; 163]));
    }

    // Nor does 2, where the second period has no transition.
    let short = Inputs { t: &[], ts: &[1.0], ..reading(&[6.0]) };
    let (mut lent, mut again) = (UNTOUCHED, [7; 163]);
    assert_eq!(lent.stretch(&short, Origin::Saved(&save[..160]), Ending::Save(&mut again)), Err(Refusal::Length));
    assert_eq!((lent, again), (UNTOUCHED, [7; 163]));

    // Nor does 14: the second period has no design. Where the first is repeated, it is figure B's again.
    let listed = Inputs { z: &[], zs: &[1.0], ..reading(&[6.0]) };
    let (mut lent, mut again) = (UNTOUCHED, [7; 163]);
    assert_eq!(lent.stretch(&listed, Origin::Saved(&save[..160]), Ending::Save(&mut again)), Err(Refusal::ListShort));
    assert_eq!((&lent, again), (&UNTOUCHED, [7; 163]));
    let repeated = Inputs { repeats: true, ..listed };
    assert_eq!(lent.stretch(&repeated, Origin::Saved(&save[..160]), Ending::Last), Ok((1, 2, 2)));
    assert_eq!((lent.rest[0], lent.rest[1], lent.kinds), ([5.0, 7.0], [0.75, 7.0], [1, 7]));
}

#[test]
fn lengths() {
    let none = Lengths::needed(2, 3, 0);
    assert_eq!((none.pred_mean, none.pred_cov, none.mean, none.cov, none.record, none.gain), (3, 9, 0, 0, 0, 0));
    assert_eq!(Lengths::needed(2, 3, 4097), Lengths::default());
    assert_eq!([0, 1, 2, 3, 8, 9, usize::MAX].map(lent::saved_len), [0, 160, 264, 432, 2232, 0, 0]);
}
