//! A reader of case files: lends patterned parts, makes both calls, and
//! compares all that they answer and leave. FORMAT.md in code.

use parts::{Inputs, Outcome, Outputs, Smoothed, FILTER_PARTS, SMOOTH_PARTS};

use crate::case::{answer_words, one_nan, Buffers, Case};
use crate::case::{ANSWER, INPUTS, OUTPUT_NAMES, PATTERN, PATTERN_BYTE};
use crate::file::{ANSWER_AT, COUNTS_AT, INPUTS_AT, LENT_AT, REFUSALS_AT, REPEATS_AT};
use crate::file::{HEADER_WORDS, HEAD_WORDS, MAGIC, MAX_CASE_WORDS, MAX_LIST, MAX_PART};

/// The two calls under test.
pub trait Calls {
    fn filter(&mut self, i: &Inputs<'_>, o: &mut Outputs<'_>) -> Outcome;
    fn smooth(&mut self, i: &Inputs<'_>, o: &mut Outputs<'_>, s: &mut Smoothed<'_>) -> Outcome;
}

/// The oracle's own.
pub struct Oracle;

impl Calls for Oracle {
    fn filter(&mut self, i: &Inputs<'_>, o: &mut Outputs<'_>) -> Outcome {
        tsecon_ssm::filter_call(i, o)
    }
    fn smooth(&mut self, i: &Inputs<'_>, o: &mut Outputs<'_>, s: &mut Smoothed<'_>) -> Outcome {
        tsecon_ssm::smooth_call(i, o, s)
    }
}

/// A case as it stands in a file.
pub struct Filed {
    pub case: Case,
    pub marks: u64,
    pub filter_refusal: u64,
    pub smooth_refusal: u64,
    /// As [`answer_words`] has it; zeros where the filter is refused.
    pub answer: [u64; ANSWER],
    pub written: [Vec<u64>; SMOOTH_PARTS],
}

/// All cases of a file.
pub fn read(bytes: &[u8]) -> Result<Vec<Filed>, String> {
    if bytes.len() % 8 != 0 {
        return Err("not a whole number of words".into());
    }
    let words: Vec<u64> = bytes
        .chunks_exact(8)
        .map(|b| u64::from_be_bytes(b.try_into().unwrap()))
        .collect();
    let bounds = [MAX_CASE_WORDS, MAX_LIST, MAX_PART].map(|k| k as u64);
    if words.len() < HEADER_WORDS || words[0] != MAGIC || words[2..HEADER_WORDS] != bounds {
        return Err("not a case file".into());
    }
    let mut at = HEADER_WORDS;
    let mut cases = Vec::new();
    for k in 0..words[1] {
        let len = *words.get(at).ok_or("too few cases")? as usize;
        if len > MAX_CASE_WORDS || at + len > words.len() {
            return Err(format!("case {k}: length"));
        }
        cases.push(read_case(&words[at..at + len]).map_err(|e| format!("case {k}: {e}"))?);
        at += len;
    }
    if at != words.len() {
        return Err("words past the last case".into());
    }
    Ok(cases)
}

fn read_case(w: &[u64]) -> Result<Filed, String> {
    if w.len() < HEAD_WORDS {
        return Err("no head".into());
    }
    let mut at = HEAD_WORDS;
    let mut next = |len: u64| -> Result<&[u64], String> {
        let part = w.get(at..at + len as usize).ok_or("a part")?;
        at += len as usize;
        Ok(part)
    };
    let mut inputs: [&[u64]; INPUTS] = [&[]; INPUTS];
    for k in 0..INPUTS {
        inputs[k] = next(w[INPUTS_AT + k])?;
    }
    let mut written: [Vec<u64>; SMOOTH_PARTS] = Default::default();
    for k in 0..SMOOTH_PARTS {
        written[k] = next(w[COUNTS_AT + k])?.to_vec();
    }
    if at != w.len() {
        return Err("words past the last part".into());
    }
    let f = |k: usize| -> Vec<f64> { inputs[k].iter().map(|&b| f64::from_bits(b)).collect() };
    let case = Case {
        p: w[2] as usize,
        m: w[3] as usize,
        r: w[4] as usize,
        n: w[5] as usize,
        z: f(0),
        zs: f(1),
        repeats: w[REPEATS_AT] as u8,
        h: f(2),
        t: f(3),
        ts: f(4),
        rr: f(5),
        q: f(6),
        c: f(7),
        d: f(8),
        a1: f(9),
        p_star: f(10),
        flags: inputs[11].iter().map(|&b| b as u8).collect(),
        y: f(12),
        lent: std::array::from_fn(|k| w[LENT_AT + k] as usize),
        pair: None,
    };
    Ok(Filed {
        case,
        marks: w[1],
        filter_refusal: w[REFUSALS_AT],
        smooth_refusal: w[REFUSALS_AT + 1],
        answer: std::array::from_fn(|k| w[ANSWER_AT + k]),
        written,
    })
}

fn check_answer(refusal: u64, answer: &[u64; ANSWER], got: &Outcome) -> Result<(), String> {
    let got = match got {
        Ok(a) => (0, answer_words(a)),
        Err(k) => (u64::from(*k), *answer),
    };
    if got != (refusal, *answer) {
        return Err(format!("answer {got:?}, expected {refusal} {answer:?}"));
    }
    Ok(())
}

/// The parts after a call: what it wrote, and the pattern in all the rest.
fn check_parts(c: &Filed, refusal: u64, count: usize, b: &Buffers) -> Result<(), String> {
    let wrote = refusal == 0 || refusal == 12;
    for k in 0..SMOOTH_PARTS {
        let pattern = if k == 5 {
            u64::from(PATTERN_BYTE)
        } else {
            PATTERN
        };
        let want: &[u64] = if wrote && k < count {
            &c.written[k]
        } else {
            &[]
        };
        for (place, got) in b.words(k).into_iter().enumerate() {
            let ok = match want.get(place) {
                Some(&w) => one_nan(got) == w,
                None => got == pattern,
            };
            if !ok {
                return Err(format!("{}[{place}] is {got:016x}", OUTPUT_NAMES[k]));
            }
        }
    }
    Ok(())
}

/// Makes both calls of one case.
pub fn replay_case(c: &Filed, calls: &mut impl Calls) -> Result<(), String> {
    let i = c.case.inputs();
    let mut b = Buffers::patterned(&c.case.lent);
    let got = calls.filter(&i, &mut b.lend().0);
    check_answer(c.filter_refusal, &c.answer, &got).map_err(|e| format!("filter: {e}"))?;
    check_parts(c, c.filter_refusal, FILTER_PARTS, &b).map_err(|e| format!("filter: {e}"))?;

    let mut b = Buffers::patterned(&c.case.lent);
    let (mut o, mut s) = b.lend();
    let got = calls.smooth(&i, &mut o, &mut s);
    check_answer(c.smooth_refusal, &c.answer, &got).map_err(|e| format!("smoother: {e}"))?;
    check_parts(c, c.smooth_refusal, SMOOTH_PARTS, &b).map_err(|e| format!("smoother: {e}"))
}

/// All cases of a file; the count of them.
pub fn replay(bytes: &[u8], calls: &mut impl Calls) -> Result<usize, String> {
    let cases = read(bytes)?;
    for (k, c) in cases.iter().enumerate() {
        replay_case(c, calls).map_err(|e| format!("case {k}: {e}"))?;
    }
    Ok(cases.len())
}

/// `oracle replay FILE`.
pub fn command(path: &str) -> Result<(), String> {
    let bytes = std::fs::read(path).map_err(|e| e.to_string())?;
    println!("{} cases, all as expected", replay(&bytes, &mut Oracle)?);
    Ok(())
}
