//! The case file: see FORMAT.md.

use parts::SMOOTH_PARTS;

use crate::case::{answer_words, Case, Expected, ANSWER, INPUTS, INPUT_NAMES};

/// First word of a file: "GOXCASE4".
pub const MAGIC: u64 = 0x474F_5843_4153_4534;
/// Words of the file's header.
pub const HEADER_WORDS: usize = 5;
/// Where the marker stands in a case, and where the lengths of the inputs do.
pub const REPEATS_AT: usize = 6;
pub const INPUTS_AT: usize = 7;
/// Where the lengths lent stand.
pub const LENT_AT: usize = INPUTS_AT + INPUTS;
/// Where the two refusals stand.
pub const REFUSALS_AT: usize = LENT_AT + SMOOTH_PARTS;
/// Where the answer stands in a case.
pub const ANSWER_AT: usize = REFUSALS_AT + 2;
/// Where the counts of what is written stand in a case.
pub const COUNTS_AT: usize = ANSWER_AT + ANSWER;
/// Words of a case before its inputs.
pub const HEAD_WORDS: usize = COUNTS_AT + SMOOTH_PARTS;
/// No case has more words.
pub const MAX_CASE_WORDS: usize = 8_192;
/// Neither list, of designs or of transitions, has more places.
pub const MAX_LIST: usize = 4_097;
/// No other part, input or output, has more places.
pub const MAX_PART: usize = 1_024;

/// The file's header: magic, count of cases, the three bounds.
pub fn header(count: u64) -> Vec<u8> {
    let bounds = [MAX_CASE_WORDS, MAX_LIST, MAX_PART].map(|k| k as u64);
    let words = [MAGIC, count, bounds[0], bounds[1], bounds[2]];
    words.iter().flat_map(|w| w.to_be_bytes()).collect()
}

/// Turns cases into bytes, and keeps to the bounds.
#[derive(Default)]
pub struct Writer {
    bytes: Vec<u8>,
    pub largest_case: usize,
    pub largest_part: usize,
    pub total: usize,
}

impl Writer {
    pub fn new() -> Self {
        Writer {
            total: HEADER_WORDS * 8,
            ..Writer::default()
        }
    }

    /// One case as bytes.
    pub fn case(&mut self, case: &Case, e: &Expected) -> &[u8] {
        let words = words(case, e);
        let listed = |name: &str| matches!(name, "zs" | "ts");
        let (mut part, mut list) = (0, 0);
        for (name, input) in INPUT_NAMES.into_iter().zip(case.input_words()) {
            let most = if listed(name) { &mut list } else { &mut part };
            *most = input.len().max(*most);
        }
        part = case.lent.into_iter().fold(part, usize::max);
        assert!(
            words.len() <= MAX_CASE_WORDS,
            "case of {} words",
            words.len()
        );
        assert!(part <= MAX_PART, "part of {part} places");
        assert!(list <= MAX_LIST, "list of {list} places");
        self.largest_case = self.largest_case.max(words.len());
        self.largest_part = self.largest_part.max(part);
        self.total += 8 * words.len();
        self.bytes = words.iter().flat_map(|w| w.to_be_bytes()).collect();
        &self.bytes
    }
}

/// One case as words.
pub fn words(case: &Case, e: &Expected) -> Vec<u64> {
    let inputs = case.input_words();
    let mut w = vec![0];
    w.push(mask(e));
    w.extend([case.p, case.m, case.r, case.n].map(|k| k as u64));
    w.push(u64::from(case.repeats));
    w.extend(inputs.iter().map(|x| x.len() as u64));
    w.extend(case.lent.map(|k| k as u64));
    w.push(u64::from(e.filter.err().unwrap_or(0)));
    w.push(u64::from(e.smooth.err().unwrap_or(0)));
    w.extend(e.filter.map_or([0; ANSWER], |a| answer_words(&a)));
    for k in 0..SMOOTH_PARTS {
        w.push(e.written[k].len() as u64);
    }
    assert_eq!(w.len(), HEAD_WORDS);
    for x in inputs.iter().chain(&e.written) {
        w.extend_from_slice(x);
    }
    w[0] = w.len() as u64;
    w
}

/// The marks of a case, as bits.
pub fn mask(e: &Expected) -> u64 {
    (0..e.hits.len()).fold(0, |m, k| m | u64::from(e.hits[k] > 0) << k)
}
