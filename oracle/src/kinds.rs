//! What must hold of a call's records, whoever made it (document 02, request
//! a): the six counts add up to n·p, a gap stands exactly where the reading is
//! NaN, heard and news are counts of the kinds, and the numbers that a record
//! does not use are +0.0. By what is written and the readings alone: nothing
//! of a call's own reckoning is used.

use parts::{is_news, DIFFUSE, GAP, KINDS, KIND_NAMES, USUAL};

/// A call's records as words, kinds a word each: as much as is needed.
pub struct Records<'a> {
    pub kinds: &'a [u64],
    /// v, F*, F∞, M* and M∞.
    pub numbers: [&'a [u64]; 5],
}

/// Which of the five numbers a record of this kind uses.
fn used(kind: u8) -> [bool; 5] {
    match kind {
        USUAL => [true, true, false, true, false],
        DIFFUSE => [true; 5],
        _ => [false; 5],
    }
}

/// Whether the word is a kind that is no news.
pub fn is_skip(word: u64) -> bool {
    word < KINDS as u64 && !is_news(word as u8)
}

/// Whether no rule is broken with the other kind in place of the first: one
/// cause for another, or diffuse for usual. A comparison tells these apart.
pub fn alike(kind: u64, other: u64) -> bool {
    let is_cause = |word: u64| is_skip(word) && word != u64::from(GAP);
    is_cause(kind) && is_cause(other) || (kind, other) == (u64::from(USUAL), u64::from(DIFFUSE))
}

/// How often each kind stands there. A word that is none is not counted.
pub fn counts(kinds: &[u64]) -> [u64; KINDS] {
    std::array::from_fn(|k| kinds.iter().filter(|&&word| word == k as u64).count() as u64)
}

/// The first rule that an answered call breaks, over these n·p readings, of
/// which it says that so many are heard and so many are news. Of a stretch:
/// of its own readings.
pub fn broken(r: &Records<'_>, y: &[f64], heard: u64, news: u64) -> Option<String> {
    let counts = counts(r.kinds);
    if counts.iter().sum::<u64>() != y.len() as u64 {
        let named = KIND_NAMES.iter().zip(counts);
        let told: Vec<String> = named.map(|(name, k)| format!("{name} {k}")).collect();
        let places = y.len();
        return Some(format!("{}: not {places} in all", told.join(", ")));
    }
    let gap = |k: usize| (r.kinds[k] == u64::from(GAP)) == y[k].is_nan();
    if let Some(k) = (0..y.len()).find(|&k| !gap(k)) {
        return Some(format!("kind {} of reading {k}, {}", r.kinds[k], y[k]));
    }
    let [gaps, usual, diffuse, ..] = counts;
    if (y.len() as u64 - gaps, usual + diffuse) != (heard, news) {
        let told = format!("{gaps} gaps, {usual} usual, {diffuse} diffuse");
        return Some(format!(
            "heard is {heard}, news {news}, and there are {told}"
        ));
    }
    for (k, &kind) in r.kinds.iter().enumerate() {
        for (part, used) in r.numbers.iter().zip(used(kind as u8)) {
            let width = part.len() / r.kinds.len();
            let own = &part[k * width..(k + 1) * width];
            if !used && own.iter().any(|&word| word != 0) {
                return Some(format!("record {k}, kind {kind}, has {own:016x?}"));
            }
        }
    }
    None
}

/// What is not blank of the kinds of a call that is refused 12: all of them
/// are gaps, whatever was read.
pub fn not_blank(kinds: &[u64]) -> Option<String> {
    let gap = u64::from(GAP);
    let k = kinds.iter().position(|&word| word != gap)?;
    Some(format!("refused 12, and kind {k} is {}", kinds[k]))
}
