//! All that one call is lent, in one stretch of memory: the inputs, the outputs and the answer's places, each between two guard zones. Two such
//! stretches after two calls are compared word by word, so that nothing can change unseen: no tail, no guard, no input, no place of a refused answer.

use oracle::case::{answer_words, one_nan, Case, ANSWER, INPUTS, INPUT_NAMES, OUTPUT_NAMES};
use oracle::{filter_call, saved_len, smooth_call, stretch_call, Inputs, Outputs, Smoothed, Stretch};

use crate::library::{self, Call};

/// Words of a guard zone.
const GUARD: usize = 4;
pub const OUTPUTS: usize = 13;
/// Past the inputs, the outputs and the answer: the bytes that a stretch goes on from, and those that it saves.
const PARTS: usize = INPUTS + OUTPUTS + ANSWER + 2;
const ANSWER_NAMES: [&str; ANSWER] = ["the log-likelihood", "d_diffuse", "heard", "news", "cov_off", "mean_off"];

/// Numbers of parts, the inputs first, then the outputs, then the answer's places, then a stretch's bytes.
pub const T: usize = 3;
pub const TS: usize = 4;
pub const C: usize = 7;
pub const D: usize = 8;
pub const A1: usize = 9;
pub const FLAGS: usize = 11;
pub const Y: usize = 12;
pub const PRED_MEAN: usize = INPUTS;
pub const FILT_MEAN: usize = INPUTS + 3;
pub const KINDS: usize = INPUTS + 5;
pub const V: usize = INPUTS + 6;
pub const F_STAR: usize = INPUTS + 7;
pub const F_INF: usize = INPUTS + 8;
pub const M_STAR: usize = INPUTS + 9;
pub const M_INF: usize = INPUTS + 10;
pub const SM_MEAN: usize = INPUTS + 11;
pub const LOGLIK: usize = INPUTS + OUTPUTS;
pub const D_DIFFUSE: usize = LOGLIK + 1;
pub const HEARD: usize = LOGLIK + 2;
pub const NEWS: usize = LOGLIK + 3;
pub const COV_OFF: usize = LOGLIK + 4;
pub const MEAN_OFF: usize = LOGLIK + 5;
pub const SAVED: usize = LOGLIK + ANSWER;
pub const SAVE: usize = SAVED + 1;

/// Where a part starts, in words and bytes more, and how many places it has.
#[derive(Debug, Clone, Copy, Default)]
struct Part {
    at: usize,
    shift: usize,
    len: usize,
}

/// What a stretch is handed and lent besides: the markers, the saved bytes, and how many bytes there are to save in.
#[derive(Debug, Clone, Copy, Default)]
pub struct Ask<'a> {
    pub begins: u8,
    pub saved: &'a [u8],
    pub last: u8,
    pub room: usize,
}

/// What a call is handed: each part as pointer and length.
#[derive(Debug, Clone, Copy)]
pub struct Args {
    pub sizes: [usize; 4],
    pub repeats: u8,
    pub inputs: [(*mut u64, usize); INPUTS],
    pub outputs: [(*mut u64, usize); OUTPUTS],
    pub answer: [*mut u64; ANSWER],
    pub begins: u8,
    pub saved: (*mut u8, usize),
    pub last: u8,
    pub save: (*mut u8, usize),
}

#[derive(Debug, Clone)]
pub struct Lent {
    sizes: [usize; 4],
    repeats: u8,
    begins: u8,
    last: u8,
    parts: [Part; PARTS],
    words: Vec<u64>,
}

fn is_bytes(part: usize) -> bool {
    matches!(part, FLAGS | KINDS | SAVED | SAVE)
}

fn is_input(part: usize) -> bool {
    part < INPUTS || part == SAVED
}

fn words_of(part: usize, shift: usize, len: usize) -> usize {
    if is_bytes(part) {
        (shift + len).div_ceil(8)
    } else {
        len
    }
}

/// What stands in word `k` before a call: all different, so that a shifted copy shows, and by `fill`, so that what was there before can't matter
/// unseen.
fn filling(fill: u64, k: usize) -> u64 {
    let z = (fill ^ k as u64).wrapping_mul(0x9E37_79B9_7F4A_7C15);
    (z ^ (z >> 29)).wrapping_mul(0xBF58_476D_1CE4_E5B9)
}

impl Lent {
    /// A case's inputs, and outputs of the lengths that it lends.
    pub fn of(case: &Case, fill: u64) -> Self {
        Self::new(&case.inputs(), &case.lent, &Ask::default(), fill)
    }

    /// These inputs, outputs of the lengths `lent`, and what a stretch has besides. Its bytes start anywhere in a word.
    pub fn new(i: &Inputs<'_>, lent: &[usize; OUTPUTS], ask: &Ask<'_>, fill: u64) -> Self {
        #[rustfmt::skip]
        let floats: [&[f64]; INPUTS] = [i.z, i.zs, i.h, i.t, i.ts, i.rr, i.q, i.c, i.d, i.a1, i.p_star, &[], i.y];
        let mut parts = [Part::default(); PARTS];
        let mut at = GUARD;
        for (k, part) in parts.iter_mut().enumerate() {
            let len = match k {
                FLAGS => i.flags.len(),
                SAVED => ask.saved.len(),
                SAVE => ask.room,
                _ if k < INPUTS => floats[k].len(),
                _ if k < INPUTS + OUTPUTS => lent[k - INPUTS],
                _ => 1,
            };
            let shift = match k {
                SAVED | SAVE if len > 0 => (fill >> (8 * (k - SAVED))) as usize % 8,
                _ => 0,
            };
            *part = Part { at, shift, len };
            at += words_of(k, shift, len) + GUARD;
        }
        let mut words: Vec<u64> = (0..at).map(|k| filling(fill, k)).collect();
        for (k, x) in floats.iter().enumerate() {
            for (place, v) in x.iter().enumerate() {
                words[parts[k].at + place] = v.to_bits();
            }
        }
        let mut lent = Lent { sizes: [i.p, i.m, i.r, i.n], repeats: i.repeats, begins: ask.begins, last: ask.last, parts, words };
        lent.bytes_mut(FLAGS).copy_from_slice(i.flags);
        lent.bytes_mut(SAVED).copy_from_slice(ask.saved);
        lent
    }

    fn pointer(&mut self, part: usize) -> *mut u64 {
        unsafe { self.words.as_mut_ptr().add(self.parts[part].at) }
    }

    fn byte_pointer(&mut self, part: usize) -> *mut u8 {
        unsafe { self.pointer(part).cast::<u8>().add(self.parts[part].shift) }
    }

    pub fn bytes_mut(&mut self, part: usize) -> &mut [u8] {
        let len = self.parts[part].len;
        unsafe { std::slice::from_raw_parts_mut(self.byte_pointer(part), len) }
    }

    /// Writes words to a part, from a place on: one a place.
    pub fn put(&mut self, part: usize, place: usize, words: &[u64]) {
        assert!(place + words.len() <= self.parts[part].len);
        if is_bytes(part) {
            let bytes = &mut self.bytes_mut(part)[place..];
            bytes.iter_mut().zip(words).for_each(|(byte, &word)| *byte = word as u8);
        } else {
            let at = self.parts[part].at + place;
            self.words[at..at + words.len()].copy_from_slice(words);
        }
    }

    pub fn args(&mut self) -> Args {
        Args {
            sizes: self.sizes,
            repeats: self.repeats,
            inputs: std::array::from_fn(|k| (self.pointer(k), self.parts[k].len)),
            outputs: std::array::from_fn(|k| (self.pointer(INPUTS + k), self.parts[INPUTS + k].len)),
            answer: std::array::from_fn(|k| self.pointer(INPUTS + OUTPUTS + k)),
            begins: self.begins,
            saved: (self.byte_pointer(SAVED), self.parts[SAVED].len),
            last: self.last,
            save: (self.byte_pointer(SAVE), self.parts[SAVE].len),
        }
    }

    /// The library's call: 0, or the refusal's number.
    pub fn library(&mut self, which: Call) -> u32 {
        let args = self.args();
        unsafe { library::call(which, &args) }
    }

    /// The same with none of this input part handed in, though it is lent: so that all else lies where it lies with it.
    pub fn library_without(&mut self, which: Call, part: usize) -> u32 {
        let mut args = self.args();
        args.inputs[part].1 = 0;
        unsafe { library::call(which, &args) }
    }

    /// The oracle's call on the same parts, its answer in the same places.
    pub fn oracle(&mut self, which: Call) -> u32 {
        self.oracle_from(which, None)
    }

    /// The same; where `other` is given, a stretch goes on from these bytes instead.
    pub fn oracle_from(&mut self, which: Call, other: Option<&[u8]>) -> u32 {
        let [p, m, r, n] = self.sizes;
        let a = self.args();
        // The parts do not overlap, and nothing else looks at them meanwhile.
        let x = |k: usize| unsafe { std::slice::from_raw_parts(a.inputs[k].0.cast::<f64>(), a.inputs[k].1) };
        let flags = unsafe { std::slice::from_raw_parts(a.inputs[FLAGS].0.cast::<u8>(), a.inputs[FLAGS].1) };
        let o = |k: usize| unsafe { std::slice::from_raw_parts_mut(a.outputs[k].0.cast::<f64>(), a.outputs[k].1) };
        let kinds = unsafe { std::slice::from_raw_parts_mut(a.outputs[5].0.cast::<u8>(), a.outputs[5].1) };
        #[rustfmt::skip]
        let i = Inputs {
            p, m, r, n, z: x(0), zs: x(1), repeats: a.repeats, h: x(2), t: x(T), ts: x(TS), rr: x(5), q: x(6), c: x(C), d: x(D), a1: x(A1),
            p_star: x(10), flags, y: x(Y),
        };
        #[rustfmt::skip]
        let mut outputs = Outputs {
            pred_mean: o(0), pred_cov: o(1), pred_inf: o(2), filt_mean: o(3), filt_cov: o(4), kinds, v: o(6), f_star: o(7), f_inf: o(8),
            m_star: o(9), m_inf: o(10),
        };
        let outcome = match which {
            Call::Filter => filter_call(&i, &mut outputs),
            Call::Smooth => smooth_call(&i, &mut outputs, &mut Smoothed { sm_mean: o(11), sm_cov: o(12) }),
            Call::Stretch => {
                let lent = unsafe { std::slice::from_raw_parts(a.saved.0, a.saved.1) };
                let stretch = Stretch { begins: a.begins, saved: other.unwrap_or(lent), last: a.last };
                let save = unsafe { std::slice::from_raw_parts_mut(a.save.0, a.save.1) };
                stretch_call(&i, &stretch, &mut outputs, save)
            }
        };
        match outcome {
            Ok(answer) => {
                for (place, word) in a.answer.into_iter().zip(answer_words(&answer)) {
                    unsafe { place.write(word) };
                }
                0
            }
            Err(refusal) => refusal,
        }
    }

    /// Place `k` of a part.
    pub fn word(&self, part: usize, k: usize) -> u64 {
        let Part { at, shift, .. } = self.parts[part];
        if is_bytes(part) {
            let k = shift + k;
            u64::from(self.words[at + k / 8].to_ne_bytes()[k % 8])
        } else {
            self.words[at + k]
        }
    }

    /// The first places of a part.
    pub fn some(&self, part: usize, count: usize) -> Vec<u64> {
        assert!(count <= self.parts[part].len);
        (0..count).map(|k| self.word(part, k)).collect()
    }

    /// Whether the outputs have so many places, in order.
    pub fn holds(&self, need: &[usize]) -> bool {
        need.iter().zip(&self.parts[INPUTS..]).all(|(need, part)| *need <= part.len)
    }

    pub fn sizes(&self) -> [usize; 4] {
        self.sizes
    }

    /// Whether a stretch begins its run: any number but 0.
    pub fn begins(&self) -> u8 {
        self.begins
    }

    /// How many places of a part a call with this outcome writes.
    fn written(&self, which: Call, refusal: u32, part: usize) -> usize {
        let answer = INPUTS + OUTPUTS;
        match part {
            _ if is_input(part) => 0,
            SAVE if which == Call::Stretch && refusal == 0 && self.last == 0 => saved_len(self.sizes[1]),
            SAVE => 0,
            _ if part >= answer => usize::from(refusal == 0),
            _ if part - INPUTS >= which.outputs() || (refusal != 0 && refusal != 12) => 0,
            _ => oracle::needed(self.sizes[0], self.sizes[1], self.sizes[3])[part - INPUTS],
        }
    }

    /// The part of word `k` and the place in it; or the part before whose end guard it lies.
    fn find(&self, k: usize) -> Result<(usize, usize), usize> {
        let part = self.parts.iter().rposition(|p| p.at <= k).ok_or(0usize)?;
        let place = k - self.parts[part].at;
        if place < words_of(part, self.parts[part].shift, self.parts[part].len) {
            Ok((part, place))
        } else {
            Err(part)
        }
    }

    fn name(part: usize) -> &'static str {
        match part {
            SAVED => "saved",
            SAVE => "save",
            _ if part < INPUTS => INPUT_NAMES[part],
            _ if part < INPUTS + OUTPUTS => OUTPUT_NAMES[part - INPUTS],
            _ => ANSWER_NAMES[part - INPUTS - OUTPUTS],
        }
    }

    /// The first place where this differs from `wanted` after two calls with the same outcome. Where a call writes, all NaNs are one; all else is
    /// compared bit for bit. What a call writes to the parts `free` is not compared, nor an input among them.
    pub fn difference(&self, wanted: &Lent, which: Call, refusal: u32, free: &[usize]) -> Option<String> {
        assert_eq!(self.words.len(), wanted.words.len());
        (0..self.words.len()).filter(|&k| self.words[k] != wanted.words[k]).find_map(|k| {
            let (part, word) = match self.find(k) {
                Ok(found) => found,
                Err(part) => return Some(format!("the guard zone beside {} was written to", Self::name(part))),
            };
            let name = Self::name(part);
            let Part { shift, len, .. } = self.parts[part];
            let written = self.written(which, refusal, part);
            let byte = |k: usize| k.saturating_sub(shift).min(len);
            let places = if is_bytes(part) { byte(word * 8)..byte(word * 8 + 8) } else { word..word + 1 };
            let mut seen = 0;
            for place in places {
                let (found, want) = (self.word(part, place), wanted.word(part, place));
                if found == want {
                    continue;
                }
                seen += 1;
                let passes = if free.contains(&part) {
                    is_input(part) || place < written
                } else {
                    place < written && (part <= LOGLIK && !is_bytes(part)) && one_nan(found) == one_nan(want)
                };
                if !passes {
                    let where_ = match () {
                        _ if is_input(part) => "input ",
                        _ if place >= written => "untouched place ",
                        _ => "",
                    };
                    return Some(format!("{where_}{name}[{place}] is {found:016x}, wanted {want:016x}"));
                }
            }
            (seen == 0).then(|| format!("the guard zone beside {name} was written to"))
        })
    }
}
