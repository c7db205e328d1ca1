//! A run between two periods, and its bytes (document 02, requests e and h):
//! the encoder, the decoder, and refusal 15. Written from document 02 alone.

use crate::MAX_PERIODS;

/// What a run carries from one period to the next. Matrices are row by row,
/// m by m.
#[derive(Debug, Clone)]
pub struct Carried {
    /// Periods done since the run began.
    pub done: usize,
    pub mean: Vec<f64>,
    pub star: Vec<f64>,
    pub p_inf: Vec<f64>,
    /// One column per flagged state; the spare ones are +0.0.
    pub root: Vec<f64>,
    pub unresolved: Vec<f64>,
    pub loglik: f64,
    pub d_diffuse: usize,
    pub heard: usize,
    pub news: usize,
    /// Whether the diffuse state lasts.
    pub live: bool,
    /// The first period done with a covariance that is not finite, plus 1,
    /// or 0 for none; and the same of the means.
    pub cov_off: usize,
    pub mean_off: usize,
}

/// Every NaN of a saved run.
pub const SAVED_NAN: u64 = 0x7FF8_0000_0000_0000;

/// Counts of numbers in the eight sections, in order: sizes, mean,
/// covariance, diffuse covariance, diffuse root, unresolved matrix,
/// likelihood, tallies.
pub fn section_counts(m: usize) -> [usize; 8] {
    [4, m, m * m, m * m, m * m, m * m, 1, 6]
}

/// Bytes of a saved run.
pub fn saved_len(m: usize) -> usize {
    120 + 8 * m + 32 * m * m
}

fn bits(x: f64) -> u64 {
    if x.is_nan() {
        SAVED_NAN
    } else {
        x.to_bits()
    }
}

/// The bytes of a run.
pub fn encode(p: usize, m: usize, r: usize, c: &Carried) -> Vec<u8> {
    let floats = |x: &[f64]| x.iter().map(|&v| bits(v)).collect();
    let whole = |x: &[usize]| x.iter().map(|&v| v as u64).collect();
    let tallies = [
        c.d_diffuse,
        c.heard,
        c.news,
        usize::from(c.live),
        c.cov_off,
        c.mean_off,
    ];
    let sections: [Vec<u64>; 8] = [
        whole(&[p, m, r, c.done]),
        floats(&c.mean),
        floats(&c.star),
        floats(&c.p_inf),
        floats(&c.root),
        floats(&c.unresolved),
        floats(&[c.loglik]),
        whole(&tallies),
    ];
    let mut bytes = Vec::with_capacity(saved_len(m));
    for numbers in sections {
        bytes.extend((numbers.len() as u32).to_be_bytes());
        bytes.extend(numbers.iter().flat_map(|v| v.to_be_bytes()));
    }
    bytes
}

/// The run that these bytes hold, for a call of these sizes; none where they
/// are refused (15).
pub fn decode(p: usize, m: usize, r: usize, n: usize, bytes: &[u8]) -> Option<Carried> {
    let mut rest = bytes;
    let mut sections: [Vec<u64>; 8] = Default::default();
    for (numbers, count) in sections.iter_mut().zip(section_counts(m)) {
        let (head, tail) = rest.split_first_chunk::<4>()?;
        if u32::from_be_bytes(*head) as usize != count || tail.len() < count * 8 {
            return None;
        }
        let (own, others) = tail.split_at(count * 8);
        let word = |b: &[u8]| b.iter().fold(0, |v, &byte| v << 8 | u64::from(byte));
        *numbers = own.chunks_exact(8).map(word).collect();
        rest = others;
    }
    if !rest.is_empty() {
        return None;
    }
    let [sizes, mean, star, p_inf, root, unresolved, likelihood, tallies] = sections;
    // In 128 bits no sum and no product overflows.
    let wide = |v: u64| u128::from(v);
    let done = wide(sizes[3]);
    if sizes[..3] != [p as u64, m as u64, r as u64] || done + n as u128 > MAX_PERIODS as u128 {
        return None;
    }
    let [d_diffuse, heard, news, state, cov_off, mean_off] =
        std::array::from_fn(|place| tallies[place]);
    if wide(d_diffuse) > done || wide(heard) > done * p as u128 || news > heard || state > 1 {
        return None;
    }
    if wide(cov_off) > done || wide(mean_off) > done {
        return None;
    }
    let floats = |numbers: &[u64]| -> Option<Vec<f64>> {
        let fits = |&v: &u64| v == SAVED_NAN || !f64::from_bits(v).is_nan();
        let all = numbers.iter().all(fits);
        all.then(|| numbers.iter().map(|&v| f64::from_bits(v)).collect())
    };
    Some(Carried {
        done: done as usize,
        mean: floats(&mean)?,
        star: floats(&star)?,
        p_inf: floats(&p_inf)?,
        root: floats(&root)?,
        unresolved: floats(&unresolved)?,
        loglik: floats(&likelihood)?[0],
        d_diffuse: d_diffuse as usize,
        heard: heard as usize,
        news: news as usize,
        live: state == 1,
        cov_off: cov_off as usize,
        mean_off: mean_off as usize,
    })
}

#[cfg(test)]
mod tests {
    use super::*;

    /// One state, two elements, 300 periods done; the bytes by hand.
    #[rustfmt::skip]
    const EXAMPLE: [u8; 160] = [
        0, 0, 0, 4,
        0, 0, 0, 0, 0, 0, 0, 2,
        0, 0, 0, 0, 0, 0, 0, 1,
        0, 0, 0, 0, 0, 0, 0, 3,
        0, 0, 0, 0, 0, 0, 1, 0x2C,
        0, 0, 0, 1, 0x3F, 0xF0, 0, 0, 0, 0, 0, 0,
        0, 0, 0, 1, 0x3F, 0xE0, 0, 0, 0, 0, 0, 0,
        0, 0, 0, 1, 0, 0, 0, 0, 0, 0, 0, 1,
        0, 0, 0, 1, 0x80, 0, 0, 0, 0, 0, 0, 0,
        0, 0, 0, 1, 0x7F, 0xF0, 0, 0, 0, 0, 0, 0,
        0, 0, 0, 1, 0x7F, 0xF8, 0, 0, 0, 0, 0, 0,
        0, 0, 0, 6,
        0, 0, 0, 0, 0, 0, 0, 1,
        0, 0, 0, 0, 0, 0, 1, 3,
        0, 0, 0, 0, 0, 0, 0, 2,
        0, 0, 0, 0, 0, 0, 0, 0,
        0, 0, 0, 0, 0, 0, 1, 0x2B,
        0, 0, 0, 0, 0, 0, 0, 5,
    ];

    fn example() -> Carried {
        Carried {
            done: 300,
            mean: vec![1.0],
            star: vec![0.5],
            p_inf: vec![f64::from_bits(1)],
            root: vec![-0.0],
            unresolved: vec![f64::INFINITY],
            loglik: f64::from_bits(0xFFF0_0000_0000_0001),
            d_diffuse: 1,
            heard: 259,
            news: 2,
            live: false,
            cov_off: 299,
            mean_off: 5,
        }
    }

    #[test]
    fn the_example_is_these_bytes() {
        assert_eq!(encode(2, 1, 3, &example()), EXAMPLE);
        assert_eq!(saved_len(1), EXAMPLE.len());
        assert_eq!(saved_len(8), 2232);
    }

    #[test]
    fn what_is_decoded_encodes_to_the_same_bytes() {
        for n in [0, 1, 3796] {
            let c = decode(2, 1, 3, n, &EXAMPLE).unwrap();
            assert_eq!(encode(2, 1, 3, &c), EXAMPLE);
        }
    }

    #[test]
    fn each_fault_is_refused() {
        let bad = |p, m, r, n, bytes: &[u8]| decode(p, m, r, n, bytes).is_none();
        assert!(bad(2, 1, 3, 3797, &EXAMPLE));
        assert!(bad(1, 1, 3, 0, &EXAMPLE) && bad(2, 1, 2, 0, &EXAMPLE));
        assert!(bad(2, 2, 3, 0, &EXAMPLE));
        assert!(bad(2, 1, 3, 0, &EXAMPLE[..159]) && bad(2, 1, 3, 0, &[]));
        assert!(bad(2, 1, 3, 0, &[&EXAMPLE[..], &[0]].concat()));
        let with = |at: usize, number: u64| {
            let mut bytes = EXAMPLE;
            bytes[at..at + 8].copy_from_slice(&number.to_be_bytes());
            decode(2, 1, 3, 0, &bytes).is_some()
        };
        // The tallies stand from 112 on: at the bound, past it.
        assert!(with(112, 300) && !with(112, 301) && !with(112, u64::MAX));
        assert!(with(120, 600) && !with(120, 601) && !with(120, 1) && !with(120, 1 << 63));
        assert!(with(128, 259) && !with(128, 260));
        assert!(with(136, 1) && !with(136, 2) && !with(136, 1 << 32));
        for at in [144, 152] {
            assert!(with(at, 0) && with(at, 1) && with(at, 300));
            assert!(!with(at, 301) && !with(at, 1 << 32) && !with(at, u64::MAX));
        }
        // Periods done, at 28: as many as there may be, too many, few.
        assert!(with(28, 4096) && !with(28, 4097) && !with(28, u64::MAX) && !with(28, 129));
        assert!(with(28, 299) && !with(28, 298));
        for at in [40, 52, 64, 76, 88, 100] {
            assert!(with(at, SAVED_NAN) && with(at, 0xFFF0_0000_0000_0000));
            assert!(!with(at, 0xFFF8_0000_0000_0000) && !with(at, 0x7FF0_0000_0000_0001));
            assert!(!with(at, SAVED_NAN + 1));
        }
    }
}
