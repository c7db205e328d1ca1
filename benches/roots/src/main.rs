//! Compares the proved functions on doubles with outside reckonings, bit for bit, and times the root and the logarithm.
//!
//! usage: roots-bench [check | time]
mod outside;

use std::hint::black_box;
use std::time::Instant;

use tsecon_linalg::ln as oracle_ln;

extern "C" {
    fn leaf_abs(x: f64) -> f64;
    fn leaf_max0(x: f64) -> f64;
    fn leaf_sqrt(x: f64) -> f64;
    fn leaf_ln(x: f64) -> f64;
    fn leaf_ln_two_pi() -> f64;
    fn leaf_is_nan(x: f64) -> bool;
    fn leaf_is_infinite(x: f64) -> bool;
    fn leaf_is_finite(x: f64) -> bool;
}

const PATTERNS: usize = 100_000;

struct Random(u64);

impl Random {
    fn next(&mut self) -> u64 {
        self.0 ^= self.0 << 13;
        self.0 ^= self.0 >> 7;
        self.0 ^= self.0 << 17;
        self.0
    }
}

/// Bit patterns where something changes: zeros, subnormals, every power of two, squares, halves of the logarithm's range, infinities, NaNs; with their neighbours and of both signs.
fn edges() -> Vec<u64> {
    let mut at = vec![0, 1, 2, 3, 0x000F_FFFF_FFFF_FFFF, 0x0010_0000_0000_0000, 0x7FEF_FFFF_FFFF_FFFF, 0x7FF0_0000_0000_0000, 0x7FF8_0000_0000_0000, 0x7FFF_FFFF_FFFF_FFFF];
    for k in 0..52 {
        at.push(1 << k);
        at.push((1 << k) | 1);
    }
    for field in 0..2047u64 {
        at.push(field << 52);
        at.push((field << 52) | 1 << 51);
    }
    for n in 1..2000u64 {
        at.push(((n * n) as f64).to_bits());
        at.push((n as f64).to_bits());
        at.push((1.0 / n as f64).to_bits());
    }
    // squares of 26 and 27 digits, and roots that lie close to half way between two doubles
    let mut random = Random(0x9E37_79B9_7F4A_7C15);
    for _ in 0..2000 {
        let root = (random.next() >> 38) as f64;
        at.push((root * root).to_bits());
        let wide = random.next() >> 11 | 1 << 52;
        let square = (2 * wide as u128 + 1).pow(2);
        at.push((square as f64).to_bits());
    }
    let mut all = Vec::new();
    for b in at {
        for near in [b.wrapping_sub(1), b, b.wrapping_add(1)] {
            all.push(near);
            all.push(near ^ 1 << 63);
        }
    }
    all
}

/// Two answers are the same where their bits are, or where both are NaNs.
fn same(a: f64, b: f64) -> bool {
    a.to_bits() == b.to_bits() || (a.is_nan() && b.is_nan())
}

fn differ(name: &str, patterns: &[u64], proved: impl Fn(f64) -> f64, outside: impl Fn(f64) -> f64) -> usize {
    let mut count = 0;
    for &b in patterns {
        let x = f64::from_bits(b);
        let (got, want) = (proved(x), outside(x));
        if !same(got, want) {
            count += 1;
            if count <= 5 {
                println!("{name} of {b:016X}: {:016X}, outside {:016X}", got.to_bits(), want.to_bits());
            }
        }
    }
    count
}

fn number(b: bool) -> f64 {
    b as u8 as f64
}

fn check() -> bool {
    let mut random = Random(88_172_645_463_325_252);
    let mut patterns: Vec<u64> = (0..PATTERNS).map(|_| random.next()).collect();
    // as many above zero, and as many subnormals
    patterns.extend((0..PATTERNS).map(|_| random.next() >> 1));
    patterns.extend((0..PATTERNS).map(|_| random.next() >> 12));
    let sides = edges();
    patterns.extend(&sides);
    let rows = [
        differ("sqrt", &patterns, |x| unsafe { leaf_sqrt(x) }, outside::sqrt),
        differ("sqrt", &patterns, |x| unsafe { leaf_sqrt(x) }, f64::sqrt),
        differ("ln", &patterns, |x| unsafe { leaf_ln(x) }, oracle_ln),
        differ("abs", &patterns, |x| unsafe { leaf_abs(x) }, f64::abs),
        differ("max0", &patterns, |x| unsafe { leaf_max0(x) }, |x| if x > 0.0 { x } else { 0.0 }),
        differ("is_nan", &patterns, |x| number(unsafe { leaf_is_nan(x) }), |x| number(x.is_nan())),
        differ("is_infinite", &patterns, |x| number(unsafe { leaf_is_infinite(x) }), |x| number(x.is_infinite())),
        differ("is_finite", &patterns, |x| number(unsafe { leaf_is_finite(x) }), |x| number(x.is_finite())),
        differ("ln 2π", &[0x4019_21FB_5444_2D18], |_| unsafe { leaf_ln_two_pi() }, oracle_ln),
    ];
    let count: usize = rows.iter().sum();
    println!(
        "sqrt, ln, abs, max0 and the tests on {} random patterns and {} edges: {count} differ",
        patterns.len() - sides.len(),
        sides.len()
    );
    count == 0
}

/// The least time of a call in 60 runs over the inputs, in nanoseconds: calls that do not wait for each other, and calls that do.
fn time(xs: &[f64], f: impl Fn(f64) -> f64) -> (f64, f64) {
    let mut out = vec![0.0; xs.len()];
    let (mut apart, mut chained) = (f64::MAX, f64::MAX);
    for _ in 0..60 {
        let start = Instant::now();
        for (o, &x) in out.iter_mut().zip(xs) {
            *o = f(x);
        }
        black_box(&out);
        apart = apart.min(start.elapsed().as_nanos() as f64);
        let start = Instant::now();
        let mut last = 0.0f64;
        for &x in xs {
            last = f(f64::from_bits(x.to_bits() | last.to_bits() & 1));
        }
        black_box(last);
        chained = chained.min(start.elapsed().as_nanos() as f64);
    }
    (apart / xs.len() as f64, chained / xs.len() as f64)
}

fn row(name: &str, proved: (f64, f64), plain: (f64, f64)) {
    println!(
        "{name}: {:.2} ns, plain {:.2} ns, ratio {:.2}; each waiting for the last: {:.2} ns, plain {:.2} ns, ratio {:.2}",
        proved.0,
        plain.0,
        proved.0 / plain.0,
        proved.1,
        plain.1,
        proved.1 / plain.1
    );
}

#[inline(never)]
fn plain_sqrt(x: f64) -> f64 {
    x.sqrt()
}

fn times() {
    // from 2^-20 up to 2^20
    let mut random = Random(88_172_645_463_325_252);
    let xs: Vec<f64> = (0..1 << 16)
        .map(|_| {
            let b = random.next();
            f64::from_bits(b >> 12 | (1003 + b % 40) << 52)
        })
        .collect();
    let sqrt = time(&xs, |x| unsafe { leaf_sqrt(x) });
    row("sqrt, against a call of the instruction", sqrt, time(&xs, plain_sqrt));
    row("sqrt, against the instruction, two at a time", sqrt, time(&xs, f64::sqrt));
    row("ln", time(&xs, |x| unsafe { leaf_ln(x) }), time(&xs, oracle_ln));
}

fn main() {
    let word = std::env::args().nth(1).unwrap_or_default();
    if word != "time" && !check() {
        std::process::exit(1);
    }
    if word != "check" {
        times();
    }
}
