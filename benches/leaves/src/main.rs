// The proved kernels against the same plain loops in Rust, on the same inputs in one run: the bits of every result (all NaNs as one) and, of the kernels
// that tell it, the word whether all of it is finite; then nanoseconds a call and their ratio. And document 02's request l: two ways to a matrix, by the
// proved kernels and by plain loops, give one.
use std::collections::BTreeMap;
use std::hint::black_box;
use std::num::FpCategory;
use std::time::Instant;

type V = [f64; 8];
type M = [f64; 64];

extern "C" {
    fn leaf_dot(a: &V, b: &V, m: usize) -> f64;
    fn leaf_axpy(y: &mut V, s: f64, x: &V, m: usize) -> bool;
    fn leaf_mat_vec(a: &M, x: &V, m: usize, out: &mut V) -> bool;
    fn leaf_mat_t_vec(a: &M, x: &V, m: usize, out: &mut V);
    fn leaf_outer_sub(p: &mut M, a: &V, b: &V, m: usize) -> bool;
    fn leaf_product(a: &M, b: &M, m: usize, out: &mut M) -> bool;
    fn leaf_product_by(way: u8, a: &M, b: &M, m: usize, out: &mut M) -> bool;
    fn leaf_sandwich(t: &M, p: &M, m: usize, out: &mut M);
    fn leaf_abs_quad_form(z: &V, a: &M, m: usize) -> f64;
    fn leaf_frob_sq(a: &M, m: usize) -> f64;
    fn leaf_symmetrize(p: &mut M, m: usize);
    fn leaf_add(p: &mut M, q: &M, m: usize);
    fn leaf_transposed_product(a: &M, b: &M, r: usize, k: usize, c: usize, one: &mut M, other: &mut M);
    fn leaf_transposed_mul(a: &M, b: &M, m: usize, one: &mut M, other: &mut M);
    fn leaf_symmetrize_twice(p: &mut M, m: usize);
}

// The plain loops: dense.rs over arrays, with document 01's rules for the products.
mod plain {
    use super::{M, V};

    pub fn dot(a: &V, b: &V, m: usize) -> f64 {
        let mut s = 0.0;
        for i in 0..m {
            s += a[i] * b[i];
        }
        s
    }

    pub fn axpy(y: &mut V, s: f64, x: &V, m: usize) {
        for i in 0..m {
            y[i] += s * x[i];
        }
    }

    pub fn mat_t_vec(a: &M, x: &V, m: usize) -> V {
        let mut out = [0.0; 8];
        for j in 0..m {
            let mut s = 0.0;
            for i in 0..m {
                s += a[i * m + j] * x[i];
            }
            out[j] = s;
        }
        out
    }

    pub fn mat_vec(a: &M, x: &V, m: usize) -> V {
        let mut out = [0.0; 8];
        for j in 0..m {
            if x[j] != 0.0 {
                for i in 0..m {
                    out[i] += a[i * m + j] * x[j];
                }
            }
        }
        out
    }

    pub fn outer_sub(p: &mut M, a: &V, b: &V, m: usize) {
        for j in 0..m {
            if b[j] != 0.0 {
                for i in 0..m {
                    p[i * m + j] -= a[i] * b[j];
                }
            }
        }
    }

    pub fn product(a: &M, b: &M, m: usize) -> M {
        let mut out = [0.0; 64];
        for i in 0..m {
            for j in 0..m {
                let mut s = 0.0;
                for l in 0..m {
                    s += a[i * m + l] * b[l * m + j];
                }
                out[i * m + j] = s;
            }
        }
        out
    }

    // The same of r rows, k inner places and c columns. It serves where nothing is timed: with one caller more the compiler makes slower code of `product`.
    pub fn rect_product(a: &M, b: &M, r: usize, k: usize, c: usize) -> M {
        let mut out = [0.0; 64];
        for i in 0..r {
            for j in 0..c {
                let mut s = 0.0;
                for l in 0..k {
                    s += a[i * k + l] * b[l * c + j];
                }
                out[i * c + j] = s;
            }
        }
        out
    }

    pub fn transpose(a: &M, r: usize, c: usize) -> M {
        let mut out = [0.0; 64];
        for i in 0..c {
            for j in 0..r {
                out[i * r + j] = a[j * c + i];
            }
        }
        out
    }

    pub fn product_t(a: &M, b: &M, m: usize) -> M {
        let mut out = [0.0; 64];
        for i in 0..m {
            for j in 0..m {
                let mut s = 0.0;
                for l in 0..m {
                    s += a[i * m + l] * b[j * m + l];
                }
                out[i * m + j] = s;
            }
        }
        out
    }

    pub fn sandwich(t: &M, p: &M, m: usize) -> M {
        product_t(&product(t, p, m), t, m)
    }

    pub fn abs_quad_form(z: &V, a: &M, m: usize) -> f64 {
        let mut s = 0.0;
        for j in 0..m {
            if z[j] == 0.0 {
                continue;
            }
            let zj = z[j].abs();
            for i in 0..m {
                s += z[i].abs() * zj * a[i * m + j].abs();
            }
        }
        s
    }

    pub fn frob_sq(a: &M, m: usize) -> f64 {
        let mut s = 0.0;
        for j in 0..m {
            for i in 0..m {
                s += a[i * m + j] * a[i * m + j];
            }
        }
        s
    }

    pub fn symmetrize(p: &mut M, m: usize) {
        for j in 0..m {
            for i in 0..j {
                let v = 0.5 * (p[i * m + j] + p[j * m + i]);
                p[i * m + j] = v;
                p[j * m + i] = v;
            }
        }
    }

    pub fn add(p: &mut M, q: &M, m: usize) {
        for i in 0..m {
            for j in 0..m {
                p[i * m + j] += q[i * m + j];
            }
        }
    }

    // Document 02's request h: the word on a result, by its bits.
    pub fn finite(x: &[f64]) -> bool {
        x.iter().all(|v| v.to_bits() << 1 < 0x7ff << 53)
    }
}

// The same by the same calling convention, and never inlined: what is timed on both sides is one call.
#[inline(never)]
extern "C" fn rust_dot(a: &V, b: &V, m: usize) -> f64 {
    if m > 8 {
        return 0.0;
    }
    plain::dot(a, b, m)
}

#[inline(never)]
extern "C" fn rust_axpy(y: &mut V, s: f64, x: &V, m: usize) -> bool {
    if m > 8 {
        return false;
    }
    plain::axpy(y, s, x, m);
    plain::finite(&y[..m])
}

#[inline(never)]
extern "C" fn rust_mat_vec(a: &M, x: &V, m: usize, out: &mut V) -> bool {
    if m > 8 {
        return false;
    }
    *out = plain::mat_vec(a, x, m);
    plain::finite(&out[..m])
}

#[inline(never)]
extern "C" fn rust_mat_t_vec(a: &M, x: &V, m: usize, out: &mut V) {
    if m <= 8 {
        *out = plain::mat_t_vec(a, x, m);
    }
}

#[inline(never)]
extern "C" fn rust_outer_sub(p: &mut M, a: &V, b: &V, m: usize) -> bool {
    if m > 8 {
        return false;
    }
    plain::outer_sub(p, a, b, m);
    plain::finite(&p[..m * m])
}

#[inline(never)]
extern "C" fn rust_product(a: &M, b: &M, m: usize, out: &mut M) -> bool {
    if m > 8 {
        return false;
    }
    *out = plain::product(a, b, m);
    plain::finite(&out[..m * m])
}

// A B', A' B, A B and A' B: these are compared, and not timed.
extern "C" fn rust_product_by(way: u8, a: &M, b: &M, m: usize, out: &mut M) -> bool {
    *out = match way {
        0 => plain::rect_product(a, &plain::transpose(b, m, m), m, m, m),
        2 => plain::rect_product(a, b, m, m, m),
        _ => plain::rect_product(&plain::transpose(a, m, m), b, m, m, m),
    };
    plain::finite(&out[..m * m])
}

#[inline(never)]
extern "C" fn rust_sandwich(t: &M, p: &M, m: usize, out: &mut M) {
    if m <= 8 {
        *out = plain::sandwich(t, p, m);
    }
}

#[inline(never)]
extern "C" fn rust_abs_quad_form(z: &V, a: &M, m: usize) -> f64 {
    if m > 8 {
        return 0.0;
    }
    plain::abs_quad_form(z, a, m)
}

#[inline(never)]
extern "C" fn rust_frob_sq(a: &M, m: usize) -> f64 {
    if m > 8 {
        return 0.0;
    }
    plain::frob_sq(a, m)
}

#[inline(never)]
extern "C" fn rust_symmetrize(p: &mut M, m: usize) {
    if m <= 8 {
        plain::symmetrize(p, m);
    }
}

#[inline(never)]
extern "C" fn rust_add(p: &mut M, q: &M, m: usize) {
    if m <= 8 {
        plain::add(p, q, m);
    }
}

// What the leaves read, and what they write.
struct Inputs {
    a: M,
    b: M,
    x: V,
    y: V,
    s: f64,
}

// `word`: whether all results are finite, of a leaf that tells it.
struct Outputs {
    m: M,
    v: V,
    s: f64,
    word: Option<bool>,
}

// A leaf as a pointer, by its parameters. The proved one and the plain one are called from the same place in the same way.
#[derive(Clone, Copy)]
enum Leaf {
    Dot(unsafe extern "C" fn(&V, &V, usize) -> f64),
    Norm(unsafe extern "C" fn(&M, usize) -> f64),
    Form(unsafe extern "C" fn(&V, &M, usize) -> f64),
    Vector(unsafe extern "C" fn(&M, &V, usize, &mut V)),
    Triple(unsafe extern "C" fn(&M, &M, usize, &mut M)),
    Mirror(unsafe extern "C" fn(&mut M, usize)),
    Sum(unsafe extern "C" fn(&mut M, &M, usize)),
    Axpy(unsafe extern "C" fn(&mut V, f64, &V, usize) -> bool),
    ToldVector(unsafe extern "C" fn(&M, &V, usize, &mut V) -> bool),
    Product(unsafe extern "C" fn(&M, &M, usize, &mut M) -> bool),
    ProductBy(unsafe extern "C" fn(u8, &M, &M, usize, &mut M) -> bool, u8),
    Rank(unsafe extern "C" fn(&mut M, &V, &V, usize) -> bool),
}

impl Leaf {
    fn call(self, i: &Inputs, m: usize, o: &mut Outputs) {
        unsafe {
            match self {
                Leaf::Dot(f) => o.s = f(&i.x, &i.y, m),
                Leaf::Norm(f) => o.s = f(&i.a, m),
                Leaf::Form(f) => o.s = f(&i.x, &i.a, m),
                Leaf::Vector(f) => f(&i.a, &i.x, m, &mut o.v),
                Leaf::Triple(f) => f(&i.a, &i.b, m, &mut o.m),
                Leaf::Mirror(f) => f(&mut o.m, m),
                Leaf::Sum(f) => f(&mut o.m, &i.a, m),
                Leaf::Axpy(f) => o.word = Some(f(&mut o.v, i.s, &i.x, m)),
                Leaf::ToldVector(f) => o.word = Some(f(&i.a, &i.x, m, &mut o.v)),
                Leaf::Product(f) => o.word = Some(f(&i.a, &i.b, m, &mut o.m)),
                Leaf::ProductBy(f, way) => o.word = Some(f(way, &i.a, &i.b, m, &mut o.m)),
                Leaf::Rank(f) => o.word = Some(f(&mut o.m, &i.x, &i.y, m)),
            }
        }
    }
}

const LEAVES: [(&str, Leaf, Leaf); 11] = [
    ("product", Leaf::Product(leaf_product), Leaf::Product(rust_product)),
    ("sandwich", Leaf::Triple(leaf_sandwich), Leaf::Triple(rust_sandwich)),
    ("mat_vec", Leaf::ToldVector(leaf_mat_vec), Leaf::ToldVector(rust_mat_vec)),
    ("outer_sub", Leaf::Rank(leaf_outer_sub), Leaf::Rank(rust_outer_sub)),
    ("axpy", Leaf::Axpy(leaf_axpy), Leaf::Axpy(rust_axpy)),
    ("abs_quad_form", Leaf::Form(leaf_abs_quad_form), Leaf::Form(rust_abs_quad_form)),
    ("mat_t_vec", Leaf::Vector(leaf_mat_t_vec), Leaf::Vector(rust_mat_t_vec)),
    ("dot", Leaf::Dot(leaf_dot), Leaf::Dot(rust_dot)),
    ("frob_sq", Leaf::Norm(leaf_frob_sq), Leaf::Norm(rust_frob_sq)),
    ("symmetrize", Leaf::Mirror(leaf_symmetrize), Leaf::Mirror(rust_symmetrize)),
    ("add", Leaf::Sum(leaf_add), Leaf::Sum(rust_add)),
];

// The other ways to a product.
const PRODUCTS: [(&str, Leaf, Leaf); 4] = [
    ("product_t", Leaf::ProductBy(leaf_product_by, 0), Leaf::ProductBy(rust_product_by, 0)),
    ("t_product", Leaf::ProductBy(leaf_product_by, 1), Leaf::ProductBy(rust_product_by, 1)),
    ("mul", Leaf::ProductBy(leaf_product_by, 2), Leaf::ProductBy(rust_product_by, 2)),
    ("t_mul", Leaf::ProductBy(leaf_product_by, 3), Leaf::ProductBy(rust_product_by, 3)),
];

// A fixed sequence: splitmix64.
struct Random(u64);

impl Random {
    fn next(&mut self) -> u64 {
        self.0 = self.0.wrapping_add(0x9e37_79b9_7f4a_7c15);
        let mut z = self.0;
        z = (z ^ (z >> 30)).wrapping_mul(0xbf58_476d_1ce4_e5b9);
        z = (z ^ (z >> 27)).wrapping_mul(0x94d0_49bb_1331_11eb);
        z ^ (z >> 31)
    }

    // between -2 and 2; one in eight is a zero of either sign
    fn tame(&mut self) -> f64 {
        let k = self.next();
        if k % 8 == 0 {
            return if k & 8 == 0 { 0.0 } else { -0.0 };
        }
        ((k >> 11) as f64) / ((1u64 << 51) as f64) - 2.0
    }

    // any bits, and often a zero, an infinity, a NaN, the least and the largest
    fn wild(&mut self) -> f64 {
        let k = self.next();
        let edges = [
            0.0,
            -0.0,
            f64::INFINITY,
            -f64::INFINITY,
            f64::NAN,
            5e-324,
            -5e-324,
            f64::MAX,
            -f64::MAX,
            1.0,
        ];
        if k % 3 == 0 {
            edges[(k / 3 % 10) as usize]
        } else if k % 3 == 1 {
            f64::from_bits(self.next())
        } else {
            self.tame()
        }
    }

    // a magnitude of a product that is near the largest double, so that sums overflow or do not; a zero now and then
    fn large(&mut self) -> f64 {
        self.tame() * (510.0 + self.tame()).exp2()
    }

    // subnormal, of either sign
    fn subnormal(&mut self) -> f64 {
        f64::from_bits(self.next() & (1 << 63 | ((1 << 52) - 1)))
    }

    fn inputs(&mut self, draw: fn(&mut Random) -> f64) -> Inputs {
        let mut i = Inputs {
            a: [0.0; 64],
            b: [0.0; 64],
            x: [0.0; 8],
            y: [0.0; 8],
            s: 0.0,
        };
        for v in i.a.iter_mut().chain(i.b.iter_mut()).chain(i.x.iter_mut()).chain(i.y.iter_mut()) {
            *v = draw(self);
        }
        i.s = draw(self);
        i
    }

    // tame but for one place of a result's size m, in each input: of any bits
    fn one_wild(&mut self, m: usize) -> Inputs {
        let mut i = self.inputs(Random::tame);
        if m > 0 {
            let (k, l) = (self.next() as usize % (m * m), self.next() as usize % m);
            match self.next() % 4 {
                0 => i.a[k] = self.wild(),
                1 => i.b[k] = self.wild(),
                2 => i.x[l] = self.wild(),
                _ => i.y[l] = self.wild(),
            }
        }
        i
    }
}

fn outputs(i: &Inputs) -> Outputs {
    Outputs {
        m: i.b,
        v: i.y,
        s: 0.0,
        word: None,
    }
}

fn same(x: f64, y: f64) -> bool {
    x.to_bits() == y.to_bits() || (x.is_nan() && y.is_nan())
}

// Only the places in use are promised: m of a vector, m·m of a matrix.
fn agree(o: &Outputs, p: &Outputs, m: usize) -> bool {
    (0..m * m).all(|k| same(o.m[k], p.m[k])) && (0..m).all(|k| same(o.v[k], p.v[k])) && same(o.s, p.s) && o.word == p.word
}

// The time of a call in a short batch. The least of many counts, so that other work on the machine does not show.
#[inline(never)]
fn batch(f: Leaf, inputs: &[Inputs], outs: &mut [Outputs], m: usize) -> f64 {
    let start = Instant::now();
    for _ in 0..8 {
        for (i, o) in inputs.iter().zip(outs.iter_mut()) {
            black_box(f).call(black_box(i), black_box(m), black_box(o));
        }
    }
    start.elapsed().as_nanos() as f64 / (8 * inputs.len()) as f64
}

// How many results were compared, and how many differ; and of each leaf that tells whether all is finite, at each size, how often it said no and yes.
#[derive(Default)]
struct Compared {
    results: u64,
    differ: u64,
    words: BTreeMap<(&'static str, usize), [u64; 2]>,
}

impl Compared {
    fn compare(&mut self, (name, proved, plain): (&'static str, Leaf, Leaf), i: &Inputs, m: usize) {
        let (mut o, mut p) = (outputs(i), outputs(i));
        proved.call(i, m, &mut o);
        plain.call(i, m, &mut p);
        self.results += 1;
        self.differ += !agree(&o, &p, m) as u64;
        if let Some(word) = o.word {
            self.words.entry((name, m)).or_default()[word as usize] += 1;
        }
    }

    // Whether each of them said both, but of no entry at all, which is finite.
    fn both_said(&self) -> bool {
        self.words.len() == 8 * 9 && self.words.iter().all(|((_, m), said)| said[1] > 0 && (said[0] > 0) == (*m > 0))
    }
}

// 20,000 inputs of any bits, at every size from 0 to 8; and for the words 2,000 inputs that are tame but for one place, near the largest double, and
// subnormal.
fn check() -> Compared {
    let mut random = Random(1);
    let mut all = Compared::default();
    for _ in 0..20_000 {
        let i = random.inputs(Random::wild);
        for leaf in LEAVES.into_iter().chain(PRODUCTS) {
            for m in 0..=8 {
                all.compare(leaf, &i, m);
            }
        }
    }
    for _ in 0..2_000 {
        for m in 0..=8 {
            let sets = [
                random.one_wild(m),
                random.inputs(Random::large),
                random.inputs(Random::subnormal),
            ];
            for i in &sets {
                for leaf in LEAVES.into_iter().chain(PRODUCTS) {
                    all.compare(leaf, i, m);
                }
            }
        }
    }
    all
}

// How many matrices were compared, how many differ, and what their entries were.
#[derive(Default)]
struct Ways {
    compared: u64,
    differ: u64,
    kinds: [u64; 6],
}

const KINDS: [&str; 6] = ["NaN", "infinite", "subnormal", "+0.0", "-0.0", "other"];

fn kind(x: f64) -> usize {
    match x.classify() {
        FpCategory::Nan => 0,
        FpCategory::Infinite => 1,
        FpCategory::Subnormal => 2,
        FpCategory::Zero => 3 + x.is_sign_negative() as usize,
        FpCategory::Normal => 5,
    }
}

impl Ways {
    fn compare(&mut self, places: usize, x: &M, y: &M) {
        self.compared += 1;
        self.differ += !(0..places).all(|k| same(x[k], y[k])) as u64;
        for &v in &x[..places] {
            self.kinds[kind(v)] += 1;
        }
    }
}

// Document 02's request l: the transpose of a product against the product of the transposes in the other order, by the general kernels, by those of
// the way back and by plain loops; and symmetrised twice against once. Every size from 0 to 8, any bits.
fn two_ways() -> Ways {
    let mut random = Random(3);
    let mut ways = Ways::default();
    for size in 0..9 * 9 * 9 {
        let (r, k, c) = (size / 81, size / 9 % 9, size % 9);
        for _ in 0..50 {
            let Inputs { a, b, .. } = random.inputs(Random::wild);
            let (at, bt) = (plain::transpose(&a, r, k), plain::transpose(&b, k, c));
            let (mut one, mut other) = ([0.0; 64], [0.0; 64]);
            unsafe { leaf_transposed_product(&a, &b, r, k, c, &mut one, &mut other) };
            ways.compare(r * c, &one, &other);
            ways.compare(r * c, &one, &plain::transpose(&plain::rect_product(&a, &b, r, k, c), r, c));
            ways.compare(r * c, &other, &plain::rect_product(&bt, &at, c, k, r));
        }
    }
    for m in 0..=8 {
        for _ in 0..4_000 {
            let Inputs { a, b, .. } = random.inputs(Random::wild);
            let (mut one, mut other, mut once, mut twice) = ([0.0; 64], [0.0; 64], a, a);
            unsafe {
                leaf_transposed_mul(&a, &b, m, &mut one, &mut other);
                leaf_symmetrize(&mut once, m);
                leaf_symmetrize_twice(&mut twice, m);
            }
            ways.compare(m * m, &one, &other);
            ways.compare(m * m, &one, &plain::transpose(&plain::rect_product(&a, &b, m, m, m), m, m));
            ways.compare(m * m, &once, &twice);
        }
    }
    ways
}

fn time() {
    let mut random = Random(2);
    let inputs: Vec<Inputs> = (0..32).map(|_| random.inputs(Random::tame)).collect();
    println!("{:<14} {:>2} {:>10} {:>10} {:>7}", "leaf", "m", "proved ns", "plain ns", "ratio");
    for (name, proved, plain) in LEAVES {
        for m in [1, 2, 4, 8] {
            let (mut ours, mut theirs) = (f64::MAX, f64::MAX);
            for _ in 0..400 {
                let mut o: Vec<Outputs> = inputs.iter().map(outputs).collect();
                ours = ours.min(batch(proved, &inputs, &mut o, m));
                let mut p: Vec<Outputs> = inputs.iter().map(outputs).collect();
                theirs = theirs.min(batch(plain, &inputs, &mut p, m));
            }
            println!("{name:<14} {m:>2} {ours:>10.2} {theirs:>10.2} {:>7.2}", ours / theirs);
        }
    }
}

fn main() {
    let word = std::env::args().nth(1);
    if word.as_deref() != Some("time") {
        let all = check();
        let ways = two_ways();
        let kinds: Vec<String> = KINDS
            .iter()
            .zip(ways.kinds)
            .map(|(name, count)| format!("{count} {name}"))
            .collect();
        println!("entries of the matrices made in two ways: {}", kinds.join(", "));
        let said = |word: usize| all.words.values().map(|said| said[word]).sum::<u64>();
        print!("{} results of the kernels compared with plain loops, {} differ; ", all.results, all.differ);
        print!("their words: {} that all is finite, {} that something is not; ", said(1), said(0));
        println!("{} matrices made in two ways, {} differ", ways.compared, ways.differ);
        if all.differ + ways.differ > 0 || ways.kinds.contains(&0) || !all.both_said() {
            std::process::exit(1);
        }
    }
    if word.as_deref() != Some("check") {
        time();
    }
}
