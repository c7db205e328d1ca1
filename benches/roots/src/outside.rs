//! The square root reckoned apart from the proved code, by whole numbers.

/// The double nearest to the root of x, a tie to the even one, by exact arithmetic on whole numbers.
pub fn sqrt(x: f64) -> f64 {
    if x.is_nan() || x < 0.0 {
        return f64::NAN;
    }
    if x == 0.0 || x == f64::INFINITY {
        return x;
    }
    let bits = x.to_bits();
    let field = (bits >> 52) as i32;
    let fraction = bits & ((1 << 52) - 1);
    // x = m * 2^e
    let (mut m, mut e) = if field == 0 { (fraction as u128, -1074) } else { ((fraction | 1 << 52) as u128, field - 1075) };
    // e even, and m so large that its root has 54 binary digits or more
    while m < 1 << 106 || e % 2 != 0 {
        m <<= 1;
        e -= 1;
    }
    let mut root = cut_root(m);
    let mut half = e / 2;
    let mut rest = root * root != m;
    while root >= 1 << 54 {
        rest |= root & 1 == 1;
        root >>= 1;
        half += 1;
    }
    // 54 digits: 53 are kept
    let up = root & 1 == 1 && (rest || root & 2 == 2);
    let kept = (root >> 1) as u64 + up as u64;
    // no root is subnormal, so this is exact
    kept as f64 * power(half + 1)
}

/// The largest r with r * r <= n, by bisection.
fn cut_root(n: u128) -> u128 {
    let (mut low, mut high) = (0u128, 1u128 << 55);
    while high - low > 1 {
        let middle = (low + high) / 2;
        if middle * middle <= n {
            low = middle;
        } else {
            high = middle;
        }
    }
    low
}

fn power(k: i32) -> f64 {
    f64::from_bits(((k + 1023) as u64) << 52)
}
