//! Document 01's logarithm and max with 0.

const HI: f64 = f64::from_bits(0x3FE6_2E42_FEE0_0000);
const LO: f64 = f64::from_bits(0x3DEA_39EF_3579_3C76);
const TWO_54: f64 = 18_014_398_509_481_984.0;

/// 1/1, 1/3, to 1/23, each the nearest double (a division rounds once).
pub const LN_TABLE: [f64; 12] = [
    1.0,
    1.0 / 3.0,
    1.0 / 5.0,
    1.0 / 7.0,
    1.0 / 9.0,
    1.0 / 11.0,
    1.0 / 13.0,
    1.0 / 15.0,
    1.0 / 17.0,
    1.0 / 19.0,
    1.0 / 21.0,
    1.0 / 23.0,
];

/// x if x > 0, else +0.0; so NaN gives +0.0.
#[inline]
pub fn max0(x: f64) -> f64 {
    if x > 0.0 {
        x
    } else {
        0.0
    }
}

/// Document 01's logarithm.
pub fn ln(x: f64) -> f64 {
    if x.is_nan() || x < 0.0 {
        return f64::NAN;
    }
    if x == 0.0 {
        return f64::NEG_INFINITY;
    }
    if x == f64::INFINITY {
        return x;
    }
    let (x, less) = if x < f64::MIN_POSITIVE {
        (x * TWO_54, 54)
    } else {
        (x, 0)
    };
    let bits = x.to_bits();
    let mut k = (bits >> 52) as i64 - 1023 - less;
    let mut s = f64::from_bits((bits & 0x000F_FFFF_FFFF_FFFF) | 0x3FF0_0000_0000_0000);
    if s >= 1.5 {
        s *= 0.5;
        k += 1;
    }
    let u = (s - 1.0) / (s + 1.0);
    let w = u * u;
    let mut q = LN_TABLE[11];
    for i in (0..11).rev() {
        q = q * w + LN_TABLE[i];
    }
    let k = k as f64;
    k * HI + (k * LO + (u + u) * q)
}

#[cfg(test)]
mod tests {
    use super::*;

    #[test]
    fn logarithm_of_two_pi() {
        let x = 2.0 * f64::from_bits(0x4009_21FB_5444_2D18);
        assert_eq!(ln(x).to_bits(), 0x3FFD_67F1_C864_BEB4);
    }

    #[test]
    fn logarithm_at_the_edges() {
        assert_eq!(ln(1.0).to_bits(), 0);
        assert_eq!(ln(f64::INFINITY), f64::INFINITY);
        assert_eq!(ln(0.0), f64::NEG_INFINITY);
        assert_eq!(ln(-0.0), f64::NEG_INFINITY);
        assert!(ln(-1.0).is_nan() && ln(f64::NAN).is_nan() && ln(f64::NEG_INFINITY).is_nan());
    }

    #[test]
    fn logarithm_is_near_the_platform_one() {
        let mut x = f64::from_bits(1);
        while x < f64::INFINITY {
            let (a, b) = (ln(x), x.ln());
            assert!(
                (a - b).abs() <= 4e-16 * b.abs().max(0.25),
                "{x:e}: {a:e} {b:e}"
            );
            x *= 1.37;
            if x < 1e-300 {
                x += f64::from_bits(3);
            }
        }
    }

    #[test]
    fn table_is_nearest() {
        // Nearest: |c·d - 1| is at most half an ulp of c, times d.
        for (i, c) in LN_TABLE.iter().enumerate() {
            let d = (2 * i + 1) as u128;
            let bits = c.to_bits();
            let e = (bits >> 52) as i32 - 1075;
            let f = ((bits & 0x000F_FFFF_FFFF_FFFF) | (1 << 52)) as u128;
            // c = f·2^e, with e < 0. Compare 2·|f·d - 2^-e| with d.
            let one = 1u128 << (-e);
            let off = (f * d).abs_diff(one);
            assert!(2 * off <= d, "entry {i}");
        }
    }

    #[test]
    fn max_with_zero() {
        assert_eq!(max0(-0.0).to_bits(), 0);
        assert_eq!(max0(f64::NAN).to_bits(), 0);
        assert_eq!(max0(-3.0).to_bits(), 0);
        assert_eq!(max0(3.0), 3.0);
        assert_eq!(max0(f64::INFINITY), f64::INFINITY);
    }
}
