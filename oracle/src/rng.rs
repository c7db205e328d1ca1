//! A small generator of random numbers (splitmix64).

#[derive(Debug, Clone)]
pub struct Rng(u64);

impl Rng {
    pub fn new(seed: u64) -> Self {
        Rng(seed ^ 0x6A09_E667_F3BC_C908)
    }

    pub fn word(&mut self) -> u64 {
        self.0 = self.0.wrapping_add(0x9E37_79B9_7F4A_7C15);
        let mut z = self.0;
        z = (z ^ (z >> 30)).wrapping_mul(0xBF58_476D_1CE4_E5B9);
        z = (z ^ (z >> 27)).wrapping_mul(0x94D0_49BB_1331_11EB);
        z ^ (z >> 31)
    }

    /// 0 to k - 1.
    pub fn below(&mut self, k: usize) -> usize {
        ((self.word() >> 32) as usize * k) >> 32
    }

    /// a to b, both included.
    pub fn within(&mut self, a: usize, b: usize) -> usize {
        a + self.below(b - a + 1)
    }

    /// True a times in b.
    pub fn chance(&mut self, a: usize, b: usize) -> bool {
        self.below(b) < a
    }

    pub fn pick<T: Copy>(&mut self, from: &[T]) -> T {
        from[self.below(from.len())]
    }

    /// 0 up to 1, all 53 bits.
    pub fn unit(&mut self) -> f64 {
        (self.word() >> 11) as f64 / 9_007_199_254_740_992.0
    }

    /// -2 up to 2, all bits.
    pub fn plain(&mut self) -> f64 {
        4.0 * self.unit() - 2.0
    }

    /// A power of two, exponent a to b.
    pub fn power(&mut self, a: i32, b: i32) -> f64 {
        let e = a + self.below((b - a + 1) as usize) as i32;
        pow2(e)
    }

    /// Any finite number, every exponent alike.
    pub fn finite(&mut self) -> f64 {
        loop {
            let x = f64::from_bits(self.word());
            if x.is_finite() {
                return x;
            }
        }
    }

    /// A marker that is set: any byte but 0, often 1.
    pub fn marker(&mut self) -> u8 {
        match self.below(4) {
            0 | 1 => 1,
            2 => self.within(1, 255) as u8,
            _ => self.pick(&[2, 128, 254, 255]),
        }
    }

    /// A marker that is set a times in b.
    pub fn maybe_marker(&mut self, a: usize, b: usize) -> u8 {
        if self.chance(a, b) {
            self.marker()
        } else {
            0
        }
    }

    /// A NaN, often with odd bits: any sign, quiet or signalling.
    pub fn gap(&mut self) -> f64 {
        if self.chance(1, 2) {
            return f64::from_bits(0x7FF8_0000_0000_0000);
        }
        let sign = self.word() & (1 << 63);
        let low = self.word() & 0x000F_FFFF_FFFF_FFFF;
        let low = match self.below(3) {
            0 => 1,
            1 => low & 0x0007_FFFF_FFFF_FFFF,
            _ => low,
        };
        f64::from_bits(sign | 0x7FF0_0000_0000_0000 | low.max(1))
    }
}

/// 2^e, down to the smallest subnormal, 0 below that, infinity above.
pub fn pow2(e: i32) -> f64 {
    match e {
        1024.. => f64::INFINITY,
        -1022..=1023 => f64::from_bits(((e + 1023) as u64) << 52),
        -1074..=-1023 => f64::from_bits(1 << (e + 1074)),
        _ => 0.0,
    }
}
