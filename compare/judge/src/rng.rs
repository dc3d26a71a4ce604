//! A small generator of random numbers (splitmix64), so that a seed means the same everywhere.

pub struct Rng(u64);

impl Rng {
    /// One stream for each salt and seed.
    pub fn new(salt: &str, seed: u64) -> Self {
        let mut state = seed ^ 0x9e37_79b9_7f4a_7c15;
        for byte in salt.bytes() {
            state = (state ^ byte as u64).wrapping_mul(0x0000_0100_0000_01b3);
        }
        let mut rng = Rng(state);
        rng.next();
        rng
    }

    pub fn next(&mut self) -> u64 {
        self.0 = self.0.wrapping_add(0x9e37_79b9_7f4a_7c15);
        let mut z = self.0;
        z = (z ^ (z >> 30)).wrapping_mul(0xbf58_476d_1ce4_e5b9);
        z = (z ^ (z >> 27)).wrapping_mul(0x94d0_49bb_1331_11eb);
        z ^ (z >> 31)
    }

    /// Below n.
    pub fn below(&mut self, n: u64) -> u64 {
        self.next() % n
    }

    pub fn from_to(&mut self, low: u64, high: u64) -> u64 {
        low + self.below(high - low + 1)
    }

    /// True once in n.
    pub fn one_in(&mut self, n: u64) -> bool {
        self.below(n) == 0
    }

    /// In [0, 1), 53 bits.
    pub fn unit(&mut self) -> f64 {
        (self.next() >> 11) as f64 / 9_007_199_254_740_992.0
    }

    pub fn between(&mut self, low: f64, high: f64) -> f64 {
        low + (high - low) * self.unit()
    }

    pub fn pick<'a, T>(&mut self, from: &'a [T]) -> &'a T {
        &from[self.below(from.len() as u64) as usize]
    }

    /// A size between about 10^low and 10^high, any exponent as likely as another. Made of bits, because a
    /// library's powers differ between machines.
    pub fn sized(&mut self, low: f64, high: f64) -> f64 {
        const BITS_OF_TEN: f64 = 3.321_928_094_887_362;
        let (low, high) = ((low * BITS_OF_TEN) as i64, (high * BITS_OF_TEN) as i64);
        let draw = self.next();
        let exponent = low + ((draw >> 52) as i64 * (high - low + 1)) / 4096;
        let mantissa = f64::from_bits((1023 << 52) | (draw & ((1 << 52) - 1)));
        let two_to = |exponent: i64| f64::from_bits(((1023 + exponent) as u64) << 52);
        if exponent < -1000 {
            mantissa * two_to(exponent + 200) * two_to(-200)
        } else {
            mantissa * two_to(exponent)
        }
    }
}
