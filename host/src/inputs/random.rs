//! Made inputs: the same seed gives the same numbers, and edges come more often than chance gives.

/// SplitMix64 (Steele, Lea, Flood).
pub struct Random(u64);

/// Doubles at which something changes, each also with the other sign.
pub const EDGES: [u64; 30] = [
    0x0000_0000_0000_0000, // 0
    0x0000_0000_0000_0001, // 2^-1074
    0x0000_0000_0000_0002,
    0x0000_0000_0000_0003,
    0x0007_FFFF_FFFF_FFFF,
    0x0008_0000_0000_0000, // 2^-1023
    0x000F_FFFF_FFFF_FFFF,
    0x0010_0000_0000_0000, // 2^-1022
    0x0010_0000_0000_0001,
    0x001F_FFFF_FFFF_FFFF,
    0x0020_0000_0000_0000,
    0x3CA0_0000_0000_0000, // 2^-53
    0x3CB0_0000_0000_0000, // 2^-52
    0x3FDF_FFFF_FFFF_FFFF,
    0x3FE0_0000_0000_0000, // 1/2
    0x3FEF_FFFF_FFFF_FFFF,
    0x3FF0_0000_0000_0000, // 1
    0x3FF0_0000_0000_0001,
    0x3FF8_0000_0000_0000, // 1.5
    0x4000_0000_0000_0000, // 2
    0x4008_0000_0000_0000, // 3
    0x403B_0000_0000_0000, // 27
    0x4340_0000_0000_0000, // 2^53
    0x7FE0_0000_0000_0000, // 2^1023
    0x7FEF_FFFF_FFFF_FFFF, // the largest
    0x7FF0_0000_0000_0000, // infinity
    0x7FF0_0000_0000_0001, // NaNs: the first and the last of either kind
    0x7FF7_FFFF_FFFF_FFFF,
    0x7FF8_0000_0000_0000,
    0x7FFF_FFFF_FFFF_FFFF,
];

const SIGN: u64 = 1 << 63;
const FRACTION: u64 = (1 << 52) - 1;

impl Random {
    pub fn new(seed: u64) -> Random {
        Random(seed)
    }

    #[allow(clippy::should_implement_trait)]
    pub fn next(&mut self) -> u64 {
        self.0 = self.0.wrapping_add(0x9E37_79B9_7F4A_7C15);
        let z = (self.0 ^ (self.0 >> 30)).wrapping_mul(0xBF58_476D_1CE4_E5B9);
        let z = (z ^ (z >> 27)).wrapping_mul(0x94D0_49BB_1331_11EB);
        z ^ (z >> 31)
    }

    /// From 0 to n - 1.
    pub fn below(&mut self, n: u64) -> u64 {
        ((self.next() as u128 * n as u128) >> 64) as u64
    }

    /// Any of the doubles, each bit by chance.
    pub fn bits(&mut self) -> f64 {
        f64::from_bits(self.next())
    }

    /// With an exponent field by chance and a fraction by chance, of a few digits at either end, or
    /// of all ones.
    pub fn spread(&mut self) -> f64 {
        let few = self.below(53);
        let fraction = match self.below(4) {
            0 => FRACTION >> few,
            1 => FRACTION << few & FRACTION,
            2 => self.next() & FRACTION << few & FRACTION,
            _ => self.next() & FRACTION,
        };
        f64::from_bits(self.next() & SIGN | self.below(2048) << 52 | fraction)
    }

    /// Below 2^-1022 in size, of any number of digits.
    pub fn subnormal(&mut self) -> f64 {
        let digits = self.below(52);
        f64::from_bits(self.next() & SIGN | (self.next() & FRACTION) >> digits)
    }

    /// An edge with either sign, or a double at most three steps from it.
    pub fn edge(&mut self) -> f64 {
        let bits = EDGES[self.below(EDGES.len() as u64) as usize] | self.next() & SIGN;
        let near = bits.wrapping_add(self.below(7)).wrapping_sub(3);
        f64::from_bits(if self.below(2) == 0 { bits } else { near })
    }

    /// Any double: by chance, spread, subnormal or an edge.
    pub fn any(&mut self) -> f64 {
        match self.below(8) {
            0..=2 => self.bits(),
            3..=5 => self.spread(),
            6 => self.subnormal(),
            _ => self.edge(),
        }
    }

    /// From 0 to 1, 1 not included, in steps of 2^-53.
    pub fn unit(&mut self) -> f64 {
        (self.next() >> 11) as f64 / (1u64 << 53) as f64
    }
}
