//! The leaves as document 01 defines them ('Reference build', 'From the leaves up'), on whole
//! numbers. Nothing here calls the port. A root is guessed in floats; exact tests of the middles
//! between two doubles decide. `plain` has the same definitions with no guess and no shortcut, and
//! the tests hold the two against each other.
use crate::truth::big::Big;
use std::sync::OnceLock;

/// The size of a double that is neither 0, infinite nor NaN: w * 2^k, where w has 53 digits.
#[derive(Clone, Copy, Debug, PartialEq)]
pub struct Digits {
    pub negative: bool,
    pub w: u64,
    pub k: i32,
}

/// None for a zero, an infinity and a NaN.
pub fn digits(x: f64) -> Option<Digits> {
    let bits = x.to_bits();
    let (field, low) = ((bits >> 52 & 0x7FF) as i32, bits & ((1 << 52) - 1));
    if field == 0x7FF || (field == 0 && low == 0) {
        return None;
    }
    let up = low.leading_zeros() as i32 - 11;
    let (w, k) = match field {
        0 => (low << up, -1074 - up),
        _ => (low | 1 << 52, field - 1075),
    };
    let negative = bits >> 63 == 1;
    Some(Digits { negative, w, k })
}

/// The double nearest to n * 2^k; of two equally near, the even one; infinity from 2^1024 - 2^970
/// on.
pub fn nearest(n: u64, k: i32) -> f64 {
    let size = 64 - n.leading_zeros() as i32;
    // The last place kept: 53 digits, but none below 2^-1074.
    let last = (size + k - 53).max(-1074);
    let kept = match last - k {
        up @ ..=0 => n << -up,
        down @ 1..=64 => {
            let (whole, rest) = ((n as u128 >> down) as u64, (n as u128) << (128 - down));
            let half = 1 << 127;
            whole + (rest > half || (rest == half && whole % 2 == 1)) as u64
        }
        _ => 0,
    };
    if n == 0 || kept == 0 {
        return 0.0;
    }
    if last > 971 {
        return f64::INFINITY;
    }
    // The 53rd digit of `kept`, where it has one, carries into the exponent's field; so does a
    // 54th.
    f64::from_bits((((last + 1074) as u64) << 52) + kept)
}

fn signed(negative: bool, size: f64) -> f64 {
    if negative { -size } else { size }
}

/// x * 2^k as the Rust's chain: products with 2^±1000 while more than 1000 is left, then one with
/// what is left, each rounded once.
pub fn ldexp(x: f64, k: i32) -> f64 {
    let (mut y, mut left) = (x, k);
    while left.unsigned_abs() > 1000 && digits(y).is_some() {
        y = times_power(y, 1000 * left.signum());
        left -= 1000 * left.signum();
    }
    times_power(y, left)
}

/// x * 2^k, rounded once.
fn times_power(x: f64, k: i32) -> f64 {
    digits(x).map_or(x, |d| signed(d.negative, nearest(d.w, d.k + k)))
}

/// 2^k where that is a normal double, else NaN.
pub fn pow2(k: i32) -> f64 {
    match k {
        -1022..=1023 => nearest(1, k),
        _ => f64::NAN,
    }
}

/// The greatest k with 2^k at most |x|; -1075 for a zero, 1024 for an infinity and a NaN.
pub fn exponent(x: f64) -> i32 {
    match digits(x) {
        Some(d) => d.k + 52,
        None if x == 0.0 => -1075,
        None => 1024,
    }
}

/// The whole number nearest to √n, for 2^104 ≤ n < 2^106. Never a tie: (2m + 1)² is odd, 4n is
/// even.
pub(super) fn near_root(n: u128) -> u64 {
    let square = |t: u64| t as u128 * t as u128;
    let mut m = (n as f64).sqrt() as u64;
    while square(2 * m + 1) <= 4 * n {
        m += 1;
    }
    while square(2 * m - 1) > 4 * n {
        m -= 1;
    }
    m
}

/// The double nearest to √x; ±0, infinity and NaN are their own; NaN below 0.
pub fn sqrt(x: f64) -> f64 {
    let Some(d) = digits(x) else {
        return if x == f64::NEG_INFINITY { f64::NAN } else { x };
    };
    if d.negative {
        return f64::NAN;
    }
    let up = 52 + d.k.rem_euclid(2);
    nearest(near_root((d.w as u128) << up), (d.k - up) / 2)
}

/// A whole number below 2^256, in two halves.
#[derive(Clone, Copy, PartialEq, Eq, PartialOrd, Ord)]
pub(super) struct Wide {
    high: u128,
    low: u128,
}

impl Wide {
    /// n * 2^k, where that is below 2^256.
    pub(super) fn shifted(n: u64, k: i32) -> Wide {
        match k {
            0..=63 => Wide { high: 0, low: (n as u128) << k },
            64..=127 => Wide { high: n as u128 >> (128 - k), low: (n as u128) << k },
            _ => Wide { high: (n as u128) << (k - 128), low: 0 },
        }
    }

    pub(super) fn product(a: u128, b: u64) -> Wide {
        let (top, bottom) = ((a >> 64) * b as u128, (a as u64) as u128 * b as u128);
        let (low, carry) = (top << 64).overflowing_add(bottom);
        Wide { high: (top >> 64) + carry as u128, low }
    }

    fn cube(t: u64) -> Wide {
        Wide::product(t as u128 * t as u128, t)
    }

    pub(super) fn plus(self, other: Wide) -> Wide {
        let (low, carry) = self.low.overflowing_add(other.low);
        Wide { high: self.high + other.high + carry as u128, low }
    }

    pub(super) fn minus(self, other: Wide) -> Wide {
        let (low, borrow) = self.low.overflowing_sub(other.low);
        Wide { high: self.high - other.high - borrow as u128, low }
    }
}

/// The double nearest to ∛x, with x's sign; ±0, infinities and NaN are their own. Never a tie: (2m
/// + 1)³ is odd, 8n is even.
pub fn cbrt(x: f64) -> f64 {
    let Some(d) = digits(x) else {
        return x;
    };
    // |x| is n * 2^(k - up) with n = w * 2^up from 2^156 on, so ∛n has 53 digits.
    let up = 104 + (d.k - 104).rem_euclid(3);
    let eight = Wide::shifted(d.w, up + 3);
    let mut m = (d.w as f64 * pow2(up)).cbrt() as u64;
    while Wide::cube(2 * m + 1) <= eight {
        m += 1;
    }
    while Wide::cube(2 * m - 1) > eight {
        m -= 1;
    }
    signed(d.negative, nearest(m, (d.k - up) / 3))
}

const ONE: u64 = 1 << 53;

/// The 256 thresholds: entry n is the smallest whole t with t^256 ≥ 2^(n + 13312).
pub fn thresholds() -> &'static [u64; 256] {
    static TABLE: OnceLock<[u64; 256]> = OnceLock::new();
    TABLE.get_or_init(|| std::array::from_fn(threshold))
}

fn threshold(n: usize) -> u64 {
    let reaches = |t: u64| Big::from(t).squared(8).size() > n + 13312;
    let mut t = ((n as f64 / 256.0).exp2() * (ONE / 2) as f64) as u64;
    while !reaches(t) {
        t += 1;
    }
    while reaches(t - 1) {
        t -= 1;
    }
    t
}

/// L(x): the greatest multiple of 1/256 not above the logarithm; minus infinity for a zero, NaN
/// below 0.
pub fn log2(x: f64) -> f64 {
    let Some(d) = digits(x) else {
        return match x {
            0.0 => f64::NEG_INFINITY,
            f64::NEG_INFINITY => f64::NAN,
            _ => x,
        };
    };
    if d.negative {
        return f64::NAN;
    }
    let fraction = thresholds().partition_point(|&t| t <= d.w) as i32 - 1;
    (256 * (d.k + 52) + fraction) as f64 / 256.0
}

/// e: the smallest whole number with |a_i| ≤ |a_d| * 2^(e(d - i)) for all i < d, where a_d, the
/// last, is not 0; 0 where all others are 0.
pub fn scale_exponent(a: &[f64]) -> i32 {
    let d = a.len() - 1;
    let Some(top) = digits(a[d]) else { return 0 };
    let least = |(i, &x): (usize, &f64)| {
        let low = digits(x)?;
        // |x| ≤ |a_d| * 2^g
        let g = low.k - top.k + (low.w > top.w) as i32;
        let j = (d - i) as i32;
        Some(-(-g).div_euclid(j))
    };
    a[..d].iter().enumerate().filter_map(least).max().unwrap_or(0)
}
