//! Whole numbers of any size, from 0 on. Plain: what the exact side rests on should be easy to
//! believe.
use std::cmp::Ordering;

/// Limbs of 64 digits, the lowest first; the last one is not 0.
#[derive(Clone, Debug, PartialEq, Eq)]
pub struct Big(Vec<u64>);

impl From<u64> for Big {
    fn from(n: u64) -> Big {
        Big(vec![n]).trimmed()
    }
}

impl From<u128> for Big {
    fn from(n: u128) -> Big {
        Big(vec![n as u64, (n >> 64) as u64]).trimmed()
    }
}

impl PartialOrd for Big {
    fn partial_cmp(&self, other: &Big) -> Option<Ordering> {
        Some(self.cmp(other))
    }
}

impl Ord for Big {
    fn cmp(&self, other: &Big) -> Ordering {
        let sizes = self.0.len().cmp(&other.0.len());
        sizes.then_with(|| self.0.iter().rev().cmp(other.0.iter().rev()))
    }
}

impl Big {
    fn trimmed(mut self) -> Big {
        while self.0.last() == Some(&0) {
            self.0.pop();
        }
        self
    }

    fn limb(&self, i: usize) -> u64 {
        self.0.get(i).copied().unwrap_or(0)
    }

    /// How many digits it has: 0 has none, 2^k has k + 1.
    pub fn size(&self) -> usize {
        match self.0.last() {
            None => 0,
            Some(top) => 64 * self.0.len() - top.leading_zeros() as usize,
        }
    }

    /// 2^k
    pub fn power_of_two(k: usize) -> Big {
        Big::from(1u64).shl(k)
    }

    pub fn add(&self, other: &Big) -> Big {
        let mut sum = Vec::with_capacity(self.0.len().max(other.0.len()) + 1);
        let mut carry = 0u128;
        for i in 0..self.0.len().max(other.0.len()) {
            carry += self.limb(i) as u128 + other.limb(i) as u128;
            sum.push(carry as u64);
            carry >>= 64;
        }
        sum.push(carry as u64);
        Big(sum).trimmed()
    }

    /// What is left of it when `other`, which is not larger, is taken off.
    pub fn sub(&self, other: &Big) -> Big {
        assert!(other <= self, "a whole number below 0");
        let mut rest = Vec::with_capacity(self.0.len());
        let mut borrow = false;
        for i in 0..self.0.len() {
            let (first, one) = self.limb(i).overflowing_sub(other.limb(i));
            let (second, two) = first.overflowing_sub(borrow as u64);
            rest.push(second);
            borrow = one || two;
        }
        Big(rest).trimmed()
    }

    pub fn mul(&self, other: &Big) -> Big {
        let mut product = vec![0u64; self.0.len() + other.0.len()];
        for (i, &a) in self.0.iter().enumerate() {
            let mut carry = 0u128;
            for (j, &b) in other.0.iter().enumerate() {
                carry += product[i + j] as u128 + a as u128 * b as u128;
                product[i + j] = carry as u64;
                carry >>= 64;
            }
            product[i + other.0.len()] = carry as u64;
        }
        Big(product).trimmed()
    }

    /// Times 2^k.
    pub fn shl(&self, k: usize) -> Big {
        let mut shifted = vec![0u64; k / 64];
        let mut carry = 0u128;
        for &limb in &self.0 {
            carry |= (limb as u128) << (k % 64);
            shifted.push(carry as u64);
            carry >>= 64;
        }
        shifted.push(carry as u64);
        Big(shifted).trimmed()
    }

    /// Divided by 2^k, rounded down.
    pub fn shr(&self, k: usize) -> Big {
        let at = |i| (self.limb(i + 1) as u128) << 64 | self.limb(i) as u128;
        let limbs = (k / 64..self.0.len()).map(|i| (at(i) >> (k % 64)) as u64);
        Big(limbs.collect()).trimmed()
    }

    /// The lowest 64 digits.
    pub fn low(&self) -> u64 {
        self.limb(0)
    }

    /// Its product with itself, `times` times over: the power of 2^times.
    pub fn squared(&self, times: usize) -> Big {
        (0..times).fold(self.clone(), |n, _| n.mul(&n))
    }
}

#[cfg(test)]
mod tests {
    use super::*;
    use crate::inputs::random::Random;

    fn big(r: &mut Random, limbs: u64) -> Big {
        let n = r.below(limbs + 1);
        let limb = |r: &mut Random| match r.below(4) {
            0 => 0,
            1 => u64::MAX,
            _ => r.next(),
        };
        Big((0..n).map(|_| limb(r)).collect()).trimmed()
    }

    #[test]
    fn as_u128() {
        let mut r = Random::new(1);
        for _ in 0..200_000 {
            let (p, q) = (r.next() >> r.below(64), r.next() >> r.below(64));
            let (a, b) = (Big::from(p), Big::from(q));
            assert_eq!(a.add(&b), Big::from(p as u128 + q as u128));
            assert_eq!(a.mul(&b), Big::from(p as u128 * q as u128));
            assert_eq!(a.cmp(&b), p.cmp(&q));
            if q <= p {
                assert_eq!(a.sub(&b), Big::from(p - q));
            }
            let wide = (p as u128) << 64 | q as u128;
            let k = r.below(128) as usize;
            assert_eq!(Big::from(wide).shr(k), Big::from(wide >> k));
            assert_eq!(Big::from(wide).size() as u32, 128 - wide.leading_zeros());
            assert_eq!(Big::from(wide).low(), q);
        }
    }

    #[test]
    fn laws() {
        let mut r = Random::new(2);
        for _ in 0..20_000 {
            let (a, b, c) = (big(&mut r, 9), big(&mut r, 9), big(&mut r, 9));
            let k = r.below(300) as usize;
            assert_eq!(a.add(&b).sub(&b), a);
            assert_eq!(a.add(&b), b.add(&a));
            assert_eq!(a.mul(&b), b.mul(&a));
            assert_eq!(a.add(&b).mul(&c), a.mul(&c).add(&b.mul(&c)));
            assert_eq!(a.mul(&b).mul(&c), a.mul(&b.mul(&c)));
            assert_eq!(a.shl(k), a.mul(&Big::power_of_two(k)));
            assert_eq!(a.shl(k).shr(k), a);
            assert!(a.shr(k).shl(k) <= a);
            assert!(a < a.shr(k).add(&Big::from(1u64)).shl(k));
            assert!(a <= a.add(&b));
            assert_eq!(Big::power_of_two(k).size(), k + 1);
        }
    }

    #[test]
    fn powers() {
        assert_eq!(Big::from(3u64).squared(5), Big::from(1853020188851841u64));
        assert_eq!(Big::from(2u64).squared(8), Big::power_of_two(256));
        assert!(Big::from(0u64).size() == 0);
        assert_eq!(Big::from(0u64).size(), 0);
    }

    #[test]
    #[should_panic(expected = "below 0")]
    fn nothing_below_zero() {
        Big::from(1u64).sub(&Big::from(2u64));
    }
}
