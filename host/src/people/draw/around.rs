//! A polynomial around a place, p(m + h) in powers of h: each coefficient is rounded once, so that
//! a picture of a narrow part shows the polynomial and not errors of rounding, and goes beyond the
//! range of doubles.
use crate::truth::big::Big;
use crate::truth::exact::{digits, ldexp};

/// f * 2^e, where |f| is from 1 to 2, or f is 0.
#[derive(Clone, Copy, Debug, PartialEq)]
pub struct Scaled {
    pub f: f64,
    pub e: i64,
}

impl Scaled {
    /// The logarithm of its size; minus infinity for 0.
    pub fn log2(self) -> f64 {
        self.f.abs().log2() + self.e as f64
    }

    /// Over 2^by, as a double.
    pub fn over(self, by: f64) -> f64 {
        let whole = by.floor();
        let left = (self.e as f64 - whole).clamp(-3000.0, 3000.0);
        ldexp(self.f * (whole - by).exp2(), left as i32)
    }
}

/// A sign, and n and k of the size n * 2^k.
type Term = (bool, Big, i64);

/// The sum of some terms, cut to 53 digits.
fn sum(terms: &[Term]) -> Scaled {
    let unit = terms.iter().map(|term| term.2).min().unwrap_or(0);
    let [above, below] = [false, true].map(|negative| {
        let own = terms.iter().filter(|term| term.0 == negative);
        own.fold(Big::from(0u64), |all, (_, n, k)| all.add(&n.shl((k - unit) as usize)))
    });
    let (sign, n) = match below > above {
        true => (-1.0, below.sub(&above)),
        false => (1.0, above.sub(&below)),
    };
    let size = n.size() as i64;
    let top = match size {
        0 => return Scaled { f: 0.0, e: 0 },
        ..=53 => n.low() << (53 - size),
        _ => n.shr((size - 53) as usize).low(),
    };
    Scaled { f: sign * ldexp(top as f64, -52), e: unit + size - 1 }
}

/// The coefficients, ascending, of p(m + h), for those of p(x): that of h^i is the sum of the
/// binomials of j over i times a_j * m^(j - i).
pub fn around(coeffs: &[f64], m: f64) -> Vec<Scaled> {
    let coefficient = |i: usize| {
        let terms = (i..coeffs.len()).filter_map(|j| term(coeffs[j], m, j - i, binomial(j, i)));
        sum(&terms.collect::<Vec<_>>())
    };
    (0..coeffs.len()).map(coefficient).collect()
}

/// c * a * m^n; none where that is 0.
fn term(a: f64, m: f64, n: usize, c: u64) -> Option<Term> {
    let a = digits(a)?;
    let mut all = (a.negative, Big::from(a.w).mul(&Big::from(c)), i64::from(a.k));
    for _ in 0..n {
        let m = digits(m)?;
        all = (all.0 != m.negative, all.1.mul(&Big::from(m.w)), all.2 + i64::from(m.k));
    }
    Some(all)
}

fn binomial(n: usize, k: usize) -> u64 {
    (0..k).fold(1, |all, i| all * (n - i) as u64 / (i as u64 + 1))
}

/// The polynomial in s of p(m + s * 2^half), in units in which its largest coefficient is about 1;
/// and the logarithm of that unit, 0 where all are 0.
pub fn in_halves(p: &[Scaled], half: f64) -> (Vec<f64>, f64) {
    let logs = p.iter().enumerate().map(|(i, a)| a.log2() + i as f64 * half);
    let most = logs.fold(f64::NEG_INFINITY, f64::max);
    let unit = if most.is_finite() { most } else { 0.0 };
    let one = |(i, a): (usize, &Scaled)| a.over(unit - i as f64 * half);
    (p.iter().enumerate().map(one).collect(), unit)
}

pub fn value(p: &[f64], s: f64) -> f64 {
    p.iter().rev().fold(0.0, |all, a| all * s + a)
}

#[cfg(test)]
mod tests {
    use super::*;

    #[test]
    fn shifted_exactly() {
        let doubles =
            |p: &[f64], m: f64| -> Vec<f64> { around(p, m).iter().map(|a| a.over(0.0)).collect() };
        assert_eq!(doubles(&[2.0, -3.0, 1.0], 1.0), [0.0, -1.0, 1.0]);
        assert_eq!(doubles(&[0.0, 0.0, 0.0, 0.0, 1.0], -2.0), [16.0, -32.0, 24.0, -8.0, 1.0]);
        // (1 + d)² - 1 - 2d is d², which doubles lose
        let d = ldexp(1.0, -40);
        assert_eq!(doubles(&[-1.0 - 2.0 * d, 0.0, 1.0], 1.0 + d)[0], d * d);
        assert_eq!(around(&[0.0, 0.0, 1.0], 1e300)[0].log2().round(), 1993.0);
    }

    #[test]
    fn scaled_to_one() {
        for x in [1e300, -1e-300, 5e-324, 1.0, -3.0] {
            assert_eq!(around(&[x], 0.0)[0].over(0.0), x);
            let (p, unit) = in_halves(&around(&[x, x], x), x.abs().log2());
            let most = p.iter().fold(0.0f64, |most, a| most.max(a.abs()));
            assert!((0.9..1.1).contains(&most) && unit.is_finite(), "{x:e}: {p:?}");
        }
        assert_eq!(in_halves(&around(&[0.0, -0.0], 3.0), 1.0), (vec![0.0, 0.0], 0.0));
        assert_eq!(value(&[1.0, 2.0, 3.0], 2.0), 17.0);
    }
}
