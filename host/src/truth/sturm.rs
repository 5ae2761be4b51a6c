//! Where the real and complex roots of a polynomial with doubles as coefficients are, on whole
//! numbers.
use crate::truth::big::Big;
use crate::truth::exact::{digits, exponent};
use std::cmp::Ordering;

/// A whole number of either sign.
#[derive(Clone, Debug)]
struct Whole {
    negative: bool,
    size: Big,
}

impl Whole {
    fn new(negative: bool, size: Big) -> Whole {
        Whole { negative, size }
    }

    fn sign(&self) -> Ordering {
        match (self.size.size(), self.negative) {
            (0, _) => Ordering::Equal,
            (_, true) => Ordering::Less,
            (_, false) => Ordering::Greater,
        }
    }

    fn minus(&self) -> Whole {
        Whole::new(!self.negative, self.size.clone())
    }

    fn add(&self, other: &Whole) -> Whole {
        match (self.negative == other.negative, self.size >= other.size) {
            (true, _) => Whole::new(self.negative, self.size.add(&other.size)),
            (false, true) => Whole::new(self.negative, self.size.sub(&other.size)),
            (false, false) => Whole::new(other.negative, other.size.sub(&self.size)),
        }
    }

    fn mul(&self, other: &Whole) -> Whole {
        Whole::new(self.negative != other.negative, self.size.mul(&other.size))
    }

    fn shl(&self, k: usize) -> Whole {
        Whole::new(self.negative, self.size.shl(k))
    }
}

/// Whole coefficients, ascending; the last is not 0.
type Polynomial = Vec<Whole>;

fn trimmed(mut p: Polynomial) -> Polynomial {
    while p.last().is_some_and(|a| a.sign() == Ordering::Equal) {
        p.pop();
    }
    p
}

/// Doubles times a power of two that makes them whole, and that power.
fn whole(doubles: &[f64]) -> (Polynomial, i32) {
    let unit = doubles.iter().filter_map(|a| digits(*a)).map(|d| d.k).min().unwrap_or(0);
    let one = |a: &f64| match digits(*a) {
        Some(d) => Whole::new(d.negative, Big::from(d.w).shl((d.k - unit) as usize)),
        None => Whole::new(false, Big::from(0u64)),
    };
    (trimmed(doubles.iter().map(one).collect()), unit)
}

fn derivative(p: &Polynomial) -> Polynomial {
    let times = |i: usize| Whole::new(false, Big::from(i as u64));
    p.iter().enumerate().skip(1).map(|(i, a)| a.mul(&times(i))).collect()
}

/// The remainder of p by q, times a number above 0.
fn remainder(p: &Polynomial, q: &Polynomial) -> Polynomial {
    let (mut rest, last) = (p.clone(), &q[q.len() - 1]);
    while rest.len() >= q.len() {
        let (shift, top) = (rest.len() - q.len(), rest[rest.len() - 1].clone());
        let by = Whole::new(top.negative != last.negative, top.size);
        let scale = Whole::new(false, last.size.clone());
        for (i, a) in rest.iter_mut().enumerate() {
            *a = a.mul(&scale);
            if i >= shift {
                *a = a.add(&by.mul(&q[i - shift]).minus());
            }
        }
        rest.pop();
        rest = trimmed(rest);
    }
    rest
}

/// Sturm's chain: p, p', and each time the remainder of the last two with the other sign.
fn chain(p: Polynomial) -> Vec<Polynomial> {
    let mut all = vec![derivative(&p)];
    all.insert(0, p);
    loop {
        let rest = remainder(&all[all.len() - 2], &all[all.len() - 1]);
        if rest.is_empty() {
            return all;
        }
        all.push(rest.iter().map(Whole::minus).collect());
    }
}

/// The sign of p at x * 2^unit.
fn sign_at(p: &Polynomial, x: &Whole, unit: i32) -> Ordering {
    let (up, down) = (unit.max(0) as usize, (-unit).max(0) as usize);
    let x = x.shl(up);
    let mut value = Whole::new(false, Big::from(0u64));
    for (i, a) in p.iter().rev().enumerate() {
        value = value.mul(&x).add(&a.shl(down * i));
    }
    value.sign()
}

/// How often the sign changes along the chain; zeros do not count.
fn changes(chain: &[Polynomial], x: &Whole, unit: i32) -> usize {
    let signs = chain.iter().map(|p| sign_at(p, x, unit));
    let signs: Vec<Ordering> = signs.filter(|sign| *sign != Ordering::Equal).collect();
    signs.windows(2).filter(|pair| pair[0] != pair[1]).count()
}

/// n and k: x is n * 2^k.
fn parts(x: f64) -> (Whole, i32) {
    match digits(x) {
        Some(d) => (Whole::new(d.negative, Big::from(d.w)), d.k),
        None => (Whole::new(false, Big::from(0u64)), 0),
    }
}

/// Whether a real root lies within 2^-part * |x| of x, or within 2^-1072 of it. Some coefficient
/// but the first is not 0.
pub fn real_root_near(coeffs: &[f64], x: f64, part: i32) -> bool {
    let (p, _) = whole(coeffs);
    let (at, unit) = parts(x);
    let (reach, below) = match exponent(x) - part {
        -1072.. => (at.size.clone(), unit - part),
        _ => (Big::from(1u64), -1072),
    };
    let low = unit.min(below);
    let (at, reach) = (at.shl((unit - low) as usize), reach.shl((below - low) as usize));
    let ends = [true, false].map(|below| at.add(&Whole::new(below, reach.clone())));
    let [first, last] = ends.each_ref().map(|end| sign_at(&p, end, low));
    if first != last || first == Ordering::Equal {
        return true;
    }
    let chain = chain(p);
    changes(&chain, &ends[0], low) > changes(&chain, &ends[1], low)
}

/// The logarithm of n * 2^unit.
fn log2(n: &Big, unit: i64) -> f64 {
    let behind = n.size().saturating_sub(64);
    (n.shr(behind).low() as f64).log2() + (unit + behind as i64) as f64
}

/// The logarithms of |p^(i)(x) / i!|, exact but for the logarithm's own rounding.
fn taylor_logs(coeffs: &[f64], x: f64) -> Vec<f64> {
    let (p, unit) = whole(coeffs);
    let (at, k) = parts(x);
    let degree = p.len() - 1;
    let (up, down) = (k.max(0) as usize, (-k).max(0) as usize);
    // x is at * 2^-down, and c_i stays in units of 2^(unit - down * (degree - i))
    let at = at.shl(up);
    let mut c: Polynomial = p.iter().enumerate().map(|(i, a)| a.shl(down * (degree - i))).collect();
    // Horner's scheme, again and again
    for i in 0..degree {
        for j in (i..degree).rev() {
            c[j] = c[j].add(&c[j + 1].mul(&at));
        }
    }
    let each = |i: usize| i64::from(unit) - (down * (degree - i)) as i64;
    c.iter().enumerate().map(|(i, c)| log2(&c.size, each(i))).collect()
}

/// The logarithm of the distance of x from the complex root that is m-th nearest to it, by the
/// Newton polygon of the polynomial around x: right within a factor of 6.3 up to degree 4
/// (Ostrowski).
pub fn distance_log(coeffs: &[f64], x: f64, m: usize) -> f64 {
    let logs = taylor_logs(coeffs, x);
    let slope = |i: usize, j: usize| (logs[i] - logs[j]) / (j - i) as f64;
    let behind = |i: usize| (m..logs.len()).map(|j| slope(i, j)).fold(f64::INFINITY, f64::min);
    (0..m).map(behind).fold(f64::NEG_INFINITY, f64::max)
}

#[cfg(test)]
mod tests {
    use super::*;
    use crate::truth::exact::ldexp;

    #[test]
    fn real_roots() {
        let tiny = ldexp(1.0, -538);
        for (coeffs, x, near) in [
            (&[2.0, -3.0, 1.0][..], 1.0, true),
            (&[2.0, -3.0, 1.0], 1.0 + ldexp(1.0, -41), true),
            (&[2.0, -3.0, 1.0], 1.0 + ldexp(1.0, -39), false),
            // a double root in the interval, and at its end
            (&[1.0, -2.0, 1.0], 1.0 - ldexp(1.0, -45), true),
            (&[1.0, -2.0, 1.0], 1.0 - ldexp(1.0, -35), false),
            (&[1.0, 0.0, 1.0], 0.0, false),
            (&[0.0, 0.0, 1.0], 0.0, true),
            (&[ldexp(1.0, -1000), ldexp(1.0, 1000)], 0.0, true),
            (&[2.0, -3.0, 1.0, tiny], 0.0, false),
            (&[2.0, -3.0, 1.0, tiny], -ldexp(1.0, 538), true),
            (&[2.0, -3.0, 1.0, tiny], 2.914, false),
            (&[-ldexp(1.0, 600), 0.0, 0.0, 0.0, ldexp(1.0, -600)], ldexp(1.0, 300), true),
            (&[-ldexp(1.0, 600), 0.0, 0.0, 0.0, ldexp(1.0, -600)], ldexp(1.5, 300), false),
        ] {
            assert_eq!(real_root_near(coeffs, x, 40), near, "{coeffs:?} {x:e}");
        }
        // two roots 2^-50 apart, both within the interval
        let off = ldexp(1.0, -50);
        let pair = [1.0 - off * off, -2.0, 1.0];
        assert!(pair[0] == 1.0 && real_root_near(&pair, 1.0 - ldexp(1.0, -42), 40));
        assert!(real_root_near(&[2.0, 0.0, -3.0, 0.0, 1.0], 1.0, 52));
    }

    /// x² - 4 from 1: roots at -3 and 1.
    #[test]
    fn distances() {
        let near = |found: f64, log: f64| (found - log).abs() < 2.7;
        assert!(near(distance_log(&[-4.0, 0.0, 1.0], 1.0, 1), 0.0));
        assert!(near(distance_log(&[-4.0, 0.0, 1.0], 1.0, 2), 3f64.log2()));
        assert_eq!(distance_log(&[1.0, 2.0, 1.0], -1.0, 2), f64::NEG_INFINITY);
        let far = [0.0, 0.0, ldexp(1.0, 400), ldexp(1.0, -400)];
        assert_eq!(distance_log(&far, 0.0, 2), f64::NEG_INFINITY);
        assert!(near(distance_log(&far, 0.0, 3), 800.0));
        assert!(near(distance_log(&far, ldexp(1.0, 500), 2), 500.0));
        assert!(near(distance_log(&[1.0, 0.0, 1.0], 0.0, 2), 0.0));
        assert!(near(distance_log(&[1.0, -2.0, 1.0], 1.0 + ldexp(1.0, -20), 2), -20.0));
    }
}
