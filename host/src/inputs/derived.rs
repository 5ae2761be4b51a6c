//! Texts of exactly so many bytes that the grammar of document 02 derives: of parts that come to
//! anything, or made to stay within its limits.
use crate::inputs::random::Random;

/// What a part may come to: a degree, and coefficients of at most 2^bits.
#[derive(Clone, Copy)]
pub struct Within {
    degree: usize,
    bits: usize,
}

/// Those of document 02.
pub const LIMITS: Within = Within { degree: 4, bits: 53 };

/// None: a sum takes no more than a bit off, and nothing else does.
pub const ANY: Within = Within { degree: usize::MAX, bits: usize::MAX };

/// From a to b.
pub fn from_to(r: &mut Random, a: usize, b: usize) -> usize {
    a + r.below((b - a + 1) as u64) as usize
}

/// Once in n times.
pub fn one_in(r: &mut Random, n: u64) -> bool {
    r.below(n) == 0
}

pub fn plus_or_minus(r: &mut Random) -> u8 {
    b"+-"[r.below(2) as usize]
}

/// How many bits a coefficient of a product of these degrees may have more than its factors'
/// together: it is a sum of so many products.
fn carried(degree: usize, other: usize) -> usize {
    [0, 1, 2][degree.min(other).min(2)]
}

impl Within {
    fn is_any(self) -> bool {
        self.bits > LIMITS.bits
    }

    /// For both parts of a sum.
    fn halved(self) -> Option<Within> {
        Some(Within { bits: self.bits.checked_sub(1)?, ..self })
    }

    /// For the factors of a product.
    fn divided(self, r: &mut Random) -> Option<[Within; 2]> {
        if self.is_any() {
            return Some([self; 2]);
        }
        let degree = from_to(r, 0, self.degree);
        let rest = self.degree - degree;
        let bits = self.bits.checked_sub(carried(degree, rest))?;
        let first = from_to(r, 0, bits);
        Some([Within { degree, bits: first }, Within { degree: rest, bits: bits - first }])
    }

    /// For what the power is taken of; the power 0 gives 1, whatever meets the limits.
    fn root(self, power: usize) -> Within {
        match power {
            _ if self.is_any() => self,
            0 => LIMITS,
            _ => {
                let degree = self.degree / power;
                match self.bits.checked_sub((power - 1) * carried(degree, degree)) {
                    Some(bits) => Within { degree, bits: bits / power },
                    None => Within { degree: 0, bits: self.bits / power },
                }
            }
        }
    }
}

/// A sum of n bytes.
pub fn sum(r: &mut Random, n: usize, within: Within, out: &mut Vec<u8>) {
    match within.halved() {
        Some(half) if n >= 3 && !one_in(r, 3) => {
            let left = from_to(r, 1, n - 2);
            sum(r, left, half, out);
            out.push(plus_or_minus(r));
            term(r, n - left - 1, half, out);
        }
        _ => term(r, n, within, out),
    }
}

fn term(r: &mut Random, n: usize, within: Within, out: &mut Vec<u8>) {
    match within.divided(r) {
        Some([first, rest]) if n >= 3 && !one_in(r, 3) => {
            let left = from_to(r, 1, n - 2);
            term(r, left, first, out);
            out.push(b'*');
            factor(r, n - left - 1, rest, out);
        }
        _ => factor(r, n, within, out),
    }
}

fn factor(r: &mut Random, n: usize, within: Within, out: &mut Vec<u8>) {
    if n < 3 || one_in(r, 2) {
        return base(r, n, within, out);
    }
    let most = if one_in(r, 3) { 9 } else { 3 };
    let power = from_to(r, 0, most);
    base(r, n - 2, within.root(power), out);
    out.extend([b'^', b'0' + power as u8]);
}

fn base(r: &mut Random, n: usize, within: Within, out: &mut Vec<u8>) {
    match n {
        1 if within.degree > 0 && !one_in(r, 3) => out.push(b't'),
        1 | 2 => number(r, n, within.bits, out),
        3..=9 if one_in(r, 2) => number(r, n, within.bits, out),
        _ => {
            out.push(b'(');
            sum(r, n - 2, within, out);
            out.push(b')');
        }
    }
}

/// A number of n digits, zeros in front where it has fewer, of at most 2^bits.
fn number(r: &mut Random, n: usize, bits: usize, out: &mut Vec<u8>) {
    let most = (10u64.pow(n as u32) - 1).min(1 << bits.min(30));
    let number = match r.below(4) {
        0 => r.below(2),
        1 => most - r.below(2),
        _ => r.below(most + 1),
    };
    out.extend(format!("{number:0n$}").bytes());
}

#[cfg(test)]
mod tests {
    use super::*;
    use crate::truth::formula::{Fault, MOST_BYTES, expanded};

    #[test]
    fn every_length() {
        let (mut r, mut out) = (Random::new(5), Vec::new());
        let mut refused = 0;
        for n in (1..=MOST_BYTES).flat_map(|n| [n; 100]) {
            for within in [ANY, LIMITS] {
                out.clear();
                sum(&mut r, n, within, &mut out);
                assert_eq!(out.len(), n);
                match expanded(&out) {
                    Ok(_) => {}
                    Err(Fault::Degree { .. } | Fault::Size { .. }) if within.is_any() => {
                        refused += 1;
                    }
                    told => panic!("{}: {told:?}", out.escape_ascii()),
                }
            }
        }
        assert!(refused > 10_000, "{refused}");
    }
}
