//! Whether a listed root is one, decided on whole numbers: the Rust lists others at times.
use crate::truth::big::Big;
use crate::truth::exact::digits;
use crate::truth::lister::trimmed;
use std::cmp::Ordering;

/// A root that counts once is looked at so many doubles to either side.
pub const REACH: i64 = 2;

/// One that counts more often has |p(x)| up to 2^-SHARE of the sum of its terms' sizes.
pub const SHARE: usize = 47;

/// A double, or what would come behind the largest one if the exponents went on.
#[derive(Clone, Copy, Debug, PartialEq, Eq)]
pub struct Point {
    negative: bool,
    /// How many doubles it is away from 0.
    steps: u64,
}

impl Point {
    /// The point so many doubles above x, through 0 where that is on the way.
    pub fn beside(x: f64, steps: i64) -> Point {
        let size = x.abs().to_bits() as i64;
        let at = steps + if x.is_sign_negative() { -size } else { size };
        Point { negative: at < 0, steps: at.unsigned_abs() }
    }

    /// None where it is beyond the largest double.
    pub fn double(self) -> Option<f64> {
        let size = f64::from_bits(self.steps);
        size.is_finite().then_some(if self.negative { -size } else { size })
    }

    /// w and k: its size is w * 2^k.
    fn digits(self) -> (u64, i64) {
        match (self.steps >> 52, self.steps & ((1 << 52) - 1)) {
            (0, low) => (low, -1074),
            (field, low) => (low | 1 << 52, field as i64 - 1075),
        }
    }
}

/// The exact value of a polynomial: its terms above 0 and those below, in units of 2^unit.
pub struct Value {
    above: Big,
    below: Big,
    pub unit: i64,
}

impl Value {
    /// With these coefficients, ascending; all are finite.
    fn at(coeffs: &[f64], point: Point) -> Value {
        let (w, k) = point.digits();
        let mut terms: Vec<(bool, Big, i64)> = Vec::new();
        let (mut negative, mut power, mut exponent) = (false, Big::from(1u64), 0);
        for a in coeffs {
            if let Some(a) = digits(*a).filter(|_| power.size() > 0) {
                let size = power.mul(&a.w.into());
                terms.push((a.negative != negative, size, exponent + i64::from(a.k)));
            }
            (negative, power, exponent) =
                (negative != point.negative, power.mul(&w.into()), exponent + k);
        }
        let unit = terms.iter().map(|term| term.2).min().unwrap_or(0);
        let sum = |below: bool| {
            let own = terms.iter().filter(|term| term.0 == below);
            own.fold(Big::from(0u64), |all, (_, n, k)| all.add(&n.shl((k - unit) as usize)))
        };
        Value { above: sum(false), below: sum(true), unit }
    }

    /// Whether it is above 0, or below.
    pub fn sign(&self) -> Ordering {
        self.above.cmp(&self.below)
    }

    /// Its size, in units.
    pub fn size(&self) -> Big {
        match self.sign() {
            Ordering::Less => self.below.sub(&self.above),
            _ => self.above.sub(&self.below),
        }
    }

    /// The sum of its terms' sizes, in units.
    pub fn terms(&self) -> Big {
        self.above.add(&self.below)
    }

    /// Whether its size is at most 2^-SHARE of that sum.
    fn small(&self) -> bool {
        self.size().shl(SHARE) <= self.terms()
    }
}

/// A polynomial at a listed root, and around it where that counts once.
pub struct Look {
    /// Ascending; the root is in the middle.
    pub seen: Vec<(Point, Value)>,
}

impl Look {
    /// At x, which is listed with this multiplicity.
    pub fn at(coeffs: &[f64], x: f64, multiplicity: u32) -> Look {
        let coeffs = &coeffs[..trimmed(coeffs)];
        let reach = if multiplicity > 1 { 0 } else { REACH };
        let points = (-reach..=reach).map(|steps| Point::beside(x, steps));
        Look { seen: points.map(|point| (point, Value::at(coeffs, point))).collect() }
    }

    /// Whether the polynomial is above 0 at a point, or below.
    pub fn sign(coeffs: &[f64], point: Point) -> Ordering {
        Value::at(coeffs, point).sign()
    }

    /// The value at the root.
    pub fn here(&self) -> &Value {
        &self.seen[self.seen.len() / 2].1
    }

    /// Whether only the root was looked at.
    pub fn multiple(&self) -> bool {
        self.seen.len() == 1
    }

    /// Whether the value is 0 at some point, or has both signs.
    fn crosses(&self) -> bool {
        let mut signs = self.seen.iter().map(|(_, value)| value.sign());
        let first = signs.next().unwrap_or(Ordering::Equal);
        first == Ordering::Equal || signs.any(|sign| sign != first)
    }

    pub fn doubtful(&self) -> bool {
        !if self.multiple() { self.here().small() } else { self.crosses() }
    }
}

#[cfg(test)]
mod tests {
    use super::*;
    use crate::truth::exact::ldexp;

    fn doubtful(coeffs: &[f64], x: f64, multiplicity: u32) -> bool {
        Look::at(coeffs, x, multiplicity).doubtful()
    }

    fn moved(x: f64, steps: i64) -> f64 {
        Point::beside(x, steps).double().unwrap()
    }

    const TINY: f64 = f64::from_bits(1);

    #[test]
    fn points() {
        assert_eq!(moved(1.0, 1), 1.0 + f64::EPSILON);
        assert_eq!(moved(-1.0, 1), -1.0 + f64::EPSILON / 2.0);
        assert_eq!([moved(-TINY, 2), moved(TINY, -3)], [TINY, -2.0 * TINY]);
        assert_eq!([moved(0.0, -2), moved(-0.0, 2)], [-2.0 * TINY, 2.0 * TINY]);
        assert_eq!(moved(f64::MAX, 0), f64::MAX);
        assert_eq!(Point::beside(f64::MAX, 1).double(), None);
        assert_eq!(Point::beside(f64::MAX, 1).digits(), (1 << 52, 972));
        assert_eq!(Point::beside(-f64::MAX, -2).digits(), ((1 << 52) + 1, 972));
    }

    #[test]
    fn roots_pass() {
        let (large, least) = (ldexp(1.0, 1023), f64::MIN_POSITIVE);
        for (coeffs, x, multiplicity) in [
            (&[2.0, -3.0, 1.0][..], 1.0, 1),
            (&[2.0, -3.0, 1.0], 2.0, 1),
            (&[-2.0, 0.0, 1.0], 2f64.sqrt(), 1),
            (&[0.0, 0.0, 3.0], -0.0, 2),
            (&[-0.0, 5.0, 3.0], 0.0, 1),
            (&[-6.0, 2.0, 0.0, 0.0], 3.0, 1),
            (&[1.0, 2.0, 1.0], -1.0, 2),
            (&[-ldexp(1.0, 1000), ldexp(1.0, -23)], large, 1),
            (&[TINY, -f64::MAX, 1.0], f64::MAX, 1),
            // the root is 2^1024, one step beyond the largest double
            (&[-f64::MAX, 1.0 - f64::EPSILON / 2.0], f64::MAX, 1),
            // and here it is smaller than any double but 0
            (&[1e-300, 1e300], -0.0, 1),
            (&[least, 1.0], -least, 1),
            (&[-TINY, 2.0], 0.0, 1),
            // all that rounds at its bound, |a_0 / a_1|
            (&[4.738138394651668e118, 8.568255354516641e74], -5.529875334719129e43, 1),
            (&[], 5.0, 1),
            (&[0.0, -0.0], 5.0, 2),
        ] {
            assert!(!doubtful(coeffs, x, multiplicity), "{coeffs:?} {x:e}");
        }
    }

    #[test]
    fn others_do_not() {
        let tail = ldexp(1.0, -538);
        for (coeffs, x, multiplicity) in [
            (&[2.0, -3.0, 1.0][..], 1.001, 1),
            (&[2.0, -3.0, 1.0], 1.5, 2),
            (&[1.0, 0.0, 1.0], 0.0, 1),
            (&[1.0, 0.0, 1.0], -0.0, 2),
            (&[1.0, 0.0, 2.0, ldexp(1.0, -25), 1.0], 524287.99, 1),
            (&[0.0, 1.0], 2.0, 1),
            (&[0.0, 1.0, 1.5, 1.0], -2.0 / 3.0, 1),
            (&[2.0, -3.0, 1.0, tail], 0.0, 1),
            (&[2.0, -3.0, 1.0, tail], f64::from_bits(0x4007_504F_333F_9DE6), 1),
            (&[1.0, TINY], -f64::MAX, 1),
            (&[7.0], 1.0, 1),
            (&[7.0, 0.0], 0.0, 2),
        ] {
            assert!(doubtful(coeffs, x, multiplicity), "{coeffs:?} {x:e}");
        }
        assert!(!doubtful(&[2.0, -3.0, 1.0, tail], -ldexp(1.0, 538), 1));
    }

    /// The root is exactly two steps off, or three.
    #[test]
    fn at_two_steps() {
        for root in [1.0, -1.0, 3.0, 0.0, TINY, -ldexp(1.0, -1022), ldexp(1.0, 1000), f64::MAX] {
            let p = [-root, 1.0];
            for steps in -2..=2 {
                if let Some(x) = Point::beside(root, steps).double() {
                    assert!(!doubtful(&p, x, 1), "{root:e} {steps}");
                }
            }
            assert!(doubtful(&p, moved(root, -3), 1), "{root:e}");
        }
        // between the second and the third step: 3x - 1 from 1/3, which is rounded down
        let third = 1.0 / 3.0;
        assert!(!doubtful(&[-1.0, 3.0], moved(third, -1), 1));
        assert!(doubtful(&[-1.0, 3.0], moved(third, -2), 1));
        assert!(!doubtful(&[-1.0, 3.0], moved(third, 2), 1));
        assert!(doubtful(&[-1.0, 3.0], moved(third, 3), 1));
    }

    /// |p(x)| against 2^-47 of the sum of the terms' sizes.
    #[test]
    fn at_the_share() {
        // a - b = 2^-47 (a + b) for a = 2^47 + 1 and b = 2^47 - 1
        let (a, b) = (ldexp(1.0, 47) + 1.0, ldexp(1.0, 47) - 1.0);
        assert!(!doubtful(&[a, -b], 1.0, 2));
        assert!(!doubtful(&[a, b], -1.0, 2));
        assert!(doubtful(&[moved(a, 1), -b], 1.0, 2));
        assert!(doubtful(&[a, -moved(b, -1)], 1.0, 2));
        assert!(!doubtful(&[moved(a, -1), -b], 1.0, 2));
    }
}
