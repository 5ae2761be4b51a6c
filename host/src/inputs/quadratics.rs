//! Quadratics and crank equations to compare on: the kinds of `polynomials`, with tolerances at
//! which something changes.
use crate::inputs::polynomials::polynomial;
use crate::inputs::random::Random;

/// a, b and c; confusion and angular.
pub type Quadratic = ([f64; 3], [f64; 2]);

/// 2^-30
pub const TOL: f64 = 1.0 / (1u64 << 30) as f64;

/// A power of two, from 2^-1022 to 2^1023, with either sign; often 1.
fn power(r: &mut Random) -> f64 {
    match r.below(4) {
        0..=2 => 1.0,
        _ => f64::from_bits((1 + r.below(2046)) << 52 | r.next() & 1 << 63),
    }
}

/// A tolerance: 2^-30, a zero, about |x|, or any double.
fn tolerance(r: &mut Random, x: f64) -> f64 {
    match r.below(8) {
        0..=3 => TOL,
        4 => 0.0,
        5 => f64::from_bits(x.abs().to_bits().wrapping_add(r.below(3)).wrapping_sub(1)),
        6 => (r.unit() - 0.25) * x,
        _ => r.any(),
    }
}

/// A quadratic of a kind of `polynomials`, now and then linear or with a double root by the band.
pub fn quadratic(r: &mut Random, which: usize) -> Quadratic {
    let (p, y) = polynomial(r, which, 2);
    let by = power(r);
    let mut abc = [p[2] * by, p[1] * by, p[0] * by];
    match r.below(16) {
        0 => abc[0] = 0.0,
        1 => abc[0] = (r.unit() - 0.5) * TOL,
        2 => abc[1] = (r.unit() - 0.5) * TOL,
        3 => abc[2] += y * TOL * TOL,
        _ => (),
    }
    (abc, [tolerance(r, abc[1]), tolerance(r, abc[0])])
}

/// An answer's number, at times none's, and two places of any bits, with a third number.
pub fn solution(r: &mut Random) -> ((u32, [f64; 2]), f64) {
    let n = r.below(6) as u32;
    ((if n == 5 { r.next() as u32 } else { n }, [r.any(), r.any()]), r.any())
}

/// The five numbers of a crank equation: some of them zeros, so that samples tie, and some so large
/// that the quartic overflows.
pub fn crank(r: &mut Random, which: usize) -> [f64; 5] {
    let (mut p, _) = polynomial(r, which, 4);
    let by = power(r);
    for x in &mut p {
        *x *= by;
        if r.below(4) == 0 {
            *x = if r.below(2) == 0 { 0.0 } else { -0.0 };
        }
    }
    p
}
