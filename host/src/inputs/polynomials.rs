//! Polynomials and square systems to compare on: by chance, with roots that come together, with
//! sizes far apart, with zeros of both signs and with what is not finite.
use crate::compare::{Kind, kind};
use crate::inputs::random::Random;

/// The kinds of polynomials.
pub const KINDS: [&str; 9] = [
    "of any doubles",
    "with roots apart",
    "with multiple roots",
    "with near-multiple roots",
    "with tight triples",
    "with complex pairs",
    "with sizes far apart",
    "with zeros of both signs",
    "not finite",
];

/// From -2 to 2.
fn within_two(r: &mut Random) -> f64 {
    4.0 * r.unit() - 2.0
}

/// Of few digits, so that products of a few are exact.
fn short(r: &mut Random) -> f64 {
    (r.below(65) as f64 - 32.0) / 16.0
}

/// 2^-k for k from `least` to `most`.
fn tiny(r: &mut Random, least: u64, most: u64) -> f64 {
    let k = least + r.below(most - least + 1);
    f64::from_bits((1023 - k) << 52)
}

/// Moved by at most 2^-20, as little as 2^-60, or not at all.
fn moved(r: &mut Random, x: f64) -> f64 {
    match r.below(4) {
        0 => x,
        _ => x + within_two(r) * tiny(r, 20, 60),
    }
}

/// A zero or a small number with either sign.
fn signed_zero(r: &mut Random) -> f64 {
    let sizes = [0.0, 0.0, 0.0, 1.0, 0.5, f64::MIN_POSITIVE, f64::from_bits(1)];
    let size = sizes[r.below(7) as usize];
    if r.below(2) == 0 { size } else { -size }
}

/// A size from 2^-320 to 2^320.
fn far(r: &mut Random) -> f64 {
    let scale = f64::from_bits((1023 - 320 + r.below(641)) << 52);
    within_two(r) * scale
}

const NOT_FINITE: [f64; 4] = [f64::INFINITY, f64::NEG_INFINITY, f64::NAN, f64::MAX];

/// Four roots, some of them together.
fn roots(r: &mut Random, which: usize) -> [f64; 4] {
    let (a, b) = (within_two(r), within_two(r));
    match which {
        1 => [a, b, within_two(r), within_two(r)],
        2 => {
            let (a, b) = (short(r), short(r));
            [[a, a, b, b], [a, a, a, b], [a, a, a, a], [a, a, b, short(r)]][r.below(4) as usize]
        }
        3 => [a, moved(r, a), b, moved(r, b)],
        _ => [a, moved(r, a), moved(r, a), b],
    }
}

/// The coefficients, ascending, of the product of y - x over the first d roots.
pub fn product(roots: &[f64; 4], d: usize) -> [f64; 5] {
    let mut p = [1.0, 0.0, 0.0, 0.0, 0.0];
    for (n, x) in roots[..d].iter().enumerate() {
        for i in (0..=n + 1).rev() {
            let below = if i == 0 { 0.0 } else { p[i - 1] };
            p[i] = below - x * p[i];
        }
    }
    p
}

/// Two quadratics with small discriminants of either sign, multiplied out.
fn pairs(r: &mut Random, d: usize) -> [f64; 5] {
    let (a, b) = (within_two(r), if r.below(2) == 0 { within_two(r) } else { 0.0 });
    let quad = |r: &mut Random, a: f64| (-2.0 * a, a * a + within_two(r) * tiny(r, 0, 50));
    let ((al, be), (ga, de)) = (quad(r, a), quad(r, b));
    match d {
        4 => [be * de, al * de + be * ga, be + de + al * ga, al + ga, 1.0],
        3 => [-b * be, be - b * al, al - b, 1.0, 0.0],
        _ => [be, al, 1.0, 0.0, 0.0],
    }
}

/// A polynomial of degree d, ascending, monic where it comes from roots; one of its roots, or a
/// number by chance.
pub fn polynomial(r: &mut Random, which: usize, d: usize) -> ([f64; 5], f64) {
    let mut of = |f: fn(&mut Random) -> f64| {
        let p = std::array::from_fn(|_| f(r));
        (p, f(r))
    };
    match which {
        0 => of(Random::any),
        1..=4 => {
            let x = roots(r, which);
            (product(&x, d), x[0])
        }
        5 => (pairs(r, d), within_two(r)),
        6 => of(far),
        7 => of(signed_zero),
        _ => {
            let mut p = std::array::from_fn(|_| within_two(r));
            p[r.below(d as u64 + 1) as usize] = NOT_FINITE[r.below(4) as usize];
            (p, if r.below(4) == 0 { NOT_FINITE[r.below(4) as usize] } else { within_two(r) })
        }
    }
}

/// `each` inputs of every kind, made by f.
pub fn every_kind<T>(
    r: &mut Random,
    each: usize,
    f: impl Fn(&mut Random, usize) -> T,
) -> Vec<Kind<T>> {
    let inputs = |(which, name): (usize, &&'static str)| {
        kind(name, (0..each).map(|_| f(r, which)).collect())
    };
    KINDS.iter().enumerate().map(inputs).collect()
}

/// A polynomial, its degree, and where to evaluate it: at a root, near it, or anywhere.
pub fn evaluated(r: &mut Random, which: usize) -> ([f64; 5], u64, f64) {
    let d = r.below(5);
    let (p, y) = polynomial(r, which, d as usize);
    let y = match r.below(4) {
        0 => y,
        1 => within_two(r),
        2 => r.any(),
        _ => moved(r, y),
    };
    (p, d, y)
}

/// The coefficients below the leading 1 of a polynomial of degree d, highest first.
pub fn monic<const D: usize>(r: &mut Random, which: usize) -> [f64; D] {
    let (p, _) = polynomial(r, which, D);
    std::array::from_fn(|i| p[D - 1 - i])
}

/// A square system: rows, then the right-hand side; by its kind the entries come from polynomials,
/// some rows are equal or multiples of each other, and pivots tie.
pub fn system<const N: usize>(r: &mut Random, which: usize) -> ([[f64; N]; N], [f64; N], f64) {
    let mut m = [[0.0; N]; N];
    for row in &mut m {
        let (p, _) = polynomial(r, which, 4);
        *row = std::array::from_fn(|i| p[i]);
    }
    if N == 4 && which < 6 && r.below(2) == 0 {
        m = jacobian(r, which);
    }
    if r.below(4) == 0 {
        let (i, j) = (r.below(N as u64) as usize, r.below(N as u64) as usize);
        let times = [1.0, -1.0, 2.0, 0.0][r.below(4) as usize];
        m[i] = m[j].map(|x| times * x);
        let k = r.below(N as u64) as usize;
        m[i][k] = moved(r, m[i][k]);
    }
    let (b, x) = polynomial(r, which, 4);
    let tols = [0.0, 0.0, 1e-12, 1e-300, 0.25, x, at_pivot(r, &m)];
    (m, std::array::from_fn(|i| b[i]), tols[r.below(7) as usize])
}

/// The tolerance at which the bound is as large as the first pivot, or a double beside it: the last
/// digits of the entry sum decide.
fn at_pivot<const N: usize>(r: &mut Random, m: &[[f64; N]; N]) -> f64 {
    let sum: f64 = m.as_flattened().iter().map(|x| x.abs()).sum();
    let pivot = m.iter().map(|row| row[0].abs()).fold(0.0, f64::max);
    f64::from_bits((pivot / sum).to_bits().wrapping_add(r.below(3)).wrapping_sub(1))
}

/// The rows of derivatives of `quartic_factor`'s equations at two quadratics, as an N x N matrix.
fn jacobian<const N: usize>(r: &mut Random, which: usize) -> [[f64; N]; N] {
    let x: [f64; 4] = quadratics(r, which);
    let j = [
        [1.0, 0.0, 1.0, 0.0],
        [x[2], 1.0, x[0], 1.0],
        [x[3], x[2], x[1], x[0]],
        [0.0, x[3], 0.0, x[1]],
    ];
    std::array::from_fn(|i| std::array::from_fn(|k| j[i % 4][k % 4]))
}

/// Two quadratics y² + al y + be and y² + ga y + de.
pub fn quadratics(r: &mut Random, which: usize) -> [f64; 4] {
    match which {
        1..=4 => {
            let mut x = roots(r, which);
            if r.below(2) == 0 {
                x.swap(1, 3);
            }
            [-x[0] - x[1], x[0] * x[1], -x[2] - x[3], x[2] * x[3]]
        }
        5 => {
            let a = within_two(r);
            let quad = |r: &mut Random| (-2.0 * a, a * a + within_two(r) * tiny(r, 0, 50));
            let ((al, be), (ga, de)) = (quad(r), quad(r));
            [al, be, ga, de]
        }
        _ => monic(r, which),
    }
}

/// A monic polynomial of degree D and numbers to refine from: coefficients of factors near its own,
/// or of others.
pub fn refined<const D: usize>(
    r: &mut Random,
    which: usize,
    factors: impl Fn(&[f64; 4]) -> [f64; D],
) -> ([f64; D], [f64; D]) {
    let (p, x) = match which {
        1..=4 => {
            let x = roots(r, which);
            (product(&x, D), x)
        }
        _ => {
            let (p, y) = polynomial(r, which, D);
            (p, [y, p[0], p[1], p[2]])
        }
    };
    let mut start = factors(&x);
    for v in &mut start {
        *v = match r.below(8) {
            0 => within_two(r),
            1..=3 => *v + within_two(r) * tiny(r, 2, 20),
            _ => moved(r, *v),
        };
    }
    (std::array::from_fn(|i| p[D - 1 - i]), start)
}
