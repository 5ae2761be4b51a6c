//! The same definitions as in `exact`, as plain as they are slow: numbers in units of 2^-1074,
//! roots found a binary digit at a time, nothing guessed. Tests hold `exact` against them.
use crate::truth::big::Big;

/// The size of a finite double in units of 2^-1074.
pub fn units(x: f64) -> Big {
    let bits = x.abs().to_bits();
    let (field, low) = (bits >> 52, bits & ((1 << 52) - 1));
    match field {
        0 => Big::from(low),
        _ => Big::from(low | 1 << 52).shl(field as usize - 1),
    }
}

/// The greatest t below 2^digits that passes; what is below one that passes, passes.
fn greatest(digits: usize, passes: impl Fn(&Big) -> bool) -> Big {
    (0..digits).rev().fold(Big::from(0u64), |t, i| {
        let more = t.add(&Big::power_of_two(i));
        if passes(&more) { more } else { t }
    })
}

/// The double nearest to n * 2^-(1074 + below); of two equally near, the even one.
pub fn nearest(n: &Big, below: usize) -> f64 {
    let n = n.shl(1);
    // 53 digits are kept, or down to the unit.
    let drop = n.size().saturating_sub(53).max(below + 1);
    let whole = n.shr(drop);
    let rest = n.sub(&whole.shl(drop));
    let half = Big::power_of_two(drop - 1);
    let up = rest > half || (rest == half && whole.low() % 2 == 1);
    let bits = ((drop - below - 1) as u64) << 52;
    f64::from_bits((bits + whole.low() + up as u64).min(0x7FF0_0000_0000_0000))
}

/// The double nearest to t units where that is exact, else to what lies between t and t + 1 of
/// them.
fn nearest_root(t: &Big, exact: bool) -> f64 {
    nearest(&t.shl(1).add(&Big::from(!exact as u64)), 1)
}

/// √x for an x above 0. The root of n units has √(n * 2^1074) units.
pub fn sqrt(x: f64) -> f64 {
    root_of(&units(x).shl(1074), 1)
}

/// ∛x for an x above 0. The root of n units has ∛(n * 2^2148) units.
pub fn cbrt(x: f64) -> f64 {
    root_of(&units(x).shl(2148), 2)
}

/// The double nearest to the root of n that t * t, or t * t * t, has.
fn root_of(n: &Big, products: usize) -> f64 {
    let power = |t: &Big| (0..products).fold(t.clone(), |p, _| p.mul(t));
    let t = greatest(n.size() / (products + 1) + 1, |t| power(t) <= *n);
    nearest_root(&t, power(&t) == *n)
}

/// c for a v from -1 to 1. In units 4c³ = 3c + v is 4t³ = (3t ± n) * 2^2148; from a half on 4c³ -
/// 3c grows.
pub fn third_cos(v: f64) -> f64 {
    let n = units(v).shl(2148);
    let sides = |t: &Big| {
        let left = t.mul(t).mul(t).shl(2);
        let right = t.mul(&Big::from(3u64)).shl(2148);
        match v < 0.0 {
            true => (left.add(&n), right),
            false => (left, right.add(&n)),
        }
    };
    let t = greatest(1075, |t| {
        let (left, right) = sides(t);
        *t <= Big::power_of_two(1073) || left <= right
    });
    let (left, right) = sides(&t);
    nearest_root(&t, left == right)
}

/// √(1 - c²) for a c from 0 to 1.
pub fn third_sin(c: f64) -> f64 {
    let u = units(c);
    root_of(&Big::power_of_two(2148).sub(&u.mul(&u)), 1)
}

/// √(1 - c²) for the c before it is rounded, of a v from -1 to 1: t is at most s where it is at most
/// √3/2 and v at most √(1 - t²)(1 - 4t²). A number below 0 counts by its square, turned round.
pub fn third_sin_of_exact(v: f64) -> f64 {
    let one = Big::power_of_two(2148);
    let size = units(v).mul(&units(v)).shl(4 * 1074);
    let squared = |t: &Big| {
        let square = t.mul(t);
        let (four, rest) = (square.shl(2), one.sub(&square));
        let (below, part) = match four > one {
            true => (true, four.sub(&one)),
            false => (false, one.sub(&four)),
        };
        (below, rest.mul(&part.mul(&part)))
    };
    let inside = |t: &Big| t.mul(t).shl(2) <= one.mul(&Big::from(3u64));
    let at_most = |t: &Big| match (v < 0.0, squared(t)) {
        (false, (false, right)) => size <= right,
        (true, (true, right)) => right <= size,
        (negative, _) => negative,
    };
    let t = greatest(1075, |t| inside(t) && at_most(t));
    nearest_root(&t, squared(&t).1 == size)
}

/// 256 times L(x), for an x above 0: n units to the power of 256 have one digit more, counted from
/// 2^-(256 * 1074).
pub fn log2_grid(x: f64) -> i64 {
    units(x).squared(8).size() as i64 - 1 - 256 * 1074
}

/// x * 2^k for a finite x, rounded once.
pub fn times_power(x: f64, k: i32) -> f64 {
    let n = units(x).shl(k.max(0) as usize);
    nearest(&n, (-k).max(0) as usize).copysign(x)
}

/// e of a list whose last number is not 0: the smallest whole number that holds; 0 where all the
/// others are 0, so that every one does.
pub fn scale_exponent(a: &[f64]) -> i32 {
    let d = a.len() - 1;
    let top = units(a[d]);
    // Both sides times 2^(2200 j), so that no power of two is below 1.
    let holds = |e: i32| {
        (0..d).all(|i| {
            let j = d - i;
            units(a[i]).shl(2200 * j) <= top.shl((e + 2200) as usize * j)
        })
    };
    match holds(-2200) {
        true => 0,
        false => (-2199..2200).find(|&e| holds(e)).expect("at most 2098"),
    }
}
