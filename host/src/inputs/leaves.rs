//! Inputs for the leaves: by chance, and at the places where an answer changes.
use crate::compare::{Kind, kind};
use crate::inputs::random::{EDGES, Random};
use crate::truth::angle::{Sine, third_angle};
use crate::truth::exact::{Digits, digits, ldexp, nearest, thresholds};

/// The double `steps` patterns further on.
pub fn step(x: f64, steps: i64) -> f64 {
    f64::from_bits(x.to_bits().wrapping_add_signed(steps))
}

/// Each of them with its neighbours up to `reach` steps away.
pub fn neighbours(places: impl IntoIterator<Item = f64>, reach: i64) -> Vec<f64> {
    let around = |x| (-reach..=reach).map(move |s| step(x, s));
    places.into_iter().flat_map(around).collect()
}

fn many<T>(n: usize, mut f: impl FnMut() -> T) -> Vec<T> {
    (0..n).map(|_| f()).collect()
}

/// The edges with both signs.
pub fn edges() -> Vec<f64> {
    let both = |&n: &u64| [f64::from_bits(n), f64::from_bits(n | 1 << 63)];
    EDGES.iter().flat_map(both).collect()
}

/// NaNs: both signs, quiet and signalling, with one payload digit each and with payloads by chance.
fn nans(r: &mut Random) -> Vec<f64> {
    let mut all = Vec::new();
    let single = (0..52).map(|i| 1u64 << i);
    for payload in single.chain(many(5000, || r.next() >> 12 | 1)) {
        for sign in [0, 1 << 63] {
            all.push(f64::from_bits(0x7FF0_0000_0000_0000 | sign | payload));
        }
    }
    all
}

/// Each exponent field with `each` fractions by chance, and with the first and the last one; either
/// sign.
fn every_exponent(r: &mut Random, each: usize) -> Vec<f64> {
    let mut all = Vec::new();
    for field in (0..2048u64).map(|f| f << 52) {
        let ends = [0, (1 << 52) - 1];
        for fraction in ends.into_iter().chain(many(each, || r.next() >> 12)) {
            all.push(f64::from_bits(r.next() & 1 << 63 | field | fraction));
        }
    }
    all
}

/// 2^-1074 to 2^1023.
fn powers_of_two() -> Vec<f64> {
    (-1074..1024).map(|k| nearest(1, k)).collect()
}

/// What every leaf of one number is tried on: `n` times a thousand by chance, and the edges.
pub fn common(r: &mut Random, n: usize) -> Vec<Kind<f64>> {
    vec![
        kind("by chance", many(1000 * n, || r.bits())),
        kind("of every exponent", every_exponent(r, 60)),
        kind("at powers of two", neighbours(powers_of_two(), 3)),
        kind("subnormal", many(200_000, || r.subnormal())),
        kind("with few digits", many(200_000, || r.spread())),
        kind("edges", edges()),
        kind("near edges", neighbours(edges(), 3)),
        kind("NaN", nans(r)),
    ]
}

/// Without the sign: a root and a logarithm of what is below 0 is NaN, and need not be asked so
/// often.
pub fn without_sign(kinds: &mut [Kind<f64>]) {
    for kind in kinds.iter_mut().filter(|k| !k.name.contains("edges")) {
        for (i, x) in kind.inputs.iter_mut().enumerate() {
            *x = if i % 16 == 0 { *x } else { x.abs() };
        }
    }
}

/// m² * 4^j, for m of at most 26 digits, with neighbours.
pub fn squares(r: &mut Random, n: usize) -> Vec<f64> {
    let square = |r: &mut Random| {
        let m = r.next() >> (38 + r.below(24));
        nearest(m * m, 2 * (r.below(1030) as i32 - 530))
    };
    neighbours(many(n, || square(r)), 1)
}

/// m³ * 8^j, for m of at most 17 digits, with neighbours; either sign.
pub fn cubes(r: &mut Random, n: usize) -> Vec<f64> {
    let cube = |r: &mut Random| {
        let m = r.next() >> (47 + r.below(16));
        let size = nearest(m * m * m, 3 * (r.below(690) as i32 - 355));
        if r.below(2) == 0 { size } else { -size }
    };
    neighbours(many(n, || cube(r)), 1)
}

/// The double nearest to t * 2^k, where t may have more than 64 digits.
fn nearest_wide(t: u128, k: i32) -> f64 {
    let down = (64 - t.leading_zeros() as i32).max(0);
    let rest = down > 0 && t << (128 - down) != 0;
    nearest((t >> down) as u64 | rest as u64, k + down)
}

/// A number of 53 digits.
fn significand(r: &mut Random) -> u64 {
    r.next() >> 11 | 1 << 52
}

/// Doubles whose square roots lie about a middle between two doubles: nearest to (m + 1/2)² * 4^j,
/// and neighbours.
pub fn square_middles(r: &mut Random, n: usize) -> Vec<f64> {
    let middle = |r: &mut Random| {
        let t = 2 * significand(r) as u128 + 1;
        nearest_wide(t * t, 2 * (r.below(1020) as i32 - 590))
    };
    neighbours(many(n, || middle(r)), 1)
}

/// Doubles whose cube roots lie about a middle: nearest to (m + 1/2)³ * 8^j, and neighbours.
pub fn cube_middles(r: &mut Random, n: usize) -> Vec<f64> {
    let middle = |r: &mut Random| {
        let t = 2 * significand(r) as u128 + 1;
        // The lowest digits of t³ cannot move the nearest double by more than a step.
        nearest_wide(((t * t) >> 36) * t, 3 * (r.below(680) as i32 - 400) + 36)
    };
    neighbours(many(n, || middle(r)), 1)
}

/// The thresholds of L and what is just below, at `each` exponents by chance, cut to few digits
/// too, as a subnormal has.
pub fn threshold_places(r: &mut Random, each: usize) -> Vec<f64> {
    let mut all = Vec::new();
    for &t in thresholds() {
        for _ in 0..each {
            let k = r.below(2046) as i32 - 1074;
            all.extend((0..5).map(|s| nearest(t + s - 2, k)));
            let few = 1 + r.below(52) as i32;
            all.extend([0, 1].map(|up| nearest((t >> few) + up, -1074)));
        }
    }
    all
}

/// Doubles v at which c changes from one double to the next: v of the middle (2m + 1) / 2^54, and
/// neighbours.
pub fn third_middles(r: &mut Random, n: usize) -> Vec<f64> {
    let middle = |r: &mut Random| third_at(2 * significand(r) + 1);
    neighbours(many(n, || middle(r)), 2)
}

/// The same for the `n` middles to either side of √3/2, where v is about 0 and doubles come nearest
/// to a middle.
pub fn third_middles_at_zero(n: u64) -> Vec<f64> {
    let m = (0.75f64.sqrt() * (1u64 << 53) as f64) as u64;
    neighbours((m - n..m + n).map(|m| third_at(2 * m + 1)), 3)
}

/// The double nearest to v = 4c³ - 3c at c = t / 2^54: with y = t - 2^53, v is y²(y + 3 * 2^53) /
/// 2^160 - 1.
fn third_at(t: u64) -> f64 {
    use crate::truth::big::Big;
    let y = Big::from(t - (1 << 53));
    let sum = y.mul(&y).mul(&y.add(&Big::from(3u64 << 53)));
    let one = Big::power_of_two(160);
    let (size, below) = match sum < one {
        true => (one.sub(&sum), true),
        false => (sum.sub(&one), false),
    };
    let down = size.size().saturating_sub(64);
    let top = size.shr(down);
    let rest = top.shl(down) != size;
    let v = nearest(top.low() | rest as u64, down as i32 - 160);
    if below { -v } else { v }
}

/// Doubles v at which s of the exact c changes from one double to the next, and neighbours: found by
/// halving, as s falls where v grows.
pub fn sine_middles(r: &mut Random, n: usize) -> Vec<f64> {
    // the doubles from -1 to 1 in order
    let ordered = |n: i64| match n {
        0.. => f64::from_bits(n as u64),
        _ => -f64::from_bits(-n as u64),
    };
    let place = |r: &mut Random| {
        let v = 2.0 * r.unit() - 1.0;
        let near = if r.below(4) == 0 { 1.0 - ldexp(v + 1.0, -(r.below(50) as i32)) } else { v };
        let s = third_angle(Sine::OfExact, near).1;
        let one = 1f64.to_bits() as i64;
        let (mut low, mut high) = (-one, one);
        while high - low > 1 {
            let middle = low + (high - low) / 2;
            match third_angle(Sine::OfExact, ordered(middle)).1 >= s {
                true => low = middle,
                false => high = middle,
            }
        }
        ordered(low)
    };
    neighbours(many(n, || place(r)), 2)
}

/// Values of v for the third angle.
pub fn third(r: &mut Random) -> Vec<Kind<f64>> {
    let signed = |r: &mut Random, x: f64| if r.below(2) == 0 { x } else { -x };
    let tiny =
        |r: &mut Random| f64::from_bits(r.next() & 1 << 63 | r.below(1023) << 52 | r.next() >> 12);
    let near_one = |r: &mut Random| {
        let off = f64::from_bits((1022 - r.below(54)) << 52 | r.next() >> 12);
        signed(r, 1.0 - off)
    };
    vec![
        kind("from -1 to 1", many(1_500_000, || 2.0 * r.unit() - 1.0)),
        kind("of every size", many(600_000, || tiny(r))),
        kind("near ±1", many(600_000, || near_one(r))),
        kind("next to ±1", neighbours([1.0, -1.0], 10_000)),
        kind("by chance", many(50_000, || r.bits())),
        kind("subnormal", many(50_000, || r.subnormal())),
        kind("where c changes", third_middles(r, 250_000)),
        kind("where c changes, about 0", third_middles_at_zero(5000)),
        kind("where s changes", sine_middles(r, 50_000)),
        kind("edges", neighbours(edges(), 3)),
        kind("NaN", nans(r)),
    ]
}

/// x and k for ldexp: powers by chance, about whole steps of 1000, and such that the result is
/// about 2^-1022 or 2^1024.
pub fn scaled(r: &mut Random) -> Vec<Kind<(f64, i32)>> {
    let about = |r: &mut Random, n: i32| r.below(2 * n as u64 + 1) as i32 - n;
    let step = |r: &mut Random| 1000 * about(r, 5) + about(r, 2);
    let exponent = |x: f64| digits(x).map_or(0, |d: Digits| d.k + 52);
    let onto = |r: &mut Random, place: i32, reach: i32| {
        let x = if r.below(4) == 0 { r.subnormal() } else { r.spread() };
        (x, place + about(r, reach) - exponent(x))
    };
    let ends = [0, 1, -1, 1000, -1000, 1001, -1001, 2000, 2001, -2000, -2001, i32::MAX, i32::MIN];
    let at_ends = edges().into_iter().flat_map(|x| ends.map(|k| (x, k)));
    vec![
        kind("small powers", many(300_000, || (r.any(), about(r, 60)))),
        kind("powers to 4300", many(300_000, || (r.any(), about(r, 4300)))),
        kind("about steps", many(300_000, || (r.any(), step(r)))),
        kind("any power", many(200_000, || (r.any(), r.next() as i32))),
        kind("onto subnormals", many(700_000, || onto(r, -1050, 32))),
        kind("onto infinity", many(200_000, || onto(r, 1024, 4))),
        kind("edges", at_ends.collect()),
    ]
}

/// A coefficient list of degree 1 to 4: moderate numbers, small whole ones, numbers over 120 binary
/// places, any finite bits, or a product of factors whose roots may be close or equal.
pub fn list(r: &mut Random) -> Vec<f64> {
    let n = 2 + r.below(4) as usize;
    let finite = |x: f64| if x.is_finite() { x } else { 1.0 };
    let whole = |r: &mut Random| r.below(13) as f64 - 6.0;
    match r.below(5) {
        0 => many(n, || 20.0 * r.unit() - 10.0),
        1 => many(n, || whole(r)),
        2 => many(n, || ldexp(2.0 * r.unit() - 1.0, r.below(120) as i32 - 60)),
        3 => many(n, || finite(r.any())),
        _ => product(r, n - 1),
    }
}

/// The rounded coefficients of the product of (x - root), the roots small fractions that repeat, or
/// nearly so, and sizes apart by chance.
fn product(r: &mut Random, degree: usize) -> Vec<f64> {
    let mut root = 1.0;
    let mut p = vec![1.0];
    for _ in 0..degree {
        root = match r.below(4) {
            0 => root,
            1 => root * (1.0 + ldexp(1.0, -(r.below(50) as i32))),
            2 => ldexp(root, r.below(40) as i32 - 20),
            _ => (r.below(65) as f64 - 32.0) / 8.0,
        };
        let shifted = [&[0.0], &p[..]].concat();
        p.push(0.0);
        p = p.iter().zip(shifted).map(|(a, b)| b - a * root).collect();
    }
    p
}
