//! `exact` against `plain`: the guesses and shortcuts of the one against the other's search, a
//! binary digit at a time.
use host::compare::{Kind, compare, kind};
use host::inputs::leaves;
use host::inputs::random::Random;
use host::truth::angle::{self, Sine};
use host::truth::big::Big;
use host::truth::exact::{self, digits};
use host::truth::plain;

/// `n` of each kind, and only those that are finite and above 0.
fn some(kinds: Vec<Kind<f64>>, n: usize, wanted: impl Fn(f64) -> bool) -> Vec<Kind<f64>> {
    let few = |k: Kind<f64>| {
        let step = k.inputs.len().div_ceil(n);
        let inputs = k.inputs.into_iter().step_by(step).filter(|&x| wanted(x));
        kind(k.name, inputs.collect())
    };
    kinds.into_iter().map(few).collect()
}

fn positive(x: f64) -> bool {
    x > 0.0 && x.is_finite()
}

#[test]
fn sqrt() {
    let mut r = Random::new(201);
    let mut kinds = leaves::common(&mut r, 10);
    leaves::without_sign(&mut kinds);
    kinds.push(kind("at squares", leaves::squares(&mut r, 100)));
    kinds.push(kind("at middles", leaves::square_middles(&mut r, 100)));
    let kinds = some(kinds, 150, positive);
    compare("exact sqrt", 201, &kinds, exact::sqrt, plain::sqrt);
}

#[test]
fn cbrt() {
    let mut r = Random::new(202);
    let mut kinds = leaves::common(&mut r, 10);
    kinds.push(kind("at cubes", leaves::cubes(&mut r, 100)));
    kinds.push(kind("at middles", leaves::cube_middles(&mut r, 100)));
    let kinds = some(kinds, 150, |x| x.is_finite() && x != 0.0);
    let plainly = |x: f64| plain::cbrt(x).copysign(x);
    compare("exact cbrt", 202, &kinds, exact::cbrt, plainly);
}

#[test]
fn third_angle() {
    let kinds = leaves::third(&mut Random::new(203));
    let kinds = some(kinds, 100, |v| v.abs() <= 1.0);
    let plainly = |v| {
        let c = plain::third_cos(v);
        (c, plain::third_sin(c))
    };
    let exactly = |v| angle::third_angle(Sine::OfRounded, v);
    compare("exact third angle", 203, &kinds, exactly, plainly);
    let exactly = |v| angle::third_angle(Sine::OfExact, v).1;
    compare("s of the exact c", 203, &kinds, exactly, plain::third_sin_of_exact);
    compare("s of the exact c by digits of c", 203, &kinds, exactly, by_digits_of_c);
}

/// The last whole number that passes, and the next one, where `low` passes and `high` does not.
fn halved(mut low: Big, mut high: Big, passes: impl Fn(&Big) -> bool) -> (Big, Big) {
    while high.sub(&low) > Big::from(1u64) {
        let middle = low.add(&high).shr(1);
        match passes(&middle) {
            true => low = middle,
            false => high = middle,
        }
    }
    (low, high)
}

/// √(1 - c²) from 400 digits of c, the greatest solution of 4c³ - 3c = v, found by halving: from
/// either end of what c lies in.
fn by_digits_of_c(v: f64) -> f64 {
    const DIGITS: usize = 400;
    // 2^(3 * 1074) * (4c³ - 3c) is at most that of v
    let one = Big::power_of_two(DIGITS);
    let size = plain::units(v);
    let at_most = |c: &Big| {
        let cube = c.mul(c).mul(c).shl(2);
        let rest = c.mul(&Big::from(3u64)).shl(2 * DIGITS);
        let (left, right) = match v < 0.0 {
            true => (cube.shl(1074).add(&size.shl(3 * DIGITS)), rest.shl(1074)),
            false => (cube.shl(1074), rest.shl(1074).add(&size.shl(3 * DIGITS))),
        };
        left <= right
    };
    let (low, high) = halved(Big::power_of_two(DIGITS - 1), one.add(&Big::from(1u64)), &at_most);
    let sine = |c: &Big| {
        let square = Big::power_of_two(2 * DIGITS).sub(&c.mul(c));
        halved(Big::from(0u64), Big::power_of_two(DIGITS), |s| s.mul(s) <= square).0
    };
    // units of 2^-1074, as `nearest` takes them
    let double = |s: &Big| plain::nearest(&s.shl(1074), DIGITS);
    let exact = at_most(&low) && v.abs() == 1.0;
    let least = if exact { sine(&low) } else { sine(&high.min(one)) };
    let most = sine(&low).add(&Big::from(u64::from(!exact)));
    assert_eq!(double(&least), double(&most), "{v:e}");
    double(&least)
}

#[test]
fn log2() {
    let mut r = Random::new(204);
    let mut kinds = leaves::common(&mut r, 10);
    leaves::without_sign(&mut kinds);
    let mut kinds = some(kinds, 20, positive);
    // The power of 256 of a number of 2,098 digits takes milliseconds; of one of 53 digits, not.
    let places = leaves::threshold_places(&mut r, 2).into_iter().map(near_the_unit);
    kinds.push(kind("at thresholds", places.collect()));
    let plainly = |x| plain::log2_grid(x) as f64 / 256.0;
    compare("exact log2", 204, &kinds, exact::log2, plainly);
}

/// The same digits, as a number of units below 2^53.
fn near_the_unit(x: f64) -> f64 {
    digits(x).map_or(1.0, |d| exact::nearest(d.w, -1074))
}

#[test]
fn ldexp() {
    let kinds = leaves::scaled(&mut Random::new(205));
    let few = |k: Kind<(f64, i32)>| {
        let step = k.inputs.len().div_ceil(4000);
        let inputs = k.inputs.into_iter().step_by(step);
        let finite = inputs.filter(|(x, k)| x.is_finite() && k.unsigned_abs() < 5000);
        kind(k.name, finite.collect())
    };
    let kinds: Vec<_> = kinds.into_iter().map(few).collect();
    compare("exact ldexp", 205, &kinds, |(x, k)| exact::ldexp(x, k), |(x, k)| chain(x, k));
}

/// The Rust's chain, each product rounded once by `plain`.
fn chain(x: f64, k: i32) -> f64 {
    match k {
        1001.. => chain_on(plain::times_power(x, 1000), k - 1000),
        ..=-1001 => chain_on(plain::times_power(x, -1000), k + 1000),
        _ => plain::times_power(x, k),
    }
}

fn chain_on(x: f64, k: i32) -> f64 {
    if x.is_finite() { chain(x, k) } else { x }
}

#[test]
fn scale_exponent() {
    let mut r = Random::new(206);
    let list = |r: &mut Random| {
        let d = r.below(5) as usize;
        let any = |r: &mut Random| if r.below(6) == 0 { 0.0 } else { r.any() };
        let mut a: [f64; 5] = std::array::from_fn(|i| if i <= d { any(r) } else { 0.0 });
        a = a.map(|x| if x.is_finite() { x } else { 3.0 });
        a[d] = if a[d] == 0.0 { 1.0 } else { a[d] };
        a
    };
    let close = |r: &mut Random| {
        let x = r.unit() + 0.5;
        let near = |r: &mut Random| {
            exact::ldexp(leaves::step(x, r.below(3) as i64 - 1), r.below(9) as i32)
        };
        std::array::from_fn(|_| near(r))
    };
    let kinds = [
        kind("by chance", (0..600).map(|_| list(&mut r)).collect()),
        kind("nearly powers apart", (0..600).map(|_| close(&mut r)).collect()),
        kind("entries", vec![[2.0, -3.0, 1.0, 0.0, 0.0], [1.0, 1.0, 0.0, 0.0, 0.0]]),
    ];
    let trimmed = |a: [f64; 5]| {
        let n = a.iter().rposition(|&x| x != 0.0).unwrap() + 1;
        a[..n].to_vec()
    };
    let by = |f: fn(&[f64]) -> i32| move |a: [f64; 5]| f(&trimmed(a));
    compare("exact e", 206, &kinds, by(exact::scale_exponent), by(plain::scale_exponent));
}

/// Document 01's entries marked P, and what else is known of the leaves.
#[test]
fn entries() {
    let tiny = f64::from_bits(1);
    assert_eq!(exact::sqrt(tiny), exact::ldexp(1.0, -537));
    assert_eq!(exact::cbrt(27.0), 3.0);
    for sine in Sine::BOTH {
        assert_eq!(angle::third_angle(sine, 1.0), (1.0, 0.0));
        assert_eq!(angle::third_angle(sine, -1.0), (0.5, 0.75f64.sqrt()));
    }
    assert_eq!(exact::log2(3.0), 405.0 / 256.0);
    assert_eq!(exact::scale_exponent(&[2.0, -3.0, 1.0]), 2);
    assert_eq!(exact::scale_exponent(&[f64::from_bits(0x3FF0_0000_0000_0001), 1.0]), 1);
    assert_eq!(exact::scale_exponent(&[1.0, 1.0]), 0);
    assert_eq!(exact::exponent(f64::from_bits(0x000F_FFFF_FFFF_FFFF)), -1023);
    let twice = exact::ldexp(f64::from_bits(0x3E1A_6C40_0000_0001), -1031);
    assert_eq!(twice.to_bits(), 0x34D8);
    for zero in [0.0, -0.0] {
        let both = Sine::BOTH.map(|sine| angle::third_angle(sine, zero));
        assert_eq!(both.map(|(c, _)| c.to_bits()), [0x3FEB_B67A_E858_4CAA; 2]);
        assert_eq!(both.map(|(_, s)| s.to_bits()), [0x3FE0_0000_0000_0001, 0x3FE0_0000_0000_0000]);
    }
    let below_one = Sine::BOTH.map(|sine| angle::third_angle(sine, leaves::step(1.0, -1)));
    assert_eq!(below_one, [(1.0, 0.0), (1.0, f64::from_bits(0x3E35_5555_5555_5555))]);
    assert_eq!(exact::thresholds()[0], 1 << 52);
    assert_eq!(exact::thresholds()[255], 8982844293129178);
}
