//! The port's methods on doubles against Rust's own where document 01 keeps them, else against
//! `methods`.
use host::compare::{Kind, compare, kind};
use host::inputs::leaves;
use host::inputs::random::Random;
use host::port;
use host::truth::methods;

const SEED: u64 = 301;

fn singles() -> Vec<Kind<f64>> {
    leaves::common(&mut Random::new(SEED), 1500)
}

fn pairs() -> Vec<Kind<(f64, f64)>> {
    let mut r = Random::new(SEED);
    let edges = leaves::edges();
    let all = edges.iter().flat_map(|&x| edges.iter().map(move |&y| (x, y)));
    let any = (0..1_500_000).map(|_| (r.any(), r.any())).collect();
    let close = |r: &mut Random| {
        let x = r.any();
        (x, leaves::step(x, r.below(5) as i64 - 2))
    };
    vec![
        kind("pairs of edges", all.collect()),
        kind("by chance", any),
        kind("close", (0..600_000).map(|_| close(&mut r)).collect()),
    ]
}

/// Three numbers from a list of two kinds: edges, and what is close to the first.
fn triples() -> Vec<Kind<(f64, f64, f64)>> {
    let mut r = Random::new(SEED);
    let edges = leaves::edges();
    let mut all = Vec::new();
    for &x in &edges {
        for &lo in &edges {
            all.extend(edges.iter().map(|&hi| (x, lo, hi)));
        }
    }
    let any = |r: &mut Random| (r.any(), r.any(), r.any());
    let inside = |r: &mut Random| (r.any(), -1.0, 1.0);
    vec![
        kind("triples of edges", all),
        kind("by chance", (0..1_200_000).map(|_| any(&mut r)).collect()),
        kind("into -1 to 1", (0..700_000).map(|_| inside(&mut r)).collect()),
    ]
}

#[test]
fn of_one() {
    let kinds = singles();
    compare("abs", SEED, &kinds, |x| port::float_abs(x), f64::abs);
    compare("is_finite", SEED, &kinds, |x| port::float_is_finite(x), f64::is_finite);
    compare("to_bits", SEED, &kinds, |x| port::float_to_bits(x), host::compare::bits);
    let from = |x: f64| port::float_from_bits(x.to_bits());
    compare("from_bits", SEED, &kinds, from, |x| x);
}

#[test]
fn copysign() {
    // The one NaN has no sign, so that of y counts as +.
    let rust = |(x, y): (f64, f64)| if y.is_nan() { x.abs() } else { x.copysign(y) };
    compare("copysign", SEED, &pairs(), |(x, y)| port::float_copysign(x, y), rust);
}

#[test]
fn min_and_max() {
    let kinds = pairs();
    let unlike = |x: f64, y: f64| x == 0.0 && y == 0.0;
    let min = |(x, y): (f64, f64)| if unlike(x, y) { x } else { x.min(y) };
    let max = |(x, y): (f64, f64)| if unlike(x, y) { x } else { x.max(y) };
    compare("min", SEED, &kinds, |(x, y)| port::float_min(x, y), min);
    compare("max", SEED, &kinds, |(x, y)| port::float_max(x, y), max);
    compare("methods::min", SEED, &kinds, |(x, y)| methods::min(x, y), min);
    compare("methods::max", SEED, &kinds, |(x, y)| methods::max(x, y), max);
}

#[test]
fn clamp() {
    // Rust's own panics where lo is not at most hi.
    let rust = |(x, lo, hi): (f64, f64, f64)| match lo <= hi {
        true => x.clamp(lo, hi),
        false => methods::clamp(x, lo, hi),
    };
    let port = |(x, lo, hi)| port::float_clamp(x, lo, hi);
    compare("clamp", SEED, &triples(), port, rust);
}

#[test]
fn total_le() {
    let port = |(x, y)| port::float_total_le(x, y);
    compare("total_le", SEED, &pairs(), port, |(x, y)| methods::total_le(x, y));
    let numbers = pairs().into_iter().map(|k| {
        let inputs = k.inputs.into_iter().filter(|(x, y)| !x.is_nan() && !y.is_nan());
        kind(k.name, inputs.collect())
    });
    let numbers: Vec<_> = numbers.collect();
    let rust = |(x, y): (f64, f64)| x.total_cmp(&y).is_le();
    compare("total_le beside total_cmp, no NaN", SEED, &numbers, port, rust);
}

#[test]
fn powi() {
    let mut r = Random::new(SEED);
    let powers = [0, 1, 2, 3, 4, 5, 6, u32::MAX];
    let edges = leaves::edges().into_iter().flat_map(|v| powers.map(|n| (v, n)));
    let any = |r: &mut Random| (r.any(), r.below(6) as u32);
    let middling = |r: &mut Random| (16.0 * r.unit() - 8.0, 1 + r.below(4) as u32);
    let kinds = [
        kind("edges", edges.collect()),
        kind("by chance", (0..1_000_000).map(|_| any(&mut r)).collect()),
        kind("from -8 to 8", (0..1_000_000).map(|_| middling(&mut r)).collect()),
    ];
    compare("powi", SEED, &kinds, |(v, n)| port::float_powi(v, n), |(v, n)| methods::powi(v, n));
}

#[test]
fn floor() {
    let mut r = Random::new(SEED);
    let mut kinds = singles();
    let whole = (-8300..=8300).map(|n| n as f64);
    kinds.push(kind("at whole numbers", leaves::neighbours(whole, 2)));
    let middling = (0..500_000).map(|_| 17_000.0 * r.unit() - 8500.0);
    kinds.push(kind("from -8500 to 8500", middling.collect()));
    compare("floor", SEED, &kinds, |x| port::float_floor(x), methods::floor);
}
