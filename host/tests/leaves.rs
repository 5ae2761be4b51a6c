//! Every leaf of the port against `exact`, and against Rust's own and geomcore's where document 01
//! keeps those.
use host::compare::{Kind, bits, compare, kind, say};
use host::inputs::random::Random;
use host::inputs::{leaves, near_ties};
use host::port;
use host::truth::angle::{self, Sine};
use host::truth::{exact, reference};

#[test]
fn sqrt() {
    let mut r = Random::new(101);
    let mut kinds = leaves::common(&mut r, 2000);
    leaves::without_sign(&mut kinds);
    kinds.push(kind("at squares", leaves::squares(&mut r, 300_000)));
    kinds.push(kind("at middles", leaves::square_middles(&mut r, 400_000)));
    kinds.push(kind("nearly ties", near_ties::sqrt_ties(1_000_000)));
    compare("sqrt", 101, &kinds, |x| port::leaf_sqrt(x), exact::sqrt);
    compare("sqrt beside f64::sqrt", 101, &kinds, |x| port::leaf_sqrt(x), f64::sqrt);
}

#[test]
fn cbrt() {
    let mut r = Random::new(102);
    let mut kinds = leaves::common(&mut r, 2000);
    kinds.push(kind("at cubes", leaves::cubes(&mut r, 200_000)));
    kinds.push(kind("at middles", leaves::cube_middles(&mut r, 400_000)));
    compare("cbrt", 102, &kinds, |x| port::leaf_cbrt(x), exact::cbrt);
    let all = kinds.iter().flat_map(|k| &k.inputs);
    let agree = all.clone().filter(|x| bits(x.cbrt()) == bits(port::leaf_cbrt(**x)));
    say(&format!("cbrt: libm agrees on {} of {}", agree.count(), all.count()));
}

#[test]
fn log2() {
    let mut r = Random::new(103);
    let mut kinds = leaves::common(&mut r, 2000);
    leaves::without_sign(&mut kinds);
    kinds.push(kind("at thresholds", leaves::threshold_places(&mut r, 400)));
    compare("log2", 103, &kinds, |x| port::leaf_log2(x), exact::log2);
    let five: Vec<Kind<[f64; 5]>> = kinds.iter().map(by_five).collect();
    compare("log2_five", 103, &five, log2_five, |a| a.map(exact::log2));
}

fn by_five(kind: &Kind<f64>) -> Kind<[f64; 5]> {
    let rows = kind.inputs.chunks_exact(5);
    let inputs = rows.map(|a| a.try_into().unwrap()).collect();
    Kind { name: kind.name, inputs }
}

fn log2_five(a: [f64; 5]) -> [f64; 5] {
    let mut out = [0; 40];
    assert_eq!(port::leaf_log2_five(&port::bytes(&a), &mut out), 40);
    std::array::from_fn(|i| port::double(&out, i))
}

#[test]
fn third_angle() {
    let kinds = leaves::third(&mut Random::new(104));
    for sine in Sine::BOTH {
        let name = format!("third_angle, {}", sine.words());
        let port = |v| port::third_angle(sine, v);
        compare(&name, 104, &kinds, port, |v| angle::third_angle(sine, v));
    }
}

#[test]
fn ldexp() {
    let kinds = leaves::scaled(&mut Random::new(105));
    let scaled = |(x, k)| port::leaf_ldexp(x, k);
    compare("ldexp", 105, &kinds, scaled, |(x, k)| exact::ldexp(x, k));
    beside_the_rust::ldexp(&kinds);
}

#[test]
fn pow2() {
    let mut r = Random::new(106);
    let chance = (0..200_000).map(|_| r.next() as i32).chain([i32::MIN, i32::MAX]);
    let normal = kind("normal", (-1022..=1023).collect());
    let kinds = [
        kind("to a million", (-1_000_000..=1_000_000).collect()),
        kind("by chance", chance.collect()),
        normal,
    ];
    compare("pow2", 106, &kinds, |k| port::leaf_pow2(k), exact::pow2);
    beside_the_rust::pow2(&kinds[2..]);
}

#[test]
fn exponent() {
    let kinds = leaves::common(&mut Random::new(107), 2000);
    compare("exponent", 107, &kinds, |x| port::leaf_exponent(x), exact::exponent);
}

#[cfg(geomcore)]
mod beside_the_rust {
    use super::*;
    use reference::untouched::poly;

    pub fn ldexp(kinds: &[Kind<(f64, i32)>]) {
        let scaled = |(x, k)| port::leaf_ldexp(x, k);
        compare("ldexp beside the Rust's", 105, kinds, scaled, |(x, k)| poly::ldexp(x, k));
    }

    pub fn pow2(kinds: &[Kind<i32>]) {
        compare("pow2 beside the Rust's", 106, kinds, |k| port::leaf_pow2(k), poly::pow2);
    }
}

#[cfg(not(geomcore))]
mod beside_the_rust {
    use super::*;

    pub fn ldexp(_: &[Kind<(f64, i32)>]) {
        say(&format!("ldexp beside the Rust's: {}", reference::SKIPPED));
    }

    pub fn pow2(_: &[Kind<i32>]) {
        say(&format!("pow2 beside the Rust's: {}", reference::SKIPPED));
    }
}

/// `n` bytes before a call, each unlike its neighbours.
fn filled(n: usize) -> Vec<u8> {
    (0..n).map(|i| 0xA5 ^ (i as u8).wrapping_mul(29)).collect()
}

/// The same bytes where all of the answer was stored in them, or none because they are too few.
fn stored(n: usize, answer: &[f64]) -> (u64, Vec<u8>) {
    let answer: Vec<u8> = answer.iter().flat_map(|&x| bits(x).to_le_bytes()).collect();
    let mut all = filled(n);
    if n < answer.len() {
        return (0, all);
    }
    all[..answer.len()].copy_from_slice(&answer);
    (answer.len() as u64, all)
}

#[test]
fn third_angle_into_short_buffers() {
    for (sine, v) in Sine::BOTH
        .into_iter()
        .flat_map(|sine| [0.25, -1.0, 1.0, 0.0, f64::NAN, 2.0].map(|v| (sine, v)))
    {
        let (c, s) = angle::third_angle(sine, v);
        for n in 0..=48 {
            let mut out = filled(n);
            let count = port::leaf_third_angle(sine.number(), v, &mut out);
            assert_eq!((count, out), stored(n, &[c, s]), "{v}, {} into {n} bytes", sine.words());
        }
    }
    say("third_angle into 0 to 48 bytes: 16 stored or none, all others untouched");
}

#[test]
fn log2_five_into_short_buffers() {
    let a = [1.0, 3.0, f64::from_bits(1), 0.0, f64::NAN];
    let logs = a.map(exact::log2);
    let mut given = port::bytes(&a);
    given.extend(filled(8));
    for held in 0..=48 {
        for n in 0..=48 {
            let mut out = filled(n);
            let count = port::leaf_log2_five(&given[..held], &mut out);
            let wanted = if held < 40 { (0, filled(n)) } else { stored(n, &logs) };
            assert_eq!((count, out), wanted, "{held} bytes into {n}");
        }
    }
    say("log2_five from 0 to 48 bytes into 0 to 48: 40 stored or none, all others untouched");
}
