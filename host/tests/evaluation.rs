//! Evaluation by the port against the reference build.
#![cfg(geomcore)]
use host::compare::compare;
use host::compare::lent_bytes::whole_or_nothing;
use host::inputs::polynomials::{evaluated, every_kind, quadratics};
use host::inputs::random::Random;
use host::port::{self, exported};
use host::truth::reference::patched::poly;

const EACH: usize = 120_000;

fn pair((a, b): (f64, f64)) -> [f64; 2] {
    [a, b]
}

#[test]
fn products() {
    let factors = |r: &mut Random, which| {
        let (p, _, y) = evaluated(r, which);
        [p[r.below(5) as usize], y]
    };
    let kinds = every_kind(&mut Random::new(201), EACH, factors);
    let port = |[a, b]: [f64; 2]| port::two_prod(a, b);
    compare("two_prod", 201, &kinds, port, |[a, b]| pair(poly::two_prod(a, b)));
}

#[test]
fn discriminants() {
    let quadratic = |r: &mut Random, which| {
        let x = quadratics(r, which);
        [x[0], x[1]]
    };
    let kinds = every_kind(&mut Random::new(202), EACH, quadratic);
    let port = |[al, be]: [f64; 2]| port::discriminant(al, be);
    compare("discriminant", 202, &kinds, port, |[al, be]| poly::discriminant(al, be));
}

#[test]
fn values() {
    let kinds = every_kind(&mut Random::new(203), EACH, evaluated);
    let rust = |(p, d, y)| pair(poly::value_slope(&p, d as usize, y));
    compare("value_slope", 203, &kinds, |(p, d, y)| port::value_slope(p, d, y), rust);
    let rust = |(p, d, y)| pair(poly::value_slope_compensated(&p, d as usize, y));
    compare("value_slope_compensated", 203, &kinds, |(p, d, y)| port::compensated(p, d, y), rust);
}

#[test]
fn derivatives() {
    let kinds = every_kind(&mut Random::new(204), EACH, evaluated);
    let rust = |(p, d, y)| pair(poly::derivs12(&p, d as usize, y));
    compare("derivs12", 204, &kinds, |(p, d, y)| port::derivs12(p, d, y), rust);
    let rust = |(p, d, y)| poly::taylor(&p, d as usize, y);
    compare("taylor", 204, &kinds, |(p, d, y)| port::taylor(p, d, y), rust);
}

/// Bytes that are too few, and degrees above 4: nothing is written.
#[test]
fn refusals() {
    whole_or_nothing("two_prod", 0, 16, |_, out| exported::two_prod(0.1, 0.3, out));
    for d in [0, 1, 2, 3, 4, 5, 6, 1 << 32, u64::MAX] {
        let size = |n| if d <= 4 { n } else { 0 };
        let value = |p: &[u8], out: &mut [u8]| exported::value_slope(p, d, 2.0, out);
        whole_or_nothing("value_slope", 40, size(16), value);
        let value = |p: &[u8], out: &mut [u8]| exported::value_slope_compensated(p, d, 2.0, out);
        whole_or_nothing("value_slope_compensated", 40, size(16), value);
        whole_or_nothing("derivs12", 40, size(16), |p, out| exported::derivs12(p, d, 2.0, out));
        whole_or_nothing("taylor", 40, size(40), |p, out| exported::taylor(p, d, 2.0, out));
    }
}
