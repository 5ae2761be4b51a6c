//! Factors of cubics and quartics by the port against the reference build.
#![cfg(geomcore)]
use host::compare::lent_bytes::whole_or_nothing;
use host::compare::{compare, say};
use host::inputs::polynomials::{every_kind, monic, polynomial, quadratics};
use host::inputs::random::Random;
use host::port::{self, exported};
use host::truth::angle::Sine;
use host::truth::factors;
use host::truth::reference::patched::poly;

const EACH: usize = 115_000;

#[test]
fn cubics() {
    let kinds = every_kind(&mut Random::new(401), EACH, monic::<3>);
    for sine in Sine::BOTH {
        let name = format!("cubic_closed_form, {}", sine.words());
        let (port, rust) =
            (|bcd| port::cubic_closed_form(sine, bcd), |bcd| factors::closed_form(sine, bcd));
        compare(&name, 401, &kinds, port, rust);
        let all = kinds.iter().flat_map(|k| &k.inputs);
        let three = all.filter(|&&bcd| port(bcd).1 == 3).count();
        say(&format!("{name}: {three} with three roots"));
        let name = format!("cubic_factor, {}", sine.words());
        let rust = |bcd| factors::of_cubic(sine, bcd);
        compare(&name, 401, &kinds, |bcd| port::cubic_factor(sine, bcd), rust);
    }
}

#[test]
fn quartics() {
    let kinds = every_kind(&mut Random::new(402), EACH, monic::<4>);
    for sine in Sine::BOTH {
        let name = format!("quartic_factor, {}", sine.words());
        let rust = |bcde| factors::of_quartic(sine, bcde);
        compare(&name, 402, &kinds, |bcde| port::quartic_factor(sine, bcde), rust);
    }
}

#[test]
fn lone_roots() {
    let kinds = every_kind(&mut Random::new(403), EACH, quadratics);
    let rust = |[al, be, ga, de]: [f64; 4]| {
        let root = poly::isolated_root(&[(al, be), (ga, de)]);
        (root.is_some(), root.unwrap_or(f64::NAN))
    };
    compare("isolated_root", 403, &kinds, port::isolated_root, rust);
    let all = kinds.iter().flat_map(|k| &k.inputs);
    let found = all.filter(|&&a| port::isolated_root(a).0).count();
    say(&format!("isolated_root: {found} with one"));
}

#[test]
fn peeled() {
    let start = |r: &mut Random, which| {
        let (p, y) = polynomial(r, which, 4);
        let near = y + (r.unit() - 0.5) / (1u64 << r.below(40)) as f64;
        ([p[3], p[2], p[1], p[0]], if r.below(4) == 0 { y } else { near })
    };
    let kinds = every_kind(&mut Random::new(404), EACH, start);
    let rust = |([b, c, d, e], y): ([f64; 4], f64)| poly::peel_root(b, c, d, e, y).into();
    compare("peel_root", 404, &kinds, |(a, y)| port::peel_root(a, y), rust);
}

/// Bytes that are too few: nothing is written.
#[test]
fn refusals() {
    let [b, c, d, e] = [-10.0, 35.0, -50.0, 24.0];
    let closed = |_: &[u8], out: &mut [u8]| exported::cubic_closed_form(0, b, c, d, out);
    whole_or_nothing("cubic_closed_form", 0, 32, closed);
    whole_or_nothing("cubic_factor", 0, 24, |_, out| exported::cubic_factor(0, b, c, d, out));
    whole_or_nothing("quartic_factor", 0, 32, |_, out| {
        exported::quartic_factor(0, b, c, d, e, out)
    });
    whole_or_nothing("isolated_root", 0, 16, |_, out| exported::isolated_root(b, c, d, e, out));
    whole_or_nothing("peel_root", 0, 32, |_, out| exported::peel_root(b, c, d, e, 1.0, out));
}
