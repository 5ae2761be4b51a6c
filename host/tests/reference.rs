//! The copies of geomcore's Rust: document 01's entries of inquiries, quadratics and cranks by the
//! reference build. Lists: tests/lists.rs. And that a copy's functions below whole lists are asked
//! and answer in the order of the port's, as the search for mistakes takes them, and that the copy
//! of the untouched Rust that tells kinds lists what it lists. Of the reference build's, every
//! comparison asks that (`truth::touching`).
#![cfg(geomcore)]
use host::compare::bits;
use host::inputs::lists::{KINDS, handed_in, tolerance};
use host::inputs::pieces::Pieces;
use host::inputs::random::Random;
use host::runs::inquiries::REPLIES;
use host::runs::trees;
use host::truth::angle::Sine;
use host::truth::reference::patched;
use host::truth::reference::patched::equation::{QuadraticSolution, solve_quadratic, solve_trig};
use host::truth::reference::{untouched, untouched_kinds};
use std::cell::RefCell;

const TOL: f64 = 1.0 / (1u64 << 30) as f64;

type Roots = Vec<(u64, u32)>;

/// The list where every question is replied `reply`, and the places asked.
fn inquiry(coeffs: &[f64], tol: f64, reply: bool) -> (Roots, Vec<u64>) {
    let asked = RefCell::new(Vec::new());
    let list = patched::poly::real_roots_touching(coeffs, tol, |x| {
        asked.borrow_mut().push(x.to_bits());
        reply
    });
    let roots = list.iter().map(|r| (r.value.to_bits(), r.multiplicity)).collect();
    (roots, asked.into_inner())
}

const MINUS_ZERO: u64 = 1 << 63;
const ONE: u64 = 0x3FF0_0000_0000_0000;

#[test]
fn inquiries() {
    assert_eq!(inquiry(&[1.0, 0.0, 1.0], TOL, true), (vec![(MINUS_ZERO, 2)], vec![MINUS_ZERO]));
    assert_eq!(inquiry(&[1.0, 0.0, 1.0], TOL, false), (vec![], vec![MINUS_ZERO]));
    assert_eq!(inquiry(&[2.0, 0.0, 0.0, 0.0, -2.0], TOL, false).1, [0]);
}

fn quadratic(a: f64, b: f64, c: f64) -> QuadraticSolution {
    solve_quadratic(a, b, c, patched::Tolerance::new(TOL, TOL, TOL))
}

#[test]
fn quadratics() {
    use QuadraticSolution::{Degenerate, Empty, Linear, One, Two};
    assert_eq!(quadratic(1.0, -3.0, 2.0), Two(1.0, 2.0));
    assert_eq!(quadratic(0.0, 0.0, 5.0), Degenerate);
    assert_eq!(quadratic(0.0, 2.0, -4.0), Linear(2.0));
    assert_eq!(quadratic(1.0, 2.0, 1.0), One(-1.0));
    assert_eq!(quadratic(1.0, 0.0, 1.0), Empty);
    assert_eq!(quadratic(TOL, 1.0, 0.0), Linear(-0.0));
    assert!(matches!(quadratic(TOL.next_up(), 1.0, 0.0), Two(..)));
}

fn crank(a2: f64, b2: f64, c1: f64, d1: f64, e: f64) -> (usize, Roots) {
    let tol = patched::Tolerance::new(TOL, TOL, TOL);
    let (k, _, list) = solve_trig(a2, b2, c1, d1, e, tol, |_| false);
    let roots = list.iter().map(|r| (r.value.to_bits(), r.multiplicity));
    (k, roots.collect())
}

#[test]
fn cranks() {
    let minus_one = ONE | MINUS_ZERO;
    assert_eq!(crank(0.0, 0.0, 1.0, 0.0, 0.0), (4, vec![(minus_one, 1), (ONE, 1)]));
    assert_eq!(crank(0.0, 0.0, 0.0, 0.0, 1.0).0, 7);
    assert_eq!(crank(1.0, 0.0, 0.0, 0.0, 0.0).0, 6);
}

#[test]
fn copy_that_tells_kinds() {
    let (mut r, mut list) = (Random::new(1302), Vec::new());
    let mut brushes = 0;
    for n in 0..100_000 {
        handed_in(&mut r, (n % KINDS.len() as u64) as usize, n, &mut list);
        let tol = tolerance(&mut r);
        for touches in &REPLIES {
            let itself = untouched::poly::real_roots_touching(&list, tol, touches);
            let copy = untouched_kinds::poly::real_roots_touching(&list, tol, touches);
            let itself = itself.iter().map(|r| (r.value.to_bits(), r.multiplicity));
            let roots = copy.iter().map(|r| (r.value.to_bits(), r.multiplicity));
            assert!(itself.eq(roots), "{list:?} at {tol:e}");
            brushes += copy.iter().filter(|r| r.yes > 0).count();
        }
    }
    assert!(brushes > 10_000, "{brushes} brushes");
}

#[test]
fn pieces() {
    let mut r = Random::new(1301);
    for n in 0..50_000 {
        let p = Pieces::made(&mut r, n);
        let by = |all: Vec<f64>| -> Vec<u64> { all.into_iter().map(bits).collect() };
        for sine in Sine::BOTH {
            let wanted = by((trees::reference(sine).pieces)(&p));
            assert_eq!(by(p.by_port(sine)), wanted, "{n}, {}", sine.words());
        }
    }
}
