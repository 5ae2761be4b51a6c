//! Quadratics and the crank's quartic by the port against the reference build, and document 01's
//! entries.
#![cfg(geomcore)]
use host::compare::lent_bytes::whole_or_nothing;
use host::compare::{Kind, bits, compare, kind, say};
use host::inputs::polynomials::every_kind;
use host::inputs::quadratics::{Quadratic, TOL, crank, quadratic, solution};
use host::inputs::random::Random;
use host::port::exported;
use host::port::quadratics::{self as port, Solution};
use host::runs::quadratics::refusing;
use host::runs::trees::REFERENCE;
use host::truth::reference::patched::{Tolerance, equation};

const EACH: usize = 340_000;

/// How many inputs there are of each answer that has a word.
fn tally(name: &str, words: &[&str], of: impl Iterator<Item = usize>) {
    let mut counts = vec![0; words.len()];
    of.for_each(|i| counts[i] += 1);
    let named = words.iter().zip(counts).filter(|(word, _)| !word.is_empty());
    let named = named.map(|(word, n)| format!("{n} {word}")).collect::<Vec<_>>();
    say(&format!("{name}: {}", named.join(", ")));
}

fn all<T: Copy>(kinds: &[Kind<T>]) -> impl Iterator<Item = T> {
    kinds.iter().flat_map(|k| k.inputs.iter().copied())
}

/// Twice the leading coefficient overflows, and noise in the last digits of what is below 2^-1022.
#[test]
fn edges() {
    let unit = f64::from_bits(1);
    let (b, c) = (53_054_215.0 * f64::from_bits(486 << 52), 703_687_432_316_555.0 * unit);
    let edges = [
        ([f64::from_bits(2046 << 52), 0.0, 1.0], [f64::INFINITY, 0.0], 4),
        ([1.0, b, c], [0.0, 0.0], 1),
    ];
    for (q, t, word) in edges {
        let (given, wanted) = (port::solve_quadratic(q, t), (REFERENCE.quadratic)(q, t));
        assert_eq!((given.0, given.1.map(bits)), (wanted.0, wanted.1.map(bits)), "{q:?}");
        assert_eq!(given.0, word, "{q:?}");
    }
}

#[test]
fn solved() {
    let kinds: Vec<Kind<Quadratic>> = every_kind(&mut Random::new(501), EACH, quadratic);
    let rust = |(q, t): Quadratic| (REFERENCE.quadratic)(q, t);
    compare("solve_quadratic", 501, &kinds, |(q, t)| port::solve_quadratic(q, t), rust);
    let words = ["two", "one", "linear", "degenerate", "empty"];
    tally("solve_quadratic", &words, all(&kinds).map(|q| rust(q).0 as usize));
    let refused = |(q, t): Quadratic| refusing(&REFERENCE, q, t);
    compare("quadratic", 501, &kinds, |(q, t)| port::quadratic(q, t), refused);
    let words = ["answered", "refused 1", "", "", "", "refused 5"];
    tally("quadratic", &words, all(&kinds).map(|q| refused(q).0 as usize));
}

#[test]
fn centred() {
    let kinds: Vec<Kind<Quadratic>> = every_kind(&mut Random::new(502), EACH, quadratic);
    let port = |([a, b, _], [_, angular]): Quadratic| port::quadratic_centre(a, b, angular);
    let rust = |([a, b, _], tol): Quadratic| (REFERENCE.centre)(a, b, tol[1]);
    compare("quadratic_centre", 502, &kinds, port, rust);
    say(&format!("quadratic_centre: {} not 0", all(&kinds).filter(|&x| rust(x) != 0.0).count()));
}

#[test]
fn shifted_and_touching() {
    let mut r = Random::new(503);
    let kinds = [kind("of any doubles", (0..9 * EACH).map(|_| solution(&mut r)).collect())];
    let rust = |(s, t0): (Solution, f64)| (REFERENCE.shifted)(s, t0);
    compare("shifted", 503, &kinds, |(s, t0)| port::shifted(s, t0), rust);
    for reply in [false, true] {
        let port = |(s, vertex)| port::touching_at(s, vertex, reply);
        let rust = |(s, vertex): (Solution, f64)| (REFERENCE.touching_at)(s, vertex, reply);
        compare(&format!("touching_at, reply {reply}"), 503, &kinds, port, rust);
    }
}

/// `solve_trig` up to its quartic, refused as document 01 says.
fn trig([a2, b2, c1, d1, e]: [f64; 5]) -> (u32, (u64, [f64; 5])) {
    if [a2, b2, c1, d1, e].iter().any(|x| !x.is_finite()) {
        return (1, (0, [0.0; 5]));
    }
    let tol = Tolerance { confusion: TOL, angular: TOL, parametric: 0.0 };
    let (k, q, _) = equation::solve_trig(a2, b2, c1, d1, e, tol, |_| false);
    match q.iter().all(|x| x.is_finite()) {
        true => (0, (k as u64, q)),
        false => (5, (0, [0.0; 5])),
    }
}

#[test]
fn cranks() {
    let kinds = every_kind(&mut Random::new(504), 150_000, crank);
    compare("crank_front", 504, &kinds, port::crank_front, trig);
    let words = ["with a quartic", "refused 1", "", "", "", "refused 5"];
    tally("crank_front", &words, all(&kinds).map(|x| trig(x).0 as usize));
    let words = [
        "with k = 0",
        "with k = 1",
        "with k = 2",
        "with k = 3",
        "with k = 4",
        "with k = 5",
        "with k = 6",
        "with k = 7",
    ];
    let finite = all(&kinds).map(trig).filter(|x| x.0 == 0);
    tally("crank_front", &words, finite.map(|x| x.1.0 as usize));
}

const MINUS_ZERO: u64 = 1 << 63;

/// The answer with both tolerances 2^-30, its places by their bits.
fn entry(abc: [f64; 3]) -> (u32, (u32, [u64; 2])) {
    with(abc, [TOL; 2])
}

fn with(abc: [f64; 3], tol: [f64; 2]) -> (u32, (u32, [u64; 2])) {
    let (refusal, (n, places)) = port::quadratic(abc, tol);
    (refusal, (n, places.map(bits)))
}

fn answer(n: u32, places: &[f64]) -> (u32, (u32, [u64; 2])) {
    let at = |i| bits(places.get(i).copied().unwrap_or(f64::NAN));
    (0, (n, [at(0), at(1)]))
}

#[test]
fn entries() {
    assert_eq!(entry([0.0, 0.0, 5.0]), answer(3, &[]));
    assert_eq!(entry([0.0, 2.0, -4.0]), answer(2, &[2.0]));
    assert_eq!(entry([1.0, 2.0, 1.0]), answer(1, &[-1.0]));
    assert_eq!(entry([1.0, 0.0, 1.0]), answer(4, &[]));
    assert_eq!(entry([1.0, -3.0, 2.0]), answer(0, &[1.0, 2.0]));
    let above = f64::from_bits(TOL.to_bits() + 1);
    for a in [TOL, -TOL] {
        assert_eq!(entry([a, 1.0, 0.0]), answer(2, &[-0.0]));
    }
    for a in [above, -above] {
        assert_eq!(entry([a, 1.0, 0.0]).1.0, 0);
    }
}

#[test]
fn inputs_that_show_a_mistake() {
    assert_eq!(entry([0.0, 1.0, 0.0]), (0, (2, [MINUS_ZERO, bits(f64::NAN)])));
    assert_eq!(with([1.0, 0.0, 0.0], [f64::NAN, TOL]), (0, (0, [MINUS_ZERO; 2])));
    let refused = |n| (n, answer(4, &[]).1);
    for angular in [f64::NAN, -1.0] {
        assert_eq!(with([0.0, 1.0, 1.0], [TOL, angular]), refused(5));
    }
    for (i, x) in [f64::INFINITY, f64::NEG_INFINITY, f64::NAN].into_iter().enumerate() {
        let mut abc = [1.0; 3];
        abc[i] = x;
        assert_eq!(entry(abc), refused(1));
    }
    assert_eq!(port::crank_front([0.0, 0.0, 0.0, 0.0, 1.0]).1.0, 7);
    assert_eq!(port::crank_front([1.0, 0.0, 0.0, 0.0, 0.0]).1.0, 6);
    assert_eq!(port::crank_front([0.0, 0.0, 1.0, 0.0, 0.0]).1.0, 4);
}

/// Bytes that are too few: nothing is written, and a refusal is said in any room.
#[test]
fn refusals() {
    let said = |a, out: &mut [u8]| exported::quadratic(a, -3.0, 2.0, TOL, TOL, out);
    whole_or_nothing("quadratic", 0, 24, |_, out| said(1.0, out));
    let solved = |_: &[u8], out: &mut [u8]| exported::solve_quadratic(1.0, 0.0, 1.0, TOL, TOL, out);
    whole_or_nothing("solve_quadratic", 0, 24, solved);
    whole_or_nothing("shifted", 0, 24, |_, out| exported::shifted(1, 0.5, 0.0, 2.0, out));
    let touching = |_: &[u8], out: &mut [u8]| exported::touching_at(0, 0.5, 1.0, 0.75, 1, out);
    whole_or_nothing("touching_at", 0, 24, touching);
    let front = |e, out: &mut [u8]| exported::crank_front(0.0, 0.0, 1.0, 0.0, e, out);
    whole_or_nothing("crank_front", 0, 48, |_, out| front(0.5, out));
    for room in 0..=64 {
        let mut out = vec![0x5A; room];
        assert_eq!((said(f64::NAN, &mut out), front(f64::NAN, &mut out)), (1, 1));
        assert!(out.iter().all(|&byte| byte == 0x5A), "room for {room}");
    }
}

/// A reply is a number: 0 is no, and every other one yes.
#[test]
fn replies() {
    let touching = |reply: u32| {
        let mut out = [0; 24];
        assert_eq!(exported::touching_at(4, 0.0, 0.0, 0.75, reply, &mut out), 24);
        out
    };
    for reply in [1, 2, 256, 1 << 31, u32::MAX] {
        assert_eq!(touching(reply), touching(1), "reply {reply}");
    }
    assert_ne!(touching(0), touching(1));
}
