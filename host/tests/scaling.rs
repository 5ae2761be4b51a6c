//! Scaling and gaps by the port against the reference build.
#![cfg(geomcore)]
use host::compare::lent_bytes::whole_or_nothing;
use host::compare::tally::Tally;
use host::compare::ways;
use host::compare::{Same, compare_made, say};
use host::inputs::lists::{KINDS, List, list, steps};
use host::inputs::random::Random;
use host::port;
use host::port::exported;
use host::truth::angle::Sine;
use host::truth::factors;
use host::truth::reference::patched::poly::{self, Scaled};
use host::truth::reference::untouched;
use std::cell::Cell;
use std::ops::Range;

const EACH: u64 = 150_000;

/// All numbers of the Rust's answer.
fn scaled((a, d): List) -> [f64; 18] {
    let s = Scaled::new(&a[..=d as usize]);
    let last = [s.d as f64, s.e as f64, s.unit];
    [&s.f[..], &s.g, &s.lg, &last].concat().try_into().unwrap()
}

/// What is compared of an answer: all of it, but for lg below degree 3, where the Rust has
/// logarithms that nothing reads and the port minus infinity.
fn compared(mut x: [f64; 18], d: u64) -> [f64; 18] {
    if d < 3 {
        x[LG].fill(0.0);
    }
    x
}

const LG: Range<usize> = 10..15;

/// The port's answer; below degree 3 its lg is minus infinity, five times.
fn port_scaled((a, d): List) -> [f64; 18] {
    let x = port::scaled_new(a, d);
    assert!(d >= 3 || x[LG].iter().all(|&l| l == f64::NEG_INFINITY), "lg at degree {d}: {x:?}");
    x
}

/// Below degree 3 the Rust's factors are the same with the port's lg.
fn unread_lg((a, d): List) -> bool {
    let s = Scaled::new(&a[..=d as usize]);
    let bare = Scaled { lg: [f64::NEG_INFINITY; 5], ..Scaled::new(&a[..=d as usize]) };
    factor_numbers(&s, 0).same(&factor_numbers(&bare, 0))
}

fn split((lg, d): List) -> [f64; 3] {
    match poly::magnitude_split(&lg, d as usize) {
        Some((small, threshold)) => [1.0, small as f64, threshold],
        None => [0.0, 0.0, 0.0],
    }
}

#[test]
fn scalings() {
    let tally = Tally::new(&[
        "with e above 0",
        "with e 0",
        "with e below 0",
        "with e at most -1000 or at least 1000",
        "with an f_i that went down to 0",
        "with a subnormal f_i",
        "with unit 0",
        "with an infinite unit",
        "with 2^-1074",
        "with the largest double",
        "of degree 0",
        "of degree 1",
        "of degree 2",
        "of degree 3",
        "of degree 4",
        "with logarithms below degree 3, which are not compared",
    ]);
    let rust = |(a, d): List| {
        let x = scaled((a, d));
        assert!(d >= 3 || unread_lg((a, d)), "{a:?} of degree {d}: lg is read");
        let (e, unit) = (x[16], x[17]);
        let has = |size: f64| a.iter().any(|v| v.abs() == size);
        tally.add(&[
            e > 0.0,
            e == 0.0,
            e < 0.0,
            e.abs() >= 1000.0,
            (0..5).any(|i| a[i] != 0.0 && x[i] == 0.0),
            (0..5).any(|i| x[i].is_subnormal()),
            unit == 0.0,
            unit.is_infinite(),
            has(f64::from_bits(1)),
            has(f64::MAX),
            d == 0,
            d == 1,
            d == 2,
            d == 3,
            d == 4,
            d < 3 && x[LG].iter().any(|l| l.is_finite()),
        ]);
        // 2^2098 lies between any two doubles: the Rust's bound of 4000 is never met
        assert!(e.abs() <= 2098.0);
        compared(x, d)
    };
    let port = |(a, d)| compared(port_scaled((a, d)), d);
    compare_made("Scaled::new", 601, (&KINDS, EACH), list, port, rust);
    tally.say("Scaled::new");
}

/// Says and asks for the gaps, by the number of small roots, and by the edge of the hull.
fn gaps(name: &str, tally: &Tally) {
    tally.say(name);
    let edges = ["gap at edge 0", "gap at edge 1", "gap at edge 2"];
    let edges = ways::named(&ways::counts(), edges);
    say(&format!("{name}: {edges:?}"));
    assert!(edges.iter().all(|e| e.1 > 0), "{name}: {edges:?}");
}

const SPLITS: [&str; 6] = [
    "without a gap",
    "with 1 small root of 3",
    "with 2 small roots of 3",
    "with 1 small root of 4",
    "with 2 small roots of 4",
    "with 3 small roots of 4",
];

fn add_split(tally: &Tally, d: u64, [found, small, _]: [f64; 3]) {
    let ways = [(3, 1.0), (3, 2.0), (4, 1.0), (4, 2.0), (4, 3.0)].map(|way| (d, small) == way);
    tally.add(&[&[found == 0.0], &ways[..]].concat());
}

#[test]
fn splits() {
    let tally = Tally::new(&SPLITS);
    let logs = |r: &mut Random, which, n| {
        let (a, d) = list(r, which, n);
        (Scaled::new(&a[..=d as usize]).lg, d)
    };
    let rust = |(lg, d)| {
        let x = split((lg, d));
        add_split(&tally, d, x);
        x
    };
    let port = |(lg, d)| port::magnitude_split(lg, d);
    compare_made("magnitude_split", 602, (&KINDS, EACH), logs, port, rust);
    gaps("magnitude_split", &tally);
}

/// Logarithms that no list has: off the grid, above the degree, of any bits, and not finite.
#[test]
fn splits_of_made_logarithms() {
    const MADE: [&str; 6] = [
        "on the grid",
        "a little beside it",
        "of whole numbers",
        "of doubles up to 2^1000",
        "of any doubles",
        "of edges and the largest doubles",
    ];
    let tally = Tally::new(&SPLITS);
    let exact = Cell::new(0);
    let far = Tally::new(&["with threshold 0", "with an infinite one", "with no middle"]);
    let make = |r: &mut Random, which, _| {
        let d = r.below(5);
        let mut lg =
            steps(r, d as usize).map(|l| l.map_or(f64::NEG_INFINITY, |l| l as f64 / 256.0));
        for l in &mut lg {
            *l = match which {
                0 => *l,
                1 => f64::from_bits(l.to_bits().wrapping_add(r.below(3)).wrapping_sub(1)),
                2 => r.below(60) as f64 - 30.0,
                3 => r.any() / (1u64 << 24) as f64,
                4 => r.any(),
                _ if r.below(2) == 0 => r.edge(),
                _ => f64::MAX.copysign(r.below(2) as f64 - 0.5),
            };
            if r.below(16) == 0 {
                *l = [f64::NAN, f64::INFINITY, f64::NEG_INFINITY, 0.0][r.below(4) as usize];
            }
        }
        (lg, d)
    };
    let rust = |(lg, d): List| {
        let x = split((lg, d));
        add_split(&tally, d, x);
        let slopes = (lg[0] - lg[1], lg[1] - lg[2]);
        exact.set(exact.get() + (d >= 2 && slopes.1 - slopes.0 == 8.0) as u64);
        let apart = slopes == (f64::NEG_INFINITY, f64::INFINITY);
        far.add(&[x[0] == 1.0 && x[2] == 0.0, x[2].is_infinite(), d == 2 && x[0] == 1.0 && apart]);
        x
    };
    let port = |(lg, d)| port::magnitude_split(lg, d);
    compare_made("magnitude_split", 603, (&MADE, EACH), make, port, rust);
    gaps("made logarithms", &tally);
    far.say("made logarithms");
    say(&format!("made logarithms: {} with 8 bits from the first edge to the second", exact.get()));
    assert!(exact.get() > 0);
}

/// Slopes that are infinite both ways have no middle: document 01 names no k, the reference build
/// and the port take 0 for it, and the untouched Rust answers NaN.
#[test]
fn split_with_no_middle() {
    let list = ([-f64::MAX, f64::MAX, -f64::MAX, 0.0, 0.0], 2);
    assert_eq!(split(list), [1.0, 1.0, 1.0]);
    assert_eq!(port::magnitude_split(list.0, list.1), [1.0, 1.0, 1.0]);
    let (small, threshold) = untouched::poly::magnitude_split(&list.0, 2).unwrap();
    assert!(small == 1 && threshold.is_nan());
}

fn factor_numbers(s: &Scaled, depth: u32) -> [f64; 10] {
    let f = poly::factorize(s, depth);
    let (lin, quad) = (f.lin, f.quad.map(|(al, be)| [al, be]));
    [&[f.nlin as f64], &lin[..], &[f.nquad as f64], &quad[0], &quad[1]].concat().try_into().unwrap()
}

/// Compares over `each` lists of every kind, made at a depth, and says which ways the Rust went.
fn factorizations(sine: Sine, seed: u64, each: u64, depth: fn(&mut Random) -> u32) -> ways::Counts {
    let before = ways::counts();
    let tally = Tally::new(&[
        "of degree 0",
        "a line",
        "a quadratic",
        "line and quadratic",
        "three lines",
        "two quadratics",
        "two lines and a quadratic",
        "four lines",
    ]);
    let make = |r: &mut Random, which, n| {
        let list = list(r, which, n);
        (list, depth(r))
    };
    let rust = |x: (List, u32)| {
        let f = factors::of_list(sine, x.0, x.1);
        let shapes = [(0, 0), (1, 0), (0, 1), (1, 1), (3, 0), (0, 2), (2, 1), (4, 0)];
        tally.add(&shapes.map(|(lin, quad)| f[0] == lin as f64 && f[5] == quad as f64));
        assert_eq!(f[0] + 2.0 * f[5], x.0.1 as f64, "the degrees add up");
        f
    };
    let port = |((a, d), depth)| port::factorize(sine, a, d, depth);
    let name = format!("factorize, {}", sine.words());
    compare_made(&name, seed, (&KINDS, each), make, port, rust);
    tally.say("factorize");
    ways::since(&before)
}

#[test]
fn factored() {
    for sine in Sine::BOTH {
        let ways = factorizations(sine, 604, EACH, |_| 0);
        let ways = ways::named(
            &ways,
            [
                "no gap",
                "degree not reached",
                "quotient not usable",
                "second scaling at depth 0",
                "second scaling at depth 1",
                "root peeled off",
            ],
        );
        say(&format!("factorize, {}: {ways:?}", sine.words()));
        assert!(ways.iter().all(|way| way.1 > 0), "factorize: {ways:?}");
    }
    let deepest = ways::named(&ways::counts(), ["second scaling at depth 2"]);
    say(&format!("factorize: {deepest:?}, which nothing asks for"));
}

/// From a depth on that is not 0, up to the largest: from 3 on nothing is scaled again.
#[test]
fn factored_at_depths() {
    let depth = |r: &mut Random| [1, 2, 3, 4, u32::MAX][r.below(5) as usize];
    for sine in Sine::BOTH {
        let ways = factorizations(sine, 605, EACH / 5, depth);
        let ways = ways::named(&ways, ["second scaling at depth 1", "second scaling at depth 2"]);
        say(&format!("factorize at depths, {}: {ways:?}", sine.words()));
        assert!(ways.iter().all(|way| way.1 > 0), "factorize at depths: {ways:?}");
    }
}

/// Bytes that are too few, and degrees above 4: nothing is written.
#[test]
fn refusals() {
    for d in [0, 3, 4, 5, u64::MAX] {
        let size = |n| if d <= 4 { n } else { 0 };
        whole_or_nothing("Scaled::new", 40, size(144), |a, out| exported::scaled_new(a, d, out));
        let split = |lg: &[u8], out: &mut [u8]| exported::magnitude_split(lg, d, out);
        whole_or_nothing("magnitude_split", 40, size(24), split);
        let factors = |a: &[u8], out: &mut [u8]| exported::factorize(0, a, d, 0, out);
        whole_or_nothing("factorize", 40, size(80), factors);
    }
}
