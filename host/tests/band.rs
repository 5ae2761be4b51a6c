//! The band, what is found in it, polishing and the finished roots by the port, against the
//! reference build.
#![cfg(geomcore)]
use host::compare::compare_made;
use host::compare::tally::Tally;
use host::inputs::clustering::{
    Ends, Handed, Within, base, candidates, critical_way, found_numbers, gap, half, handed,
    interval, placed, polish_way, quadratic, radius, root_numbers, scaled, within,
};
use host::inputs::lists::{KINDS, List, list, tolerance};
use host::inputs::random::Random;
use host::port::{bytes, clustering as port, forty};
use host::truth::reference::patched::poly;

const EACH: u64 = 65_000;

#[test]
fn noises() {
    let tally = Tally::new(&[
        "by the second coefficient",
        "by the third",
        "by the fourth",
        "0 below degree 2",
        "0 for a radius that is not finite",
        "above 2^-20",
    ]);
    let rust = |(l, y): (List, f64)| {
        let s = scaled(l);
        let x = s.noise(y);
        let by = [2, 3, 4].map(|k| x > 0.0 && radius(&s, y, k) == Some(x));
        let none = [s.d < 2, s.d >= 2 && x == 0.0, x > 2f64.powi(-20)];
        tally.add(&[&by[..], &none].concat());
        x
    };
    let port = |((a, d), y)| port::noise(&forty(a), d, y);
    compare_made("noise", 701, (&KINDS, EACH), placed, port, rust);
    tally.say("noise");
}

#[test]
fn bands() {
    let tally = Tally::new(&["finite", "infinite", "NaN", "below 0", "0"]);
    let make = |r: &mut Random, which, n| (placed(r, which, n), tolerance(r));
    let rust = |((l, y), tol)| {
        let x = scaled(l).band(y, tol);
        tally.add(&[x.is_finite(), x.is_infinite(), x.is_nan(), x < 0.0, x == 0.0]);
        x
    };
    let port = |(((a, d), y), tol)| port::band(&forty(a), d, y, tol);
    compare_made("band", 702, (&KINDS, EACH), make, port, rust);
    tally.say("band");
}

#[test]
fn halves() {
    let tally = Tally::new(&[
        "within by the caller's band",
        "beyond by the crude bound",
        "within by the noise",
        "beyond the noise",
        "at the caller's band",
        "at the band",
        "with a NaN",
    ]);
    let make = |r: &mut Random, which, n| {
        let ((l, y), tol) = (placed(r, which, n), tolerance(r));
        (l, [half(r, &scaled(l), y, tol), y, tol])
    };
    let rust = |(l, [half, y, tol]): (List, [f64; 3])| {
        let s = scaled(l);
        let (x, way) = (s.within_band(half, y, tol), within(&s, half, y, tol));
        assert_eq!(x, [Within::ByBase, Within::ByNoise].contains(&way));
        let ways = [Within::ByBase, Within::BeyondCrude, Within::ByNoise, Within::BeyondNoise];
        let at = [
            half == base(&s, y, tol),
            half == s.band(y, tol),
            [half, y, tol].iter().any(|x| x.is_nan()),
        ];
        tally.add(&[&ways.map(|w| w == way)[..], &at].concat());
        x
    };
    let port =
        |((a, d), [half, y, tol]): (List, [f64; 3])| port::within_band(&forty(a), d, half, y, tol);
    compare_made("within_band", 703, (&KINDS, EACH), make, port, rust);
    tally.say("within_band");
}

#[test]
fn critical_points() {
    let tally = Tally::new(&[
        "ended flat",
        "ended at the interval",
        "ended without gain",
        "after all turns",
        "at once",
        "after a turn",
        "after two",
        "after three",
    ]);
    let make = |r: &mut Random, which, n| {
        let (l, y) = placed(r, which, n);
        let [lo, hi] = interval(r, y);
        (l, [y, lo, hi])
    };
    let rust = |(l, [y, lo, hi]): (List, [f64; 3])| {
        let s = scaled(l);
        let (turns, end) = critical_way(&s, y, [lo, hi]);
        let ends = [Ends::Flat, Ends::Outside, Ends::NoGain, Ends::AllTurns].map(|e| e == end);
        tally.add(&[&ends[..], &[0, 1, 2, 3].map(|n| n == turns)].concat());
        s.critical_point(y, lo, hi)
    };
    let port =
        |((a, d), [y, lo, hi]): (List, [f64; 3])| port::critical_point(&forty(a), d, y, lo, hi);
    compare_made("critical_point", 704, (&KINDS, EACH), make, port, rust);
    tally.say("critical_point");
}

#[test]
fn extrema() {
    let tally = Tally::new(&["with a place", "without", "that did not move", "that moved"]);
    let make = |r: &mut Random, which, n| {
        let (l, y) = placed(r, which, n);
        let [lo, hi] = interval(r, y);
        (l, [y, lo, hi, tolerance(r)])
    };
    let rust = |(l, [y, lo, hi, tol]): (List, [f64; 4])| {
        let x = scaled(l).extremum(y, lo, hi, tol);
        // a place is never a NaN, so NaN says that there is none
        assert!(!x.is_some_and(f64::is_nan));
        tally.add(&[x.is_some(), x.is_none(), x == Some(y), x.is_some_and(|x| x != y)]);
        x.unwrap_or(f64::NAN)
    };
    let port =
        |((a, d), [y, lo, hi, tol]): (List, [f64; 4])| port::extremum(&forty(a), d, y, lo, hi, tol);
    compare_made("extremum", 705, (&KINDS, EACH), make, port, rust);
    tally.say("extremum");
}

#[test]
fn quadratics() {
    let tally = Tally::new(&[
        "double",
        "double without room",
        "apart",
        "apart with one root finite",
        "apart with room for one",
        "complex",
        "complex with a NaN half",
        "complex with a middle that is not finite",
        "complex without room",
        "with a multiplicity of 0 behind the last",
        "of 1",
        "above 4",
    ]);
    type Input = (List, [f64; 3], Handed);
    let make = |r: &mut Random, which, n| -> Input {
        let l = list(r, which, n);
        let [al, be] = quadratic(r, &scaled(l));
        (l, [al, be, tolerance(r)], handed(r))
    };
    let rust = |(l, [al, be, tol], given): Input| {
        let s = scaled(l);
        let (mut c, mut p) = (given.candidates(), given.pairs());
        s.push_quadratic(al, be, tol, &mut c, &mut p);
        let (disc, mid) = (poly::discriminant(al, be), -0.5 * al);
        let half = 0.5 * disc.abs().sqrt();
        let double = s.within_band(half, mid, tol);
        let apart = !double && disc > 0.0;
        let complex = !double && !apart;
        let more = c.len as u64 - given.n;
        // Newton's turns lead to no place that is not finite: only a full list drops a double root
        assert!(!double || (more == 1) == (given.n < 4));
        tally.add(&[
            double && more == 1,
            double && more == 0,
            apart && more == 2,
            apart && more == 1 && given.n < 3,
            apart && more == 1 && given.n == 3,
            complex && p.len as u64 > given.m,
            complex && p.len as u64 > given.m && half.is_nan(),
            complex && !mid.is_finite(),
            complex && mid.is_finite() && given.m == 2,
            c.mult[c.len..].contains(&0),
            c.mult[c.len..].contains(&1),
            c.mult[c.len..].iter().any(|m| *m > 4),
        ]);
        found_numbers(&c, &p)
    };
    let port = |((a, d), factor, given): Input| {
        port::push_quadratic(&forty(a), d, factor, &given.bytes(), [given.n, given.m])
    };
    compare_made("push_quadratic", 706, (&KINDS, EACH), make, port, rust);
    tally.say("push_quadratic");
}

#[test]
fn polishings() {
    let tally = Tally::new(&[
        "ended flat",
        "ended by a long step",
        "ended by a NaN",
        "ended where nothing moved",
        "ended without gain",
        "ended by a small step",
        "after all turns",
        "that moved",
    ]);
    let make = |r: &mut Random, which, n| (placed(r, which, n), gap(r));
    let rust = |((l, y), gap): ((List, f64), f64)| {
        let s = scaled(l);
        let (turns, end) = polish_way(&s, y, gap);
        let ends = [
            Ends::Flat,
            Ends::Long,
            Ends::NotANumber,
            Ends::Still,
            Ends::NoGain,
            Ends::Small,
            Ends::AllTurns,
        ];
        tally.add(&[&ends.map(|e| e == end)[..], &[turns > 0]].concat());
        s.polish(y, gap)
    };
    let port = |(((a, d), y), gap)| port::polish(&forty(a), d, y, gap);
    compare_made("polish", 707, (&KINDS, EACH), make, port, rust);
    tally.say("polish");
}

#[test]
fn finished() {
    let tally = Tally::new(&[
        "of none",
        "of one",
        "of four",
        "with two joined",
        "with three joined",
        "with four joined",
        "with two joined twice",
        "with none joined of two or more",
        "with a zero of each sign",
        "with a place that is not finite",
        "with a multiplicity above 4",
        "out of order",
    ]);
    type Input = (List, Handed, f64);
    let make = |r: &mut Random, which, n| -> Input {
        let l = list(r, which, n);
        (l, candidates(r, &scaled(l)), tolerance(r))
    };
    let rust = |(l, given, tol): Input| {
        let c = scaled(l).finish(given.candidates(), tol);
        let n = given.n as usize;
        let (value, mult) = (&given.value[..n], &given.mult[..n]);
        let simple = mult.iter().all(|m| *m == 1);
        let times = |m: u32| c.mult[..c.len].iter().filter(|k| simple && **k == m).count();
        let zero = |x: f64| value.iter().any(|v| v.to_bits() == x.to_bits());
        tally.add(&[
            n == 0,
            n == 1,
            n == 4,
            times(2) == 1,
            times(3) == 1,
            times(4) == 1,
            times(2) == 2,
            n > 1 && c.len == n,
            zero(0.0) && zero(-0.0),
            value.iter().any(|v| !v.is_finite()),
            mult.iter().any(|m| *m > 4),
            !value.is_sorted(),
        ]);
        root_numbers(&c)
    };
    let port =
        |((a, d), given, tol): Input| port::finish(&forty(a), d, &given.bytes(), given.n, tol);
    compare_made("finish", 708, (&KINDS, EACH), make, port, rust);
    tally.say("finish");
}

/// Slices that are too short, degrees and counts that are too large: NaN, false, nothing written.
#[test]
fn refusals() {
    let a = bytes(&[1.0, 2.0, -3.0, 4.0, 5.0, 6.0]);
    for (size, d) in (0..=48).flat_map(|n| [0, 4, 5, u64::MAX].map(|d| (n, d))) {
        let (a, whole) = (&a[..size], size >= 40 && d <= 4);
        let numbers = [
            port::noise(a, d, 0.5),
            port::band(a, d, 0.5, 0.25),
            port::critical_point(a, d, 0.5, 0.0, 1.0),
            port::extremum(a, d, 0.5, 0.5, 0.5, f64::MAX),
            port::polish(a, d, 0.5, 1.0),
        ];
        let none = numbers.map(f64::is_nan);
        assert_eq!([none[0], none[1], none[2], none[4]], [!whole; 4], "{size} bytes, {d}");
        assert!(whole || none[3], "{size} bytes, {d}");
        assert_eq!(port::within_band(a, d, 0.0, 0.5, 0.25), whole, "{size} bytes, {d}");
    }
    let before: Vec<u8> = (0..200).map(|i| i as u8 ^ 0x5A).collect();
    let c = Handed::default().bytes();
    let full = (40, 3, 68, [4, 2], 200);
    let cases = (0..=48)
        .flat_map(|n| [0, 4, 5, u64::MAX].map(|d| (n, d, 68, [4, 2], 200)))
        .chain((0..=68).map(|size| (40, 3, size, [4, 2], 200)))
        .chain((0..=200).map(|room| (40, 3, 68, [4, 2], room)))
        .chain([[5, 2], [4, 3], [u64::MAX, 0], [0, u64::MAX]].map(|n| (40, 3, 68, n, 200)))
        .chain([full]);
    for (from, d, size, [n, m], room) in cases {
        let stored = |needed: usize,
                      bytes: usize,
                      counts: bool,
                      export: &dyn Fn(&mut [u8]) -> u64| {
            let mut out = before.clone();
            let said = export(&mut out[..room]);
            let whole = from >= 40 && d <= 4 && size >= needed && counts && room >= bytes;
            let kept = if whole { bytes } else { 0 };
            assert_eq!(said, kept as u64, "{from} bytes, {d}, {size}, {n}, {m}, {room}");
            assert_eq!(out[kept..], before[kept..], "{from} bytes, {d}, {size}, {n}, {m}, {room}");
        };
        let (a, c) = (&a[..from], &c[..size]);
        stored(68, 144, n <= 4 && m <= 2, &|out| {
            port::push_quadratic_bytes(a, d, [0.5, 0.25, 0.125], c, n, m, out)
        });
        stored(36, 104, n <= 4, &|out| port::finish_bytes(a, d, c, n, 0.125, out));
    }
}
