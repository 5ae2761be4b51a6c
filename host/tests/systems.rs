//! Square systems and their refinement by the port against the reference build.
#![cfg(geomcore)]
use host::compare::lent_bytes::whole_or_nothing;
use host::compare::{Kind, Same, Shown, bits, compare, say};
use host::inputs::polynomials::{every_kind, polynomial, refined, system};
use host::inputs::random::Random;
use host::port::{self, exported};
use host::truth::reference::patched::{poly, solve};

const EACH: usize = 115_000;

type System<const N: usize> = ([[f64; N]; N], [f64; N], f64);
type Answer<const N: usize> = (bool, [f64; N]);

/// An answer or none as a flag and numbers, zeros where there is none.
fn flagged<const N: usize>(answer: Option<[f64; N]>) -> Answer<N> {
    (answer.is_some(), answer.unwrap_or([0.0; N]))
}

fn solved<const N: usize>(seed: u64, port: fn([[f64; N]; N], [f64; N], f64) -> Answer<N>)
where
    System<N>: Shown,
    Answer<N>: Same + Shown,
{
    let kinds: Vec<Kind<System<N>>> = every_kind(&mut Random::new(seed), EACH, system);
    let rust = |(m, b, tol)| flagged(solve::solve_square(m, b, tol));
    let name = format!("solve_square at size {N}");
    compare(&name, seed, &kinds, |(m, b, tol)| port(m, b, tol), rust);
    let all = kinds.iter().flat_map(|k| &k.inputs);
    let with = all.filter(|(m, b, tol)| port(*m, *b, *tol).0).count();
    say(&format!("{name}: {with} with an answer"));
}

#[test]
fn size_three() {
    solved(301, port::solve_square3);
}

#[test]
fn size_four() {
    solved(302, port::solve_square4);
}

/// Systems in which the entry sum's last digit decides, whose sum in another order is another: that
/// of columns, from the last row up, of each row from its end, and of row sums.
#[test]
fn entry_sums() {
    const BIG: f64 = (1u64 << 53) as f64;
    let systems = [
        ([[1.0, BIG, 0.0], [1.0, 0.0, 0.0], [0.0, 0.0, 1.0]], true),
        ([[1.0, 1.0, BIG], [0.0, 1.0, 0.0], [0.0, 0.0, 1.0]], false),
        ([[BIG, 0.0, 0.0], [1.0, 1.0, 0.0], [0.0, 0.0, 1.0]], true),
    ];
    // tol * 2^53 is the last double below 1
    let tol = f64::from_bits(0x3C9F_FFFF_FFFF_FFFF);
    for (m, some) in systems {
        let given = port::solve_square3(m, [1.0; 3], tol);
        let wanted = flagged(solve::solve_square(m, [1.0; 3], tol));
        assert_eq!(given.1.map(bits), wanted.1.map(bits), "{m:?}");
        assert_eq!((given.0, wanted.0), (some, some), "{m:?}");
    }
    let first = port::solve_square3(systems[0].0, [1.0; 3], tol).1;
    assert_eq!(first.map(bits), [1.0, -0.0, 1.0].map(bits));
}

/// Bytes that are too few: nothing is written.
#[test]
fn refusals() {
    whole_or_nothing("size 3", 96, 32, |s, out| exported::solve_square3(s, 0.0, out));
    whole_or_nothing("size 4", 160, 40, |s, out| exported::solve_square4(s, 0.0, out));
    let [b, c, d, e] = [-10.0, 35.0, -50.0, 24.0];
    let cubic = |x: &[u8], out: &mut [u8]| exported::refine_cubic(b, c, d, x, out);
    whole_or_nothing("refine, cubic", 24, 24, cubic);
    let quartic = |x: &[u8], out: &mut [u8]| exported::refine_quartic(b, c, d, e, x, out);
    whole_or_nothing("refine, quartic", 32, 32, quartic);
    let peel = |x: &[u8], out: &mut [u8]| exported::refine_peel(b, c, d, e, x, out);
    whole_or_nothing("refine, peel", 32, 32, peel);
}

fn cubic_rust(([b, c, d], x): ([f64; 3], [f64; 3])) -> [f64; 3] {
    poly::refine(
        x,
        |x| {
            (
                [x[1] - x[0] - b, x[2] - x[0] * x[1] - c, -x[0] * x[2] - d],
                [
                    x[1].abs() + x[0].abs() + b.abs(),
                    x[2].abs() + (x[0] * x[1]).abs() + c.abs(),
                    (x[0] * x[2]).abs() + d.abs(),
                ],
            )
        },
        |x| [[-1.0, 1.0, 0.0], [-x[1], -x[0], 1.0], [-x[2], 0.0, -x[0]]],
    )
}

fn quartic_rust(([b, c, d, e], x): ([f64; 4], [f64; 4])) -> [f64; 4] {
    poly::refine(
        x,
        |x| {
            (
                [
                    x[0] + x[2] - b,
                    x[1] + x[3] + x[0] * x[2] - c,
                    x[0] * x[3] + x[1] * x[2] - d,
                    x[1] * x[3] - e,
                ],
                [
                    x[0].abs() + x[2].abs() + b.abs(),
                    x[1].abs() + x[3].abs() + (x[0] * x[2]).abs() + c.abs(),
                    (x[0] * x[3]).abs() + (x[1] * x[2]).abs() + d.abs(),
                    (x[1] * x[3]).abs() + e.abs(),
                ],
            )
        },
        |x| {
            [
                [1.0, 0.0, 1.0, 0.0],
                [x[2], 1.0, x[0], 1.0],
                [x[3], x[2], x[1], x[0]],
                [0.0, x[3], 0.0, x[1]],
            ]
        },
    )
}

fn peel_rust(([b, c, d, e], x): ([f64; 4], [f64; 4])) -> [f64; 4] {
    poly::refine(
        x,
        |x| {
            (
                [x[1] - x[0] - b, x[2] - x[0] * x[1] - c, x[3] - x[0] * x[2] - d, -x[0] * x[3] - e],
                [
                    x[1].abs() + x[0].abs() + b.abs(),
                    x[2].abs() + (x[0] * x[1]).abs() + c.abs(),
                    x[3].abs() + (x[0] * x[2]).abs() + d.abs(),
                    (x[0] * x[3]).abs() + e.abs(),
                ],
            )
        },
        |x| {
            [
                [-1.0, 1.0, 0.0, 0.0],
                [-x[1], -x[0], 1.0, 0.0],
                [-x[2], 0.0, -x[0], 1.0],
                [-x[3], 0.0, 0.0, -x[0]],
            ]
        },
    )
}

/// How often the answer is not where it started.
fn moved<const N: usize>(
    name: &str,
    kinds: &[Kind<([f64; N], [f64; N])>],
    port: fn([f64; N], [f64; N]) -> [f64; N],
) {
    let all = kinds.iter().flat_map(|k| &k.inputs);
    let moved = all.filter(|(a, x)| port(*a, *x).map(bits) != x.map(bits)).count();
    say(&format!("{name}: {moved} moved"));
}

#[test]
fn refine_cubic() {
    let factors = |x: &[f64; 4]| [x[0], -x[1] - x[2], x[1] * x[2]];
    let start = |r: &mut Random, which| refined::<3>(r, which, factors);
    let kinds = every_kind(&mut Random::new(303), EACH, start);
    compare("refine, cubic", 303, &kinds, |(a, x)| port::refine_cubic(a, x), cubic_rust);
    moved("refine, cubic", &kinds, port::refine_cubic);
}

#[test]
fn refine_quartic() {
    let factors = |x: &[f64; 4]| [-x[0] - x[1], x[0] * x[1], -x[2] - x[3], x[2] * x[3]];
    let start = |r: &mut Random, which| refined::<4>(r, which, factors);
    let kinds = every_kind(&mut Random::new(304), EACH, start);
    compare("refine, quartic", 304, &kinds, |(a, x)| port::refine_quartic(a, x), quartic_rust);
    moved("refine, quartic", &kinds, port::refine_quartic);
}

#[test]
fn refine_peel() {
    let factors = |x: &[f64; 4]| {
        let (s, t) = (x[1] + x[2], x[1] * x[2]);
        [x[0], -s - x[3], t + s * x[3], -t * x[3]]
    };
    let start = |r: &mut Random, which| refined::<4>(r, which, factors);
    let kinds = every_kind(&mut Random::new(305), EACH, start);
    compare("refine, peel", 305, &kinds, |(a, x)| port::refine_peel(a, x), peel_rust);
    moved("refine, peel", &kinds, port::refine_peel);
}

#[test]
fn newton_cubic() {
    let start = |r: &mut Random, which| {
        let (p, y) = polynomial(r, which, 3);
        (p, if r.below(4) == 0 { y } else { y + (r.unit() - 0.5) / (1u64 << r.below(30)) as f64 })
    };
    let kinds = every_kind(&mut Random::new(306), EACH, start);
    let port =
        |([p0, p1, p2, p3, p4], y): ([f64; 5], f64)| port::newton_cubic(p0, p1, p2, p3, p4, y);
    compare("newton_cubic", 306, &kinds, port, |(p, y)| poly::newton_cubic(&p, y));
}
