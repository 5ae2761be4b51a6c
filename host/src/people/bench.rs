//! What a call of each proved function costs, beside Rust's own and geomcore's: in the mode of the
//! exact c, where nothing else is said.
use crate::compare::say;
use crate::inputs::random::Random;
use crate::people::progress::Progress;
use crate::port;
use crate::truth::angle::Sine;
use crate::truth::reference;
use std::hint::black_box;
use std::time::Instant;

const VALUES: usize = 1_000_000;
/// Inputs of the slower functions.
#[cfg(geomcore)]
const FACTORED: usize = 100_000;
const PASSES: usize = 9;
const STRETCH: usize = 10_000;

/// The number of the mode.
#[cfg(geomcore)]
const EXACT: u32 = Sine::OfExact.number();

/// One line of the table: nanoseconds for a value by the port and by Rust's own, and the most that
/// their ratio, or the port's time, should be; and of answers that list roots, how many square
/// systems the port solves for one on average.
struct Row {
    name: &'static str,
    port: f64,
    beside: &'static str,
    rust: f64,
    aim: Aim,
    systems: Option<f64>,
}

impl Row {
    /// With so many systems for each of the inputs.
    #[cfg(geomcore)]
    fn solving<T: Copy>(self, inputs: &[T], systems: impl Fn(T) -> u32) -> Row {
        let all: u64 = inputs.iter().map(|input| u64::from(systems(*input))).sum();
        Row { systems: Some(all as f64 / inputs.len() as f64), ..self }
    }
}

enum Aim {
    Times(f64),
    Nanoseconds(f64),
    Open,
}

/// Nanoseconds an input, by both. Of each stretch of inputs the best of several passes counts, and
/// the two take turns, so that a busy machine slows neither or both.
fn best<T: Copy>(inputs: &[T], port: impl Fn(T) -> f64, rust: impl Fn(T) -> f64) -> (f64, f64) {
    let mut least = vec![(f64::MAX, f64::MAX); inputs.len().div_ceil(STRETCH)];
    for _ in 0..PASSES {
        for (part, best) in inputs.chunks(STRETCH).zip(&mut least) {
            best.0 = best.0.min(pass(part, &port));
            best.1 = best.1.min(pass(part, &rust));
        }
    }
    let all = least.iter().fold((0.0, 0.0), |sum, part| (sum.0 + part.0, sum.1 + part.1));
    (all.0 / inputs.len() as f64, all.1 / inputs.len() as f64)
}

/// Nanoseconds for all the inputs.
fn pass<T: Copy>(inputs: &[T], f: impl Fn(T) -> f64) -> f64 {
    let start = Instant::now();
    let mut all = 0;
    for &x in inputs {
        all ^= f(black_box(x)).to_bits();
    }
    black_box(all);
    start.elapsed().as_nanos() as f64
}

/// The sum of the N doubles that `fill` stores.
fn sum<const N: usize>(fill: impl Fn(&mut [u8]) -> u64) -> f64 {
    let mut out = [[0; 8]; N];
    fill(out.as_flattened_mut());
    out.into_iter().map(f64::from_le_bytes).sum()
}

fn row<T: Copy>(
    names: (&'static str, &'static str),
    aim: Aim,
    inputs: &[T],
    port: impl Fn(T) -> f64,
    rust: impl Fn(T) -> f64,
) -> Row {
    let (port, rust) = best(inputs, port, rust);
    Row { name: names.0, port, beside: names.1, rust, aim, systems: None }
}

fn roots(r: &mut Random) -> Vec<Row> {
    let x: Vec<f64> = (0..VALUES).map(|_| 1e-3 + 2000.0 * r.unit()).collect();
    vec![
        row(("sqrt", "f64::sqrt"), Aim::Times(6.0), &x, |x| port::leaf_sqrt(x), f64::sqrt),
        row(("cbrt", "f64::cbrt"), Aim::Times(2.5), &x, |x| port::leaf_cbrt(x), f64::cbrt),
    ]
}

fn angles(r: &mut Random) -> Vec<Row> {
    let v: Vec<f64> = (0..VALUES).map(|_| 2.0 * r.unit() - 1.0).collect();
    let [rounded, exact] = Sine::BOTH
        .map(|sine| move |v: f64| sum::<2>(|out| port::leaf_third_angle(sine.number(), v, out)));
    let both = |v: f64| {
        let (s, c) = (v.acos() / 3.0).sin_cos();
        s + c
    };
    let names = ("third_angle, exact c", "of the rounded c");
    vec![
        row(("third_angle, rounded", "sin_cos(acos/3)"), Aim::Times(3.0), &v, rounded, both),
        row(names, Aim::Times(1.5), &v, exact, rounded),
    ]
}

fn logarithms(r: &mut Random) -> Vec<Row> {
    let x: Vec<f64> = (0..VALUES).map(|_| 1e-3 + 2000.0 * r.unit()).collect();
    let fives: Vec<[u8; 40]> =
        x.chunks_exact(5).map(|a| port::bytes(a).try_into().unwrap()).collect();
    let five = |a: [u8; 40]| sum::<5>(|out| port::leaf_log2_five(&a, out));
    let rust = |a: [u8; 40]| (0..5).map(|i| port::double(&a, i).log2()).sum();
    let mut by_five = row(("log2_five", "f64::log2"), Aim::Nanoseconds(20.0), &fives, five, rust);
    by_five.port /= 5.0;
    by_five.rust /= 5.0;
    vec![row(("log2", "f64::log2"), Aim::Open, &x, |x| port::leaf_log2(x), f64::log2), by_five]
}

fn scales(r: &mut Random) -> Vec<Row> {
    let small = |r: &mut Random| (r.unit() - 0.5, r.below(100) as i32 - 50);
    let x: Vec<(f64, i32)> = (0..VALUES).map(|_| small(r)).collect();
    let wide = |r: &mut Random| (r.unit() - 0.5, r.below(4000) as i32 - 2000);
    let y: Vec<(f64, i32)> = (0..VALUES).map(|_| wide(r)).collect();
    let port = |(x, k)| port::leaf_ldexp(x, k);
    let (name, rust) = rust_ldexp();
    let log_floor = |(x, _): (f64, i32)| x.abs().log2().floor();
    let exponent = |(x, _)| port::leaf_exponent(x) as f64;
    vec![
        row(("ldexp", name), Aim::Open, &x, port, |(x, k)| rust(x, k)),
        row(("ldexp, far", name), Aim::Open, &y, port, |(x, k)| rust(x, k)),
        row(("exponent", "log2, floor"), Aim::Open, &x, exponent, log_floor),
    ]
}

#[cfg(geomcore)]
fn rust_ldexp() -> (&'static str, fn(f64, i32) -> f64) {
    ("geomcore's ldexp", reference::untouched::poly::ldexp)
}

#[cfg(not(geomcore))]
fn rust_ldexp() -> (&'static str, fn(f64, i32) -> f64) {
    say(&format!("geomcore's ldexp: {}", reference::SKIPPED));
    ("powi, once", |x, k| x * 2f64.powi(k))
}

/// Elimination and factors of polynomials with roots from -2 to 2.
#[cfg(geomcore)]
fn factors(r: &mut Random) -> Vec<Row> {
    use crate::inputs::polynomials::{monic, system};
    use crate::port::exported;
    use reference::untouched::{poly, solve};
    type System = ([[f64; 4]; 4], [f64; 4], f64);
    let systems = (0..FACTORED).map(|_| system::<4>(r, 1));
    let systems: Vec<_> = systems.map(|(m, b, tol)| ((m, b, tol), port::system4(m, b))).collect();
    let unknowns = |((_, _, tol), bytes): (System, [u8; 160])| {
        sum::<5>(|out| exported::solve_square4(&bytes, tol, out))
    };
    let solved = |((m, b, tol), _): (System, [u8; 160])| {
        solve::solve_square(m, b, tol).map_or(0.0, |x: [f64; 4]| x.iter().sum())
    };
    let cubics: Vec<_> = (0..FACTORED).map(|_| monic::<3>(r, 1)).collect();
    let line = |[b, c, d]: [f64; 3]| sum::<3>(|out| exported::cubic_factor(EXACT, b, c, d, out));
    let cubic = |[b, c, d]: [f64; 3]| {
        let (r, e, f) = poly::cubic_factor(b, c, d);
        r + e + f
    };
    let quartics: Vec<_> = (0..FACTORED).map(|_| monic::<4>(r, 1)).collect();
    let pairs =
        |[b, c, d, e]: [f64; 4]| sum::<4>(|out| exported::quartic_factor(EXACT, b, c, d, e, out));
    let quartic = |[b, c, d, e]: [f64; 4]| {
        let [(al, be), (ga, de)] = poly::quartic_factor(b, c, d, e);
        al + be + ga + de
    };
    let beside = "geomcore's";
    vec![
        row(("solve_square, 4", beside), Aim::Open, &systems, unknowns, solved),
        row(("cubic_factor", beside), Aim::Open, &cubics, line, cubic),
        row(("quartic_factor", beside), Aim::Open, &quartics, pairs, quartic),
    ]
}

#[cfg(not(geomcore))]
fn factors(_: &mut Random) -> Vec<Row> {
    say(&format!("factors beside geomcore's: {}", reference::SKIPPED));
    Vec::new()
}

/// Whole lists of degree 2, 3 and 4, at the tolerance 2^-30: with coefficients from -1 to 1, with
/// whole ones from -6 to 6, with real roots alone, from -2 to 2, and with some roots smaller by far
/// than the others, most of which are scaled and factored twice.
#[cfg(geomcore)]
fn lists(r: &mut Random) -> Vec<Row> {
    use crate::compare::answer::LIST;
    use crate::inputs::lists::with_small_roots;
    use crate::inputs::polynomials::polynomial;
    use crate::inputs::quadratics::TOL;
    use crate::port::exported;
    use reference::untouched::poly::real_roots;
    const NAMES: [&[&str]; 3] = [
        &["list 2, uniform", "list 2, whole", "list 2, real roots"],
        &["list 3, uniform", "list 3, whole", "list 3, real roots", "list 3, small roots"],
        &["list 4, uniform", "list 4, whole", "list 4, real roots", "list 4, small roots"],
    ];
    let make = |r: &mut Random, mix, d: usize| -> [f64; 5] {
        let mut p = match mix {
            0 => std::array::from_fn(|_| 2.0 * r.unit() - 1.0),
            1 => std::array::from_fn(|_| r.below(13) as f64 - 6.0),
            2 => polynomial(r, 1, d).0,
            _ => with_small_roots(r, d).0,
        };
        p[d] = if p[d] == 0.0 { 1.0 } else { p[d] };
        p
    };
    let mut rows = Vec::new();
    for (d, names) in (2..).zip(NAMES) {
        let most = if d == 4 { 1.4 } else { 2.0 };
        for (mix, name) in names.iter().enumerate() {
            let aim = if mix < 3 { Aim::Times(most) } else { Aim::Open };
            let made = (0..FACTORED).map(|_| make(r, mix, d));
            let inputs: Vec<_> = made.map(|p| (p, port::forty(p))).collect();
            let port = |(_, bytes): ([f64; 5], [u8; 40])| {
                let mut out = [0; 8 * LIST];
                exported::real_roots(&bytes[..8 * d + 8], TOL, &mut out);
                port::double(&out, 1)
            };
            let rust = |(p, _): ([f64; 5], [u8; 40])| {
                real_roots(&p[..=d], TOL).first().map_or(0.0, |root| root.value)
            };
            let systems = |(p, _): ([f64; 5], [u8; 40])| {
                port::real_roots(Sine::OfExact, &p[..=d], TOL).systems
            };
            let row = row((name, "geomcore's"), aim, &inputs, port, rust);
            rows.push(row.solving(&inputs, systems));
        }
    }
    rows
}

#[cfg(not(geomcore))]
fn lists(_: &mut Random) -> Vec<Row> {
    say(&format!("lists beside geomcore's: {}", reference::SKIPPED));
    Vec::new()
}

#[cfg(geomcore)]
const NO: [u8; 4] = [0; 4];

/// How many times an inquiry wants a no until it lists.
#[cfg(geomcore)]
fn wanted(show: impl Fn(&[u8]) -> Result<port::inquiries::Shown, u64>) -> usize {
    let ends = |n: &usize| show(&NO[..*n]).is_ok_and(|shown| shown.place.is_none());
    (0..4).find(ends).unwrap_or(0)
}

/// Inquiries about lists with coefficients from -1 to 1, at the tolerance 2^-30, every question
/// replied no. The port begins anew for each reply, and gets all of them at once here.
#[cfg(geomcore)]
fn inquiries(r: &mut Random) -> Vec<Row> {
    use crate::port::exported;
    use crate::port::inquiries::{SHOWN, inquire};
    use reference::untouched::poly::real_roots_touching;
    const NAMES: [&str; 3] = ["inquiry 2, uniform", "inquiry 3, uniform", "inquiry 4, uniform"];
    let tol = 1.0 / (1u64 << 30) as f64;
    let mut rows = Vec::new();
    for (d, name) in (2..).zip(NAMES) {
        let lists = (0..FACTORED).map(|_| -> [f64; 5] { [0; 5].map(|_| 2.0 * r.unit() - 1.0) });
        let inputs = lists
            .map(|p| (p, port::forty(p), wanted(|no| inquire(Sine::OfExact, &p[..=d], tol, no))));
        let inputs: Vec<_> = inputs.collect();
        let port = |(_, bytes, n): ([f64; 5], [u8; 40], usize)| {
            let mut out = [0; 8 * SHOWN];
            exported::inquire(&bytes[..8 * d + 8], tol, &NO[..n], &mut out);
            port::double(&out, 4)
        };
        let rust = |(p, _, _): ([f64; 5], [u8; 40], usize)| {
            let list = real_roots_touching(&p[..=d], tol, |_| false);
            list.first().map_or(0.0, |root| root.value)
        };
        let systems = |(p, _, n): ([f64; 5], [u8; 40], usize)| {
            inquire(Sine::OfExact, &p[..=d], tol, &NO[..n]).map_or(0, |shown| shown.list.systems)
        };
        let row = row((name, "geomcore's"), Aim::Open, &inputs, port, rust);
        rows.push(row.solving(&inputs, systems));
    }
    rows
}

/// The same for crank equations with terms from -1 to 1.
#[cfg(geomcore)]
fn cranks(r: &mut Random) -> Vec<Row> {
    use crate::inputs::quadratics::TOL;
    use crate::port::inquiries::{CRANK_SHOWN, crank_inquire, crank_inquire_bytes};
    use reference::untouched::{Tolerance, equation};
    let tol = Tolerance { confusion: TOL, angular: TOL, parametric: TOL };
    let terms = (0..FACTORED).map(|_| -> [f64; 5] { [0; 5].map(|_| 2.0 * r.unit() - 1.0) });
    let asked = |t| wanted(|no| crank_inquire(Sine::OfExact, TOL, t, no));
    let inputs: Vec<_> = terms.map(|t| (t, asked(t))).collect();
    let port = |(terms, n): ([f64; 5], usize)| {
        let mut out = [0; 8 * CRANK_SHOWN];
        crank_inquire_bytes(Sine::OfExact, TOL, terms, &NO[..n], &mut out);
        port::double(&out, 5)
    };
    let rust = |([a2, b2, c1, d1, e], _): ([f64; 5], usize)| {
        let (_, _, list) = equation::solve_trig(a2, b2, c1, d1, e, tol, |_| false);
        list.first().map_or(0.0, |root| root.value)
    };
    let systems = |(terms, n): ([f64; 5], usize)| {
        crank_inquire(Sine::OfExact, TOL, terms, &NO[..n]).map_or(0, |shown| shown.list.systems)
    };
    let row = row(("crank, uniform", "geomcore's"), Aim::Open, &inputs, port, rust);
    vec![row.solving(&inputs, systems)]
}

/// Balls on a lane, at the confusion 2^-30: the Rust with the same equation and closure.
#[cfg(geomcore)]
fn contacts(r: &mut Random) -> Vec<Row> {
    use crate::compare::answer::LIST;
    use crate::inputs::contacts::on_a_lane;
    use crate::inputs::quadratics::TOL;
    use crate::port::contacts::{pin_contact, pin_contact_bytes};
    use crate::truth::contact::Contact;
    use reference::untouched::poly::real_roots_touching;
    let inputs: Vec<_> =
        (0..FACTORED).map(|_| Contact { confusion: TOL, ..on_a_lane(r) }).collect();
    let port = |contact: Contact| {
        let mut out = [0; 8 * LIST];
        pin_contact_bytes(Sine::OfExact, contact.numbers(), &mut out);
        port::double(&out, 1)
    };
    let rust = |contact: Contact| {
        let coeffs = contact.coefficients();
        let list = real_roots_touching(&coeffs, contact.confusion, |t| contact.touches(t));
        list.first().map_or(0.0, |root| root.value)
    };
    let systems = |contact: Contact| pin_contact(Sine::OfExact, contact.numbers()).systems;
    let row = row(("contact, on a lane", "geomcore's"), Aim::Open, &inputs, port, rust);
    vec![row.solving(&inputs, systems)]
}

/// Texts such as (t-2)^2*(t+1), to their coefficients and to their roots at the tolerance 2^-30, by
/// the host's own reader and the Rust's list.
#[cfg(geomcore)]
fn formulas(r: &mut Random) -> Vec<Row> {
    use crate::compare::answer::LIST;
    use crate::inputs::formulas::mechanics;
    use crate::inputs::quadratics::TOL;
    use crate::port::exported;
    use crate::port::formulas::{
        COEFFICIENTS, formula_coefficients_bytes as by_port, formula_roots,
    };
    use crate::truth::formula::coefficients;
    use reference::untouched::poly::real_roots;
    let made: Vec<Vec<u8>> = (0..FACTORED).map(|_| mechanics(r)).collect();
    let inputs: Vec<&[u8]> = made.iter().map(Vec::as_slice).collect();
    let expanded = |text| sum::<COEFFICIENTS>(|out| by_port(text, out));
    let plain = |text| coefficients(text).map_or(0.0, |all| all.iter().sum());
    let port = |text| {
        let mut out = [0; 8 * LIST];
        exported::formula_roots(text, TOL, &mut out);
        port::double(&out, 1)
    };
    let rust = |text| match coefficients(text) {
        Ok(all) => real_roots(&all, TOL).first().map_or(0.0, |root| root.value),
        Err(_) => 0.0,
    };
    vec![
        row(("formula, expanded", "a plain reader"), Aim::Open, &inputs, expanded, plain),
        row(("formula, roots", "and geomcore's"), Aim::Open, &inputs, port, rust)
            .solving(&inputs, |text| formula_roots(Sine::OfExact, text, TOL).systems),
    ]
}

#[cfg(not(geomcore))]
fn formulas(_: &mut Random) -> Vec<Row> {
    say(&format!("formulas beside geomcore's: {}", reference::SKIPPED));
    Vec::new()
}

#[cfg(not(geomcore))]
fn contacts(_: &mut Random) -> Vec<Row> {
    say(&format!("contacts beside geomcore's: {}", reference::SKIPPED));
    Vec::new()
}

#[cfg(not(geomcore))]
fn inquiries(_: &mut Random) -> Vec<Row> {
    say(&format!("inquiries beside geomcore's: {}", reference::SKIPPED));
    Vec::new()
}

#[cfg(not(geomcore))]
fn cranks(_: &mut Random) -> Vec<Row> {
    say(&format!("cranks beside geomcore's: {}", reference::SKIPPED));
    Vec::new()
}

/// Quadratics with two roots, one or none, from the coefficients to the places.
#[cfg(geomcore)]
fn quadratics(r: &mut Random) -> Vec<Row> {
    use crate::inputs::quadratics::{TOL, quadratic};
    use crate::port::exported::{quadratic_centre, solve_quadratic};
    use reference::untouched::{Tolerance, equation};
    let tol = Tolerance { confusion: TOL, angular: TOL, parametric: TOL };
    let inputs: Vec<_> = (0..VALUES).map(|i| quadratic(r, [1, 3, 5][i % 3]).0).collect();
    let places = |[a, b, c]: [f64; 3]| sum::<3>(|out| solve_quadratic(a, b, c, TOL, TOL, out));
    let solved = |[a, b, c]: [f64; 3]| match equation::solve_quadratic(a, b, c, tol) {
        equation::QuadraticSolution::Two(x, y) => x + y,
        equation::QuadraticSolution::One(x) | equation::QuadraticSolution::Linear(x) => x,
        _ => f64::NAN,
    };
    let centre = |[a, b, _]: [f64; 3]| quadratic_centre(a, b, TOL);
    let centred = |[a, b, _]: [f64; 3]| equation::quadratic_centre(a, b, tol);
    let beside = "geomcore's";
    vec![
        row(("solve_quadratic", beside), Aim::Open, &inputs, places, solved),
        row(("quadratic_centre", beside), Aim::Open, &inputs, centre, centred),
    ]
}

#[cfg(not(geomcore))]
fn quadratics(_: &mut Random) -> Vec<Row> {
    say(&format!("quadratics beside geomcore's: {}", reference::SKIPPED));
    Vec::new()
}

/// Full hall files, read, answered and printed, with lists of degree 2, 3 and 4, quadratics and
/// cranks in turn and numbers from -1 to 1, at the tolerance 2^-30: the time for a record.
#[cfg(geomcore)]
fn full_files(r: &mut Random) -> Vec<Row> {
    use crate::truth::hall_file::{MOST_BYTES, MOST_LISTED, Record, file, items};
    use crate::truth::lister::{Untouched, listing};
    const FILES: usize = 10;
    const TURN: usize = 35 + 43 + 51 + 42 + 50;
    let tol = 1.0 / (1u64 << 30) as f64;
    let mut record = |n: usize| {
        let mut numbers = || 2.0 * r.unit() - 1.0;
        match n % 5 {
            3 => {
                let abc = std::array::from_fn(|_| numbers());
                Record::Quadratic { confusion: tol, angular: tol, abc }
            }
            4 => Record::Crank { confusion: tol, terms: std::array::from_fn(|_| numbers()) },
            d => Record::List { tolerance: tol, coeffs: (0..d + 3).map(|_| numbers()).collect() },
        }
    };
    let records = 5 * (MOST_BYTES / TURN);
    let full: Vec<Vec<u8>> =
        (0..FILES).map(|_| file(&(0..records).map(&mut record).collect::<Vec<_>>())).collect();
    let inputs: Vec<&[u8]> = full.iter().map(Vec::as_slice).collect();
    let port = |bytes| port::list_file(bytes, &mut vec![0; MOST_LISTED]) as f64;
    let rust = |bytes| listing(bytes, &Untouched).len() as f64;
    let names = ("full file, a record", "a plain lister");
    let in_file = |bytes: &[u8]| items(bytes).iter().map(port::systems::listed).sum();
    let mut row = row(names, Aim::Times(3.0), &inputs, port, rust).solving(&inputs, in_file);
    row.port /= records as f64;
    row.rust /= records as f64;
    row.systems = row.systems.map(|all| all / records as f64);
    vec![row]
}

#[cfg(not(geomcore))]
fn full_files(_: &mut Random) -> Vec<Row> {
    say(&format!("full files beside geomcore's answers: {}", reference::SKIPPED));
    Vec::new()
}

fn verdict(row: &Row) -> String {
    let (value, most, unit) = match row.aim {
        Aim::Open => return String::new(),
        Aim::Times(most) => (row.port / row.rust, most, "times"),
        Aim::Nanoseconds(most) => (row.port, most, "ns"),
    };
    let met = if value <= most { "met" } else { "missed" };
    format!("{most} {unit}, {met}")
}

/// Measures all of them and prints the table.
pub fn run() {
    let mut r = Random::new(1);
    let parts = [
        roots, angles, logarithms, scales, factors, lists, inquiries, quadratics, cranks, contacts,
        formulas, full_files,
    ];
    let mut progress = Progress::new("measurements", parts.len());
    let parts = parts.map(|part| {
        let rows = part(&mut r);
        progress.step();
        rows
    });
    say(&format!("ns a value, best of {PASSES} passes over {VALUES} values, both in turns"));
    say("systems: how many square systems an answer takes, on average");
    say(&format!(
        "{:20}{:>8}   {:18}{:>8}{:>8}{:>9}   at most",
        "function", "port", "beside", "Rust", "ratio", "systems"
    ));
    for row in parts.iter().flatten() {
        let Row { name, port, beside, rust, systems, .. } = row;
        let systems = systems.map(|mean| format!("{mean:.2}")).unwrap_or_default();
        let line = format!(
            "{name:20}{port:>8.1}   {beside:18}{rust:>8.1}{:>8.1}{systems:>9}   {}",
            port / rust,
            verdict(row)
        );
        say(line.trim_end());
    }
}
