//! The proved functions, called through plain C calls: on bytes, as `exported` declares them, and
//! on numbers.
use crate::compare::answer::{Answer, LIST};
use crate::people::show::ListFile;
use crate::truth::angle::Sine;
use std::cell::Cell;

pub mod clustering;
pub mod contacts;
pub mod exported;
pub mod formulas;
pub mod inquiries;
pub mod quadratics;
pub mod systems;

pub use exported::{
    discriminant, float_abs, float_clamp, float_copysign, float_floor, float_from_bits,
    float_is_finite, float_max, float_min, float_powi, float_to_bits, float_total_le, leaf_cbrt,
    leaf_exponent, leaf_ldexp, leaf_log2, leaf_log2_five, leaf_pow2, leaf_sqrt, leaf_third_angle,
    list_file, newton_cubic,
};

thread_local! {
    static CALLS: Cell<usize> = const { Cell::new(0) };
}

/// So many calls have their turn; no sort of inputs has as many kinds, or a multiple.
const TURNS: usize = 7;

/// The number to hand to a function's twin, or none for the function itself, which is in the mode
/// of the exact c: there two calls of seven are the twin's. The other mode has every other number.
pub fn twin(sine: Sine) -> Option<u32> {
    let turn = CALLS.replace((CALLS.get() + 1) % TURNS);
    match (sine, turn) {
        (Sine::OfExact, 0..5) => None,
        (Sine::OfRounded, 0) => Some(2),
        (Sine::OfRounded, 1) => Some(u32::MAX),
        _ => Some(sine.number()),
    }
}

/// The same for a function that has none, and always takes the number.
fn number(sine: Sine) -> u32 {
    twin(sine).unwrap_or(Sine::OfExact.number())
}

/// The lister in this mode.
pub fn lister(sine: Sine) -> ListFile {
    match sine {
        Sine::OfRounded => |file, out| list_file_in(Sine::OfRounded, file, out),
        Sine::OfExact => |file, out| list_file_in(Sine::OfExact, file, out),
    }
}

fn list_file_in(sine: Sine, file: &[u8], out: &mut [u8]) -> u64 {
    match twin(sine) {
        Some(number) => exported::list_file_by(number, file, out),
        None => exported::list_file(file, out),
    }
}

/// Doubles as bytes, lowest first.
pub fn bytes(a: &[f64]) -> Vec<u8> {
    a.iter().flat_map(|x| x.to_le_bytes()).collect()
}

/// The same in an array, zeros where there are fewer.
fn packed<const N: usize>(a: &[f64]) -> [u8; N] {
    let mut out = [0; N];
    for (to, x) in out.chunks_exact_mut(8).zip(a) {
        to.copy_from_slice(&x.to_le_bytes());
    }
    out
}

/// Calls with the bytes of a list; up to 32 doubles have them on the stack.
fn of_bytes<R>(a: &[f64], call: impl FnOnce(&[u8]) -> R) -> R {
    match a.len() {
        0..=32 => call(&packed::<256>(a)[..8 * a.len()]),
        _ => call(&bytes(a)),
    }
}

/// Five doubles as bytes, lowest first.
pub fn forty(a: [f64; 5]) -> [u8; 40] {
    packed(&a)
}

/// The i-th double in such bytes.
pub fn double(bytes: &[u8], i: usize) -> f64 {
    f64::from_le_bytes(bytes[8 * i..8 * i + 8].try_into().unwrap())
}

/// The N doubles that `fill` stores, which says how many bytes they have; or the number of its
/// refusal, which stores nothing.
fn answered<const N: usize>(fill: impl FnOnce(&mut [u8]) -> u64) -> Result<[f64; N], u64> {
    const LENT: u8 = 0xA5;
    let mut out = [LENT; 256];
    match fill(&mut out[..8 * N]) {
        n if n == 8 * N as u64 => Ok(std::array::from_fn(|i| double(&out, i))),
        refusal => {
            assert!(refusal > 0 && out == [LENT; 256], "refused {refusal}, bytes {out:?}");
            Err(refusal)
        }
    }
}

/// The same of what is never refused.
fn numbers<const N: usize>(fill: impl FnOnce(&mut [u8]) -> u64) -> [f64; N] {
    answered(fill).expect("bytes stored")
}

/// `third_angle`'s answer: c and s.
pub fn third_angle(sine: Sine, v: f64) -> (f64, f64) {
    numbers::<2>(|out| leaf_third_angle(number(sine), v, out)).into()
}

/// `two_prod`'s answer.
pub fn two_prod(a: f64, b: f64) -> [f64; 2] {
    numbers(|out| exported::two_prod(a, b, out))
}

/// `value_slope`'s answer.
pub fn value_slope(p: [f64; 5], d: u64, y: f64) -> [f64; 2] {
    numbers(|out| exported::value_slope(&forty(p), d, y, out))
}

/// `value_slope_compensated`'s answer.
pub fn compensated(p: [f64; 5], d: u64, y: f64) -> [f64; 2] {
    numbers(|out| exported::value_slope_compensated(&forty(p), d, y, out))
}

/// `derivs12`'s answer.
pub fn derivs12(p: [f64; 5], d: u64, y: f64) -> [f64; 2] {
    numbers(|out| exported::derivs12(&forty(p), d, y, out))
}

/// `taylor`'s answer.
pub fn taylor(p: [f64; 5], d: u64, y: f64) -> [f64; 5] {
    numbers(|out| exported::taylor(&forty(p), d, y, out))
}

/// A system of three equations: its matrix row by row, and its right-hand side.
fn system3(m: [[f64; 3]; 3], b: [f64; 3]) -> [u8; 96] {
    packed([m[0], m[1], m[2], b].as_flattened())
}

/// The same of four.
pub fn system4(m: [[f64; 4]; 4], b: [f64; 4]) -> [u8; 160] {
    packed([m[0], m[1], m[2], m[3], b].as_flattened())
}

/// `solve_square`'s answer at size 3: whether there is one, and the unknowns.
pub fn solve_square3(m: [[f64; 3]; 3], b: [f64; 3], tol: f64) -> (bool, [f64; 3]) {
    let [ok, x @ ..] = numbers::<4>(|out| exported::solve_square3(&system3(m, b), tol, out));
    (ok == 1.0, x)
}

/// `solve_square`'s answer at size 4: whether there is one, and the unknowns.
pub fn solve_square4(m: [[f64; 4]; 4], b: [f64; 4], tol: f64) -> (bool, [f64; 4]) {
    let [ok, x @ ..] = numbers::<5>(|out| exported::solve_square4(&system4(m, b), tol, out));
    (ok == 1.0, x)
}

/// `refine`'s answer for a cubic's factors.
pub fn refine_cubic([b, c, d]: [f64; 3], x: [f64; 3]) -> [f64; 3] {
    numbers(|out| exported::refine_cubic(b, c, d, &packed::<24>(&x), out))
}

/// `refine`'s answer for the two quadratics of a quartic.
pub fn refine_quartic([b, c, d, e]: [f64; 4], x: [f64; 4]) -> [f64; 4] {
    numbers(|out| exported::refine_quartic(b, c, d, e, &packed::<32>(&x), out))
}

/// `refine`'s answer for a quartic with one root peeled off.
pub fn refine_peel([b, c, d, e]: [f64; 4], x: [f64; 4]) -> [f64; 4] {
    numbers(|out| exported::refine_peel(b, c, d, e, &packed::<32>(&x), out))
}

/// `cubic_closed_form`'s answer: the roots, and how many they are.
pub fn cubic_closed_form(sine: Sine, [b, c, d]: [f64; 3]) -> ([f64; 3], u64) {
    let [n, x @ ..] = numbers::<4>(|out| exported::cubic_closed_form(number(sine), b, c, d, out));
    (x, n as u64)
}

/// `cubic_factor`'s answer: r, e and f.
pub fn cubic_factor(sine: Sine, [b, c, d]: [f64; 3]) -> [f64; 3] {
    numbers(|out| exported::cubic_factor(number(sine), b, c, d, out))
}

/// `quartic_factor`'s answer: al, be, ga and de.
pub fn quartic_factor(sine: Sine, [b, c, d, e]: [f64; 4]) -> [f64; 4] {
    numbers(|out| exported::quartic_factor(number(sine), b, c, d, e, out))
}

/// `isolated_root`'s answer: whether there is one, and the root, NaN where there is none.
pub fn isolated_root([al, be, ga, de]: [f64; 4]) -> (bool, f64) {
    let [found, x] = numbers(|out| exported::isolated_root(al, be, ga, de, out));
    (found == 1.0, x)
}

/// `peel_root`'s answer: r, h2, h1 and h0.
pub fn peel_root([b, c, d, e]: [f64; 4], y: f64) -> [f64; 4] {
    numbers(|out| exported::peel_root(b, c, d, e, y, out))
}

/// `Scaled::new`'s answer.
pub fn scaled_new(a: [f64; 5], d: u64) -> [f64; 18] {
    numbers(|out| exported::scaled_new(&forty(a), d, out))
}

/// `magnitude_split`'s answer.
pub fn magnitude_split(lg: [f64; 5], d: u64) -> [f64; 3] {
    numbers(|out| exported::magnitude_split(&forty(lg), d, out))
}

/// `factorize`'s answer.
pub fn factorize(sine: Sine, a: [f64; 5], d: u64, depth: u32) -> [f64; 10] {
    numbers(|out| exported::factorize(number(sine), &forty(a), d, depth, out))
}

/// The list, or its refusal.
fn list(fill: impl FnOnce(&mut [u8]) -> u64) -> Answer {
    match answered::<LIST>(fill) {
        Ok(list) => Answer::read(&list),
        Err(refusal) => Answer::new(refusal, &[]),
    }
}

pub fn real_roots_bytes(sine: Sine, coeffs: &[u8], tol: f64, out: &mut [u8]) -> u64 {
    match twin(sine) {
        Some(number) => exported::real_roots_by(number, coeffs, tol, out),
        None => exported::real_roots(coeffs, tol, out),
    }
}

/// `real_roots`'s answer.
pub fn real_roots(sine: Sine, coeffs: &[f64], tol: f64) -> Answer {
    list(|out| of_bytes(coeffs, |from| real_roots_bytes(sine, from, tol, out)))
}
