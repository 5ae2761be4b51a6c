//! The band, what is found in it, polishing and the finished roots, each for the polynomial
//! `Scaled::new` of five doubles in 40 bytes and a degree. A number is NaN, a truth false, and
//! nothing is written, where the doubles have fewer bytes or the degree is above 4.
use super::{exported, numbers};
use crate::compare::answer::ROOTS;

pub use exported::{
    band, critical_point, extremum, finish as finish_bytes, noise, polish, within_band,
};

pub fn push_quadratic_bytes(
    a: &[u8],
    d: u64,
    [al, be, tol]: [f64; 3],
    c: &[u8],
    n: u64,
    m: u64,
    out: &mut [u8],
) -> u64 {
    exported::push_quadratic(a, d, al, be, tol, c, n, m, out)
}

/// `push_quadratic`'s answer.
pub fn push_quadratic(
    a: &[u8],
    d: u64,
    factor: [f64; 3],
    c: &[u8],
    [n, m]: [u64; 2],
) -> [f64; ROOTS + 5] {
    numbers(|out| push_quadratic_bytes(a, d, factor, c, n, m, out))
}

/// `finish`'s answer.
pub fn finish(a: &[u8], d: u64, c: &[u8], n: u64, tol: f64) -> [f64; ROOTS] {
    numbers(|out| finish_bytes(a, d, c, n, tol, out))
}
