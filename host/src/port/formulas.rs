//! Formulas: their text, and for their roots a tolerance.
use super::{answered, exported, list, twin};
use crate::compare::answer::Answer;
use crate::truth::angle::Sine;

pub use exported::formula_coefficients as formula_coefficients_bytes;

/// How many coefficients there are, and five of them.
pub const COEFFICIENTS: usize = 6;

/// `formula_coefficients`'s answer, or the number of its refusal.
pub fn formula_coefficients(text: &[u8]) -> Result<[f64; COEFFICIENTS], u64> {
    answered(|out| formula_coefficients_bytes(text, out))
}

pub fn formula_roots_bytes(sine: Sine, text: &[u8], tol: f64, out: &mut [u8]) -> u64 {
    match twin(sine) {
        Some(number) => exported::formula_roots_by(number, text, tol, out),
        None => exported::formula_roots(text, tol, out),
    }
}

/// `formula_roots`'s answer.
pub fn formula_roots(sine: Sine, text: &[u8], tol: f64) -> Answer {
    list(|out| formula_roots_bytes(sine, text, tol, out))
}
