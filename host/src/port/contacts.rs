//! Pin contacts: confusion, x0, x1, x2, y0, y1, y2, cx, cy and R.
use super::{exported, list, twin};
use crate::compare::answer::Answer;
use crate::truth::angle::Sine;

pub fn pin_contact_bytes(sine: Sine, numbers: [f64; 10], out: &mut [u8]) -> u64 {
    let [confusion, x0, x1, x2, y0, y1, y2, cx, cy, r] = numbers;
    match twin(sine) {
        Some(n) => exported::pin_contact_by(n, confusion, x0, x1, x2, y0, y1, y2, cx, cy, r, out),
        None => exported::pin_contact(confusion, x0, x1, x2, y0, y1, y2, cx, cy, r, out),
    }
}

/// `pin_contact`'s answer.
pub fn pin_contact(sine: Sine, numbers: [f64; 10]) -> Answer {
    list(|out| pin_contact_bytes(sine, numbers, out))
}
