//! Inquiries by the port, replayed from the start with the replies so far.
use super::{answered, exported, of_bytes, twin};
use crate::compare::answer::{Answer, LIST};
use crate::truth::angle::Sine;

pub fn inquire_bytes(sine: Sine, coeffs: &[u8], tol: f64, replies: &[u8], out: &mut [u8]) -> u64 {
    match twin(sine) {
        Some(number) => exported::inquire_by(number, coeffs, tol, replies, out),
        None => exported::inquire(coeffs, tol, replies, out),
    }
}

pub fn crank_inquire_bytes(
    sine: Sine,
    confusion: f64,
    [a2, b2, c1, d1, e]: [f64; 5],
    replies: &[u8],
    out: &mut [u8],
) -> u64 {
    match twin(sine) {
        Some(n) => exported::crank_inquire_by(n, confusion, a2, b2, c1, d1, e, replies, out),
        None => exported::crank_inquire(confusion, a2, b2, c1, d1, e, replies, out),
    }
}

/// How many doubles an inquiry has, and one about a crank equation.
pub const SHOWN: usize = 3 + LIST;
pub const CRANK_SHOWN: usize = 1 + SHOWN;

/// What an inquiry shows: k, 0 for a list; 4 where a reply was refused and else 0; the place that
/// it asks about; and the list, empty where it asks.
#[derive(Clone, Copy)]
pub struct Shown {
    pub k: u64,
    pub number: u64,
    pub place: Option<f64>,
    pub list: Answer,
}

impl Shown {
    /// From the `SHOWN` doubles of the port.
    fn read(out: &[f64], k: u64) -> Shown {
        let place = match out[1] {
            1.0 => Some(out[2]),
            asks => {
                assert!(asks.to_bits() == 0 && out[2].to_bits() == 0, "no question: {out:?}");
                None
            }
        };
        Shown { k, number: out[0] as u64, place, list: Answer::read(&out[3..]) }
    }
}

/// What an inquiry shows after these replies, or the number of the refused start.
pub fn inquire(sine: Sine, coeffs: &[f64], tol: f64, replies: &[u8]) -> Result<Shown, u64> {
    let ask = |from: &[u8], out: &mut [u8]| inquire_bytes(sine, from, tol, replies, out);
    let shown = answered(|out| of_bytes(coeffs, |from| ask(from, out)));
    shown.map(|out: [f64; SHOWN]| Shown::read(&out, 0))
}

/// What the inquiry about a crank equation shows after these replies, or the number of the refused
/// start.
pub fn crank_inquire(
    sine: Sine,
    confusion: f64,
    terms: [f64; 5],
    replies: &[u8],
) -> Result<Shown, u64> {
    let shown = answered(|out| crank_inquire_bytes(sine, confusion, terms, replies, out));
    shown.map(|out: [f64; CRANK_SHOWN]| Shown::read(&out[1..], out[0] as u64))
}
