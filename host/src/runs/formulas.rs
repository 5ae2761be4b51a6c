//! Formulas: the port's coefficients beside those of the host's own reader, and its roots beside the
//! reference build's list of these.
use crate::compare::answer::Answer;
use crate::compare::outcome::Outcome;
use crate::compare::ways;
use crate::inputs::formulas::{self, KINDS};
use crate::inputs::lists::tolerance;
use crate::inputs::random::Random;
use crate::people::text;
use crate::port::formulas::{COEFFICIENTS, formula_coefficients, formula_roots};
use crate::runs::{lists, parts};
use crate::truth::angle::Sine;
use crate::truth::formula;
use crate::truth::hall_file::Record;

/// How many coefficients there are, and five of them, or the number of the refusal.
pub type Expanded = Result<[f64; COEFFICIENTS], u64>;

/// From the coefficients, or the refusal.
pub fn expanded(coeffs: &Result<Vec<f64>, u8>) -> Expanded {
    let coeffs = coeffs.as_ref().map_err(|number| u64::from(*number))?;
    let mut all = [0.0; COEFFICIENTS];
    all[0] = coeffs.len() as f64;
    all[1..=coeffs.len()].copy_from_slice(coeffs);
    Ok(all)
}

/// The coefficients by the host's own reader, and their list by the reference build.
pub fn reference(sine: Sine, text: &[u8], tol: f64) -> (Expanded, Answer) {
    let coeffs = formula::coefficients(text).map_err(|fault| fault.refusal());
    let list = match &coeffs {
        Ok(coeffs) => lists::reference(sine, coeffs, tol),
        Err(number) => Answer::new((*number).into(), &[]),
    };
    (expanded(&coeffs), list)
}

pub const CASES: [&str; 20] = [
    "answered",
    "refused 2",
    "refused 13",
    "refused 14",
    "refused 15",
    "with no root",
    "with 1",
    "with 2",
    "with 3",
    "with 4",
    "with a root of multiplicity 2",
    "of 3",
    "of 4",
    "of degree 1",
    "2",
    "3",
    "4",
    "with a coefficient of 2^53 in size",
    "which is the zero polynomial",
    "of 255 bytes",
];

fn cases(text: &[u8], coeffs: &Expanded, answer: &Answer) -> [bool; CASES.len()] {
    let refused = |n| answer.refusal == n;
    let roots = |n| refused(0) && answer.len == n;
    let multiple = |m| answer.multiplicities().any(|n| n == m);
    let count = |n: usize| coeffs.is_ok_and(|all| all[0] == n as f64);
    let largest = (1u64 << 53) as f64;
    [
        refused(0),
        refused(2),
        refused(13),
        refused(14),
        refused(15),
        roots(0),
        roots(1),
        roots(2),
        roots(3),
        roots(4),
        multiple(2),
        multiple(3),
        multiple(4),
        count(2),
        count(3),
        count(4),
        count(5),
        coeffs.is_ok_and(|all| all[1..].iter().any(|c| c.abs() == largest)),
        count(0),
        refused(0) && text.len() == formula::MOST_BYTES,
    ]
}

/// The same bits, or the same refusal.
fn same(given: &Expanded, wanted: &Expanded) -> bool {
    let bits = |all: &Expanded| all.map(|coeffs| coeffs.map(f64::to_bits));
    bits(given) == bits(wanted)
}

/// One text, and what is answered to it.
pub fn add(outcome: &mut Outcome, sine: Sine, text: &[u8], tol: f64) {
    let (coeffs, list) = reference(sine, text, tol);
    let (expanded, roots) = (formula_coefficients(text), formula_roots(sine, text, tol));
    outcome.inputs += 1;
    outcome.met.add(&cases(text, &coeffs, &list));
    outcome.add(&list);
    if let Ok([count, all @ ..]) = &coeffs {
        outcome.beside(&lists::beside(sine, &all[..*count as usize], tol), &list, true);
    }
    if !same(&expanded, &coeffs) || !roots.same(&list) {
        outcome.differs(|| {
            let record = Record::Formula { tolerance: tol, text: text.to_vec() };
            let (line, given, wanted) = (text::line(&record), roots.told(), list.told());
            format!("{line}: port {expanded:?}, {given}, reference {coeffs:?}, {wanted}")
        });
    }
}

/// What `each` adds.
pub fn outcome(sine: Sine, each: impl FnOnce(&mut Outcome)) -> Outcome {
    let before = ways::counts();
    let mut outcome = Outcome::new("formulas", Some(sine), &CASES);
    each(&mut outcome);
    outcome.ways = ways::since(&before);
    outcome
}

/// The n-th made text, of the kinds in turn, and a tolerance.
pub fn made_record(r: &mut Random, n: u64) -> (Vec<u8>, f64) {
    let mut text = Vec::new();
    formulas::text(r, (n % KINDS.len() as u64) as usize, &mut text);
    (text, tolerance(r))
}

/// `count` made texts, the kinds in turn.
pub fn made(sine: Sine, seed: u64, count: u64) -> Outcome {
    let mut r = Random::new(seed);
    outcome(sine, |all| {
        for n in 0..count {
            let (text, tol) = made_record(&mut r, n);
            add(all, sine, &text, tol);
        }
    })
}

/// The long run; whether all were equal.
pub fn run(count: u64, seed: u64) -> bool {
    parts::run_both(parts::RECORDS, (count, seed), &KINDS, made)
}
