//! Whole lists: the answers of the port, of the reference build and of the untouched Rust, compared
//! over made lists.
use crate::compare::answer::Answer;
use crate::compare::outcome::Outcome;
use crate::compare::ways;
use crate::inputs::lists::{KINDS, Maker, handed_in, long, tolerance};
use crate::inputs::random::Random;
use crate::port;
use crate::runs::parts;
use crate::truth::angle::Sine;
use crate::truth::lister::{Reference, Solver, Untouched, refusal};
use crate::truth::systems::{counted, most};

/// The reference build's answer. A refused list is run too: the Rust's is empty then.
pub fn reference(sine: Sine, coeffs: &[f64], tol: f64) -> Answer {
    let (roots, systems) = counted(|| Reference(sine).list(coeffs, tol));
    let refusal = refusal(coeffs);
    let silent = roots.is_empty() && systems == 0;
    assert!(refusal == 0 || silent, "the Rust answers what is refused, {coeffs:?}");
    assert!(systems <= most(coeffs), "{systems} systems: {coeffs:?}");
    Answer::new(refusal.into(), &roots).solving(systems)
}

/// What stands beside: the untouched Rust's, and in the mode of the exact c that of the other mode.
pub fn beside(sine: Sine, coeffs: &[f64], tol: f64) -> Answer {
    match sine {
        Sine::OfRounded => Answer::new(refusal(coeffs).into(), &Untouched.list(coeffs, tol)),
        Sine::OfExact => ways::uncounted(|| reference(Sine::OfRounded, coeffs, tol)),
    }
}

pub const CASES: [&str; 24] = [
    "answered",
    "refused 1",
    "refused 2",
    "refused 3",
    "with no root",
    "with 1",
    "with 2",
    "with 3",
    "with 4",
    "with a root of multiplicity 2",
    "of 3",
    "of 4",
    "with leading zeros",
    "with a zero root that moved",
    "with trailing zeros",
    "with tolerance NaN",
    "0",
    "-0",
    "below 0",
    "infinite",
    "minus infinity",
    "subnormal",
    "the largest",
    "of 2^-30",
];

fn cases(coeffs: &[f64], tol: f64, answer: &Answer) -> [bool; CASES.len()] {
    let answered = answer.refusal == 0;
    let roots = |n| answered && answer.len == n;
    let multiple = |m| answer.multiplicities().any(|n| n == m);
    let zeros = coeffs.iter().take_while(|c| **c == 0.0).count();
    let at_zero = answer.roots().iter().any(|r| r.value == 0.0);
    [
        answered,
        answer.refusal == 1,
        answer.refusal == 2,
        answer.refusal == 3,
        roots(0),
        roots(1),
        roots(2),
        roots(3),
        roots(4),
        multiple(2),
        multiple(3),
        multiple(4),
        answered && zeros > 0,
        answered && zeros == 1 && !at_zero,
        answered && coeffs.last() == Some(&0.0),
        tol.is_nan(),
        tol.to_bits() == 0,
        tol.to_bits() == (-0.0f64).to_bits(),
        tol < 0.0 && tol.is_finite(),
        tol == f64::INFINITY,
        tol == f64::NEG_INFINITY,
        tol.is_subnormal() && tol > 0.0,
        tol == f64::MAX,
        tol == 1.0 / (1u64 << 30) as f64,
    ]
}

/// One list, and what the others answer to it.
fn add(outcome: &mut Outcome, sine: Sine, coeffs: &[f64], tol: f64) {
    let wanted = reference(sine, coeffs, tol);
    let given = port::real_roots(sine, coeffs, tol);
    outcome.inputs += 1;
    outcome.met.add(&cases(coeffs, tol, &wanted));
    outcome.add(&wanted);
    if !given.same(&wanted) {
        outcome.differs(|| {
            let (given, wanted) = (given.told(), wanted.told());
            format!("{}: port {given}, reference {wanted}", shown(coeffs, tol))
        });
    }
    outcome.beside(&beside(sine, coeffs, tol), &wanted, true);
}

/// A tolerance and a list in bits.
pub fn shown(coeffs: &[f64], tol: f64) -> String {
    let list: Vec<_> = coeffs.iter().map(|c| format!("{:016X}", c.to_bits())).collect();
    format!("{:016X}: {}", tol.to_bits(), list.join(" "))
}

/// One tolerance of so many is an edge.
const EDGES: u64 = 128;

/// A tolerance for this list: by chance, or now and then the last double before the answer changes,
/// or the first at which it does, where band and noise radius decide by their last digits.
pub fn tolerance_for(r: &mut Random, sine: Sine, coeffs: &[f64]) -> f64 {
    if r.below(EDGES) > 0 {
        return tolerance(r);
    }
    let at = |bits: u64| port::real_roots(sine, coeffs, f64::from_bits(bits));
    let most = [f64::MAX, 16.0, 1.0, 1e-6][r.below(4) as usize];
    let (mut below, mut above, first) = (0, most.to_bits(), at(0));
    while above - below > 1 {
        let middle = below + (above - below) / 2;
        match at(middle).same(&first) {
            true => below = middle,
            false => above = middle,
        }
    }
    f64::from_bits([below, above][r.below(2) as usize])
}

/// `count` made lists, the kinds in turn.
pub fn made(sine: Sine, seed: u64, count: u64) -> Outcome {
    made_by(handed_in, sine, seed, count)
}

/// The same of long ones.
pub fn made_long(sine: Sine, seed: u64, count: u64) -> Outcome {
    made_by(long, sine, seed, count)
}

fn made_by(make: Maker, sine: Sine, seed: u64, count: u64) -> Outcome {
    let (mut r, mut list) = (Random::new(seed), Vec::new());
    let before = ways::counts();
    let mut outcome = Outcome::new("lists", Some(sine), &CASES);
    for n in 0..count {
        make(&mut r, (n % KINDS.len() as u64) as usize, n, &mut list);
        let tol = tolerance_for(&mut r, sine, &list);
        add(&mut outcome, sine, &list, tol);
    }
    outcome.ways = ways::since(&before);
    outcome
}

/// These lists at a tolerance.
pub fn each(sine: Sine, lists: &[Vec<f64>], tol: f64) -> Outcome {
    let before = ways::counts();
    let mut outcome = Outcome::new("lists", Some(sine), &CASES);
    for list in lists {
        add(&mut outcome, sine, list, tol);
    }
    outcome.ways = ways::since(&before);
    outcome
}

/// All lists of up to five coefficients over these, at both tolerances.
pub fn every_short_list(sine: Sine, over: &[f64], tols: [f64; 2]) -> Outcome {
    let before = ways::counts();
    let mut outcome = Outcome::new("lists", Some(sine), &CASES);
    for len in 0..=5 {
        for n in 0..over.len().pow(len) {
            let at = |i| over[n / over.len().pow(i) % over.len()];
            let list: Vec<f64> = (0..len).map(at).collect();
            for tol in tols {
                add(&mut outcome, sine, &list, tol);
            }
        }
    }
    outcome.ways = ways::since(&before);
    outcome
}

/// The long run; whether all were equal.
pub fn run(count: u64, seed: u64) -> bool {
    parts::run_both(parts::RECORDS, (count, seed), &KINDS, made)
}
