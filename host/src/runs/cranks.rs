//! Crank equations: the port's inquiries beside `solve_trig` up to its list of r.
use crate::compare::answer::Answer;
use crate::compare::outcome::Outcome;
use crate::compare::ways;
use crate::inputs::lists::tolerance;
use crate::inputs::polynomials;
use crate::inputs::quadratics::crank;
use crate::inputs::random::Random;
use crate::port::inquiries::{Shown, crank_inquire};
use crate::runs::inquiries::{Inquiry, MORE, add, cases};
use crate::runs::parts;
use crate::truth::angle::Sine;
use crate::truth::kind::Root;
use crate::truth::lister::{Touches, finite, trimmed};
use crate::truth::reference::untouched;
use crate::truth::refusals;
use crate::truth::touching;

const OF_POLYNOMIALS: usize = polynomials::KINDS.len();

/// The kinds of equations: those of `polynomials`, and one more.
pub const KINDS: [&str; OF_POLYNOMIALS + 1] = {
    let mut kinds = ["that graze 0, or nearly"; OF_POLYNOMIALS + 1];
    let mut i = 0;
    while i < OF_POLYNOMIALS {
        kinds[i] = polynomials::KINDS[i];
        i += 1;
    }
    kinds
};

const CASES: [&str; 11] = cases("refused 5");

/// a2, b2, c1, d1, e, and confusion.
pub struct Crank(pub [f64; 5], pub f64);

/// k and the list, with the number of the refusal by document 01.
pub fn answer(
    terms: [f64; 5],
    k: usize,
    quartic: &[f64; 5],
    roots: impl Iterator<Item = Root>,
) -> (u64, Answer) {
    let refusal = match trimmed(quartic) {
        _ if !finite(&terms) => refusals::NOT_FINITE,
        _ if !finite(quartic) => refusals::ANSWER_NOT_FINITE,
        0 | 1 => refusals::TOO_FEW,
        _ => 0,
    };
    let roots: Vec<Root> = roots.collect();
    (k as u64, Answer::new(refusal.into(), &roots))
}

impl Inquiry for Crank {
    fn port(&self, sine: Sine, replies: &[u8]) -> Result<Shown, u64> {
        crank_inquire(sine, self.1, self.0, replies)
    }

    fn reference(&self, sine: Sine, touches: Touches) -> (u64, Answer) {
        let (k, quartic, list) = touching::crank(sine, self.0, self.1, touches);
        answer(self.0, k, &quartic, list.into_iter().map(Root::by))
    }

    fn untouched(&self, touches: Touches) -> (u64, Answer) {
        let Crank([a2, b2, c1, d1, e], confusion) = *self;
        let tol = untouched::Tolerance { confusion, angular: 0.0, parametric: 0.0 };
        let (k, quartic, list) = untouched::equation::solve_trig(a2, b2, c1, d1, e, tol, touches);
        answer(self.0, k, &quartic, list.iter().map(|r| Root::new(r.value, r.multiplicity)))
    }

    fn text(&self) -> String {
        crate::runs::lists::shown(&self.0, self.1)
    }
}

/// An equation with a double root at some angle, or nearly.
fn grazing(r: &mut Random) -> [f64; 5] {
    let [a2, b2, c1] = [0; 3].map(|_| 2.0 * r.unit() - 1.0);
    let (s, c) = (6.3 * r.unit()).sin_cos();
    let (s2, c2) = (2.0 * s * c, c * c - s * s);
    let d1 = (2.0 * a2 * s2 - 2.0 * b2 * c2 + c1 * s) / c;
    let e = -(a2 * c2 + b2 * s2 + c1 * c + d1 * s);
    let off = [0.0, 1e-12, 1e-9, 1e-6][r.below(4) as usize] * (r.unit() - 0.5);
    [a2, b2, c1, d1, e + off]
}

/// A made equation, of the kinds in turn.
pub fn terms(r: &mut Random, n: u64) -> [f64; 5] {
    match (n % KINDS.len() as u64) as usize {
        OF_POLYNOMIALS => grazing(r),
        which => crank(r, which),
    }
}

/// `count` made equations, the kinds in turn.
pub fn made(sine: Sine, seed: u64, count: u64) -> Outcome {
    let mut r = Random::new(seed);
    let before = ways::counts();
    let mut outcome = Outcome::new("cranks", Some(sine), &CASES);
    for n in 0..count {
        let terms = terms(&mut r, n);
        add(&mut outcome, sine, &Crank(terms, tolerance(&mut r)), n % MORE == 0);
    }
    outcome.ways = ways::since(&before);
    outcome
}

/// The long run; whether all were equal.
pub fn run(count: u64, seed: u64) -> bool {
    parts::run_both(parts::RECORDS, (count, seed), &KINDS, made)
}
