//! Quadratics: the port's answers beside the Rust's.
use crate::compare::answer::Answer;
use crate::compare::outcome::Outcome;
use crate::compare::ways;
use crate::compare::{Same, Shown};
use crate::inputs::polynomials::KINDS;
use crate::inputs::quadratics::{Quadratic, quadratic, solution};
use crate::inputs::random::Random;
use crate::port::quadratics::{self as port, Solution};
use crate::runs::parts;
use crate::runs::trees::{REFERENCE, Tree, UNTOUCHED};
use crate::truth::kind::Root;
use crate::truth::refusals;

/// How many places each answer has, by its number.
const PLACES: [usize; 5] = [2, 1, 1, 0, 0];

const EMPTY: Solution = (4, [f64::NAN; 2]);

const CASES: [&str; 8] =
    ["two", "one", "linear", "degenerate", "empty", "refused 1", "refused 5", "centre not 0"];

/// The refusal by document 01, and the answer of a copy of the Rust, empty where refused.
pub fn refusing(tree: &Tree, abc: [f64; 3], tol: [f64; 2]) -> (u32, Solution) {
    if abc.iter().any(|x| !x.is_finite()) {
        return (refusals::NOT_FINITE.into(), EMPTY);
    }
    let (n, places) = (tree.quadratic)(abc, tol);
    match places[..PLACES[n as usize]].iter().all(|x| x.is_finite()) {
        true => (0, (n, places)),
        false => (refusals::ANSWER_NOT_FINITE.into(), EMPTY),
    }
}

/// As a list: each place once.
fn as_list((refusal, (n, places)): (u32, Solution)) -> Answer {
    let roots: Vec<Root> = places[..PLACES[n as usize]].iter().map(|x| Root::new(*x, 1)).collect();
    Answer::new(refusal.into(), &roots)
}

fn add(outcome: &mut Outcome, (abc, tol): Quadratic, (handed, x): (Solution, f64)) {
    let [a, b, _] = abc;
    let wanted = refusing(&REFERENCE, abc, tol);
    let centre = (REFERENCE.centre)(a, b, tol[1]);
    let touching = [false, true].map(|yes| (REFERENCE.touching_at)(handed, x, yes));
    let same = port::quadratic(abc, tol).same(&wanted)
        && port::solve_quadratic(abc, tol).same(&(REFERENCE.quadratic)(abc, tol))
        && port::quadratic_centre(a, b, tol[1]).same(&centre)
        && port::shifted(handed, x).same(&(REFERENCE.shifted)(handed, x))
        && [false, true].map(|yes| port::touching_at(handed, x, yes)).same(&touching);
    outcome.inputs += 1;
    if !same {
        outcome.differs(|| ((abc, tol), (handed, x)).shown());
    }
    outcome.beside(&as_list(refusing(&UNTOUCHED, abc, tol)), &as_list(wanted), true);
    let mut cases = [false; CASES.len()];
    match wanted {
        (0, (n, _)) => cases[n as usize] = true,
        (refusal, _) => cases[if refusal == 1 { 5 } else { 6 }] = true,
    }
    cases[7] = centre != 0.0;
    outcome.met.add(&cases);
}

/// `count` made quadratics, the kinds in turn.
pub fn made(seed: u64, count: u64) -> Outcome {
    let mut r = Random::new(seed);
    let before = ways::counts();
    let mut outcome = Outcome::new("quadratics", None, &CASES);
    for n in 0..count {
        let q = quadratic(&mut r, (n % KINDS.len() as u64) as usize);
        add(&mut outcome, q, solution(&mut r));
    }
    outcome.ways = ways::since(&before);
    outcome
}

/// The long run; whether all were equal.
pub fn run(count: u64, seed: u64) -> bool {
    parts::run(parts::RECORDS, (count, seed), &KINDS, made)
}
