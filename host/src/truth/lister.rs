//! The host's own lister: the bytes of a hall file to the bytes of its listing, as documents 01 and 02
//! say, over any solver. Nothing here calls the port.
use crate::compare::bits;
#[cfg(geomcore)]
use crate::truth::angle::Sine;
use crate::truth::formula;
use crate::truth::hall_file::{Item, Kind, Record, items};
use crate::truth::kind::{self, Root};
use crate::truth::refusals;
#[cfg(geomcore)]
use crate::truth::touching;
use std::fmt;

/// The Rust's `QuadraticSolution`.
#[derive(Clone, Copy, Debug, PartialEq)]
pub enum Solution {
    Two(f64, f64),
    One(f64),
    Linear(f64),
    Degenerate,
    Empty,
}

impl Solution {
    pub fn word(&self) -> &'static str {
        match self {
            Solution::Two(..) => "two",
            Solution::One(_) => "one",
            Solution::Linear(_) => "linear",
            Solution::Degenerate => "degenerate",
            Solution::Empty => "empty",
        }
    }

    pub fn places(&self) -> Vec<f64> {
        match *self {
            Solution::Two(x, y) => vec![x, y],
            Solution::One(x) | Solution::Linear(x) => vec![x],
            Solution::Degenerate | Solution::Empty => vec![],
        }
    }
}

/// `solve_trig` up to its list of r: k, its quartic and the roots u in the order found.
#[derive(Clone, Debug)]
pub struct Turned {
    pub k: usize,
    pub quartic: [f64; 5],
    pub roots: Vec<Root>,
}

/// The replies to questions.
pub type Touches<'a> = &'a dyn Fn(f64) -> bool;

/// Answers as the Rust gives them: nothing is refused.
pub trait Solver {
    /// `real_roots`
    fn list(&self, coeffs: &[f64], tolerance: f64) -> Vec<Root>;
    /// `solve_quadratic`
    fn quadratic(&self, abc: [f64; 3], confusion: f64, angular: f64) -> Solution;
    /// `solve_trig`, every question replied no
    fn crank(&self, terms: [f64; 5], confusion: f64) -> Turned;
    /// `real_roots_touching`
    fn touching(&self, coeffs: &[f64], tolerance: f64, touches: Touches) -> Vec<Root>;
}

/// A place of an answer, with the multiplicity and the kind that the listing says; of a quadratic it
/// says neither.
pub type Listed = (f64, Option<(u32, kind::Kind)>);

/// What stands behind the mark of a line.
#[derive(Clone, Debug, PartialEq)]
pub enum Answer {
    Refused(u8),
    List(Vec<Root>),
    Quadratic(Solution),
    Crank(usize, Vec<Root>),
}

impl Answer {
    pub fn roots(&self) -> Vec<Listed> {
        match self {
            Answer::Refused(_) => vec![],
            Answer::List(roots) | Answer::Crank(_, roots) => {
                roots.iter().map(|r| (r.value, Some((r.multiplicity, r.kind)))).collect()
            }
            Answer::Quadratic(s) => s.places().into_iter().map(|x| (x, None)).collect(),
        }
    }
}

impl fmt::Display for Answer {
    fn fmt(&self, f: &mut fmt::Formatter) -> fmt::Result {
        match self {
            Answer::Refused(n) => write!(f, "refused {n}"),
            Answer::List(roots) => write!(f, "ok {}", roots.len()),
            Answer::Crank(k, roots) => write!(f, "ok {k} {}", roots.len()),
            Answer::Quadratic(s) => write!(f, "{}", s.word()),
        }?;
        self.roots().iter().try_for_each(|&(x, listed)| {
            write!(f, " {:016X}", bits(x))?;
            listed.map_or(Ok(()), |(m, kind)| write!(f, " {m} {}", kind.letter()))
        })
    }
}

/// One line of a listing.
#[derive(Clone, Debug, PartialEq)]
pub struct Line {
    pub number: usize,
    /// None where the mark prints as `--`.
    pub kind: Option<Kind>,
    pub answer: Answer,
}

impl fmt::Display for Line {
    fn fmt(&self, f: &mut fmt::Formatter) -> fmt::Result {
        let mark = self.kind.map_or("--", Kind::mark);
        write!(f, "{} {mark} {}", self.number, self.answer)
    }
}

/// What the last line of a listing counts: its other lines, the roots that these list, and how often
/// the roots count. The places of a quadratic are no roots.
#[derive(Clone, Copy, Debug, Default, PartialEq)]
pub struct Total {
    pub records: usize,
    pub roots: usize,
    pub multiplicities: u64,
}

impl Total {
    /// That of the lines with these answers.
    pub fn of<'a>(answers: impl Iterator<Item = &'a Answer>) -> Total {
        let mut total = Total::default();
        for answer in answers {
            let listed = answer.roots().into_iter().filter_map(|(_, listed)| listed);
            let times: Vec<u64> = listed.map(|(times, _)| times.into()).collect();
            total.records += 1;
            total.roots += times.len();
            total.multiplicities += times.iter().sum::<u64>();
        }
        total
    }
}

impl fmt::Display for Total {
    fn fmt(&self, f: &mut fmt::Formatter) -> fmt::Result {
        write!(f, "T {} {} {}", self.records, self.roots, self.multiplicities)
    }
}

/// The listing of a file: a line for each record, and their total.
pub fn listing(bytes: &[u8], solver: &impl Solver) -> Vec<u8> {
    let lines: Vec<Line> = items(bytes).iter().map(|item| line(item, solver)).collect();
    let text: String = lines.iter().map(|line| format!("{line}\n")).collect();
    let total = Total::of(lines.iter().map(|line| &line.answer));
    format!("{text}{total}\n").into_bytes()
}

/// The line of what a file holds at one place.
pub fn line(item: &Item, solver: &impl Solver) -> Line {
    let answer = match &item.record {
        Ok(record) => answer(record, solver),
        Err(refusal) => Answer::Refused(*refusal),
    };
    Line { number: item.number, kind: item.kind, answer }
}

/// The answer to a whole record, with the operation's own refusals.
pub fn answer(record: &Record, solver: &impl Solver) -> Answer {
    match record {
        Record::List { tolerance, coeffs } => listed(coeffs, *tolerance, solver),
        Record::Quadratic { confusion, angular, abc } => {
            if !finite(abc) {
                return Answer::Refused(refusals::NOT_FINITE);
            }
            let solution = solver.quadratic(*abc, *confusion, *angular);
            match finite(&solution.places()) {
                true => Answer::Quadratic(solution),
                false => Answer::Refused(refusals::ANSWER_NOT_FINITE),
            }
        }
        Record::Crank { confusion, terms } => {
            if !finite(terms) {
                return Answer::Refused(refusals::NOT_FINITE);
            }
            let Turned { k, quartic, roots } = solver.crank(*terms, *confusion);
            match trimmed(&quartic) {
                _ if !finite(&quartic) => Answer::Refused(refusals::ANSWER_NOT_FINITE),
                0 | 1 => Answer::Refused(refusals::TOO_FEW),
                _ => Answer::Crank(k, roots),
            }
        }
        Record::Contact(contact) => match contact.refusal() {
            0 => {
                let touches = |t| contact.touches(t);
                let coeffs = contact.coefficients();
                Answer::List(solver.touching(&coeffs, contact.confusion, &touches))
            }
            number => Answer::Refused(number),
        },
        Record::Formula { tolerance, text } => match formula::coefficients(text) {
            Ok(coeffs) => listed(&coeffs, *tolerance, solver),
            Err(fault) => Answer::Refused(fault.refusal()),
        },
    }
}

/// A list's answer.
fn listed(coeffs: &[f64], tolerance: f64, solver: &impl Solver) -> Answer {
    match refusal(coeffs) {
        0 => Answer::List(solver.list(coeffs, tolerance)),
        number => Answer::Refused(number),
    }
}

pub fn finite(numbers: &[f64]) -> bool {
    numbers.iter().all(|x| x.is_finite())
}

/// How many coefficients are left once trailing zeros are dropped.
pub fn trimmed(coeffs: &[f64]) -> usize {
    coeffs.iter().rposition(|c| *c != 0.0).map_or(0, |last| last + 1)
}

/// Under which number a list is refused, 0 where it is not.
pub fn refusal(coeffs: &[f64]) -> u8 {
    match trimmed(coeffs) {
        _ if !finite(coeffs) => refusals::NOT_FINITE,
        0 | 1 => refusals::TOO_FEW,
        2..=5 => 0,
        _ => refusals::TOO_MANY,
    }
}

/// The reference build of document 01, or its copy in the mode of the exact c.
#[cfg(geomcore)]
pub struct Reference(pub Sine);

/// The Rust as it is.
#[cfg(geomcore)]
pub struct Untouched;

#[cfg(geomcore)]
macro_rules! solver {
    ($name:ident, $tree:ident, $plain:expr, $crank:expr, $touching:expr) => {
        impl Solver for $name {
            fn list(&self, coeffs: &[f64], tolerance: f64) -> Vec<Root> {
                let roots = $plain(self, coeffs, tolerance);
                roots.into_iter().map(|(x, times)| Root::new(x, times)).collect()
            }

            fn quadratic(&self, [a, b, c]: [f64; 3], confusion: f64, angular: f64) -> Solution {
                use crate::truth::reference::$tree::{Tolerance, equation};
                let tol = Tolerance { confusion, angular, parametric: 0.0 };
                match equation::solve_quadratic(a, b, c, tol) {
                    equation::QuadraticSolution::Two(x, y) => Solution::Two(x, y),
                    equation::QuadraticSolution::One(x) => Solution::One(x),
                    equation::QuadraticSolution::Linear(x) => Solution::Linear(x),
                    equation::QuadraticSolution::Degenerate => Solution::Degenerate,
                    equation::QuadraticSolution::Empty => Solution::Empty,
                }
            }

            fn crank(&self, terms: [f64; 5], confusion: f64) -> Turned {
                let (k, quartic, roots) = $crank(self, terms, confusion, &|_| false);
                Turned { k, quartic, roots: roots.into_iter().map(Root::by).collect() }
            }

            fn touching(&self, coeffs: &[f64], tolerance: f64, touches: Touches) -> Vec<Root> {
                $touching(self, coeffs, tolerance, touches).into_iter().map(Root::by).collect()
            }
        }
    };
}

#[cfg(geomcore)]
solver!(
    Reference,
    patched,
    |r: &Reference, a, tol| touching::plain(r.0, a, tol),
    |r: &Reference, terms, tol, touches| touching::crank(r.0, terms, tol, touches),
    |r: &Reference, a, tol, touches| touching::list(r.0, a, tol, touches)
);
#[cfg(geomcore)]
solver!(
    Untouched,
    untouched,
    |_: &Untouched, a, tol| touching::untouched::plain(a, tol),
    |_: &Untouched, terms, tol, touches| touching::untouched::crank(terms, tol, touches),
    |_: &Untouched, a, tol, touches| touching::untouched::list(a, tol, touches)
);

#[cfg(test)]
mod tests {
    use super::*;

    #[test]
    fn refusals_of_lists() {
        assert_eq!(refusal(&[]), 2);
        assert_eq!(refusal(&[7.0, -0.0]), 2);
        assert_eq!(refusal(&[f64::NAN]), 1);
        assert_eq!(refusal(&[0.0, 0.0, 0.0, 0.0, 0.0, f64::INFINITY]), 1);
        assert_eq!(refusal(&[0.0, 0.0, 0.0, 0.0, 0.0, 1.0]), 3);
        assert_eq!(refusal(&[1.0, 1.0, 1.0, 1.0, 1.0, 0.0, -0.0]), 0);
    }
}
