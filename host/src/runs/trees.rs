//! Copies of the reference build, called alike.
use crate::compare::answer::Answer;
use crate::inputs::pieces::Pieces;
use crate::port::quadratics::Solution;
use crate::truth::angle::Sine;
use crate::truth::lister::Touches;

/// What a copy answers. Refusals are the host's own, by document 01.
#[derive(Clone, Copy)]
pub struct Tree {
    pub list: fn(&[f64], f64) -> Answer,
    pub touching: fn(&[f64], f64, Touches) -> Answer,
    /// a2, b2, c1, d1, e; confusion.
    pub crank: fn([f64; 5], f64, Touches) -> (u64, Answer),
    /// a, b, c; confusion, angular.
    pub quadratic: fn([f64; 3], [f64; 2]) -> Solution,
    pub centre: fn(f64, f64, f64) -> f64,
    pub shifted: fn(Solution, f64) -> Solution,
    pub touching_at: fn(Solution, f64, bool) -> Solution,
    pub pieces: fn(&Pieces) -> Vec<f64>,
}

/// The copy of this name.
macro_rules! tree {
    ($tree:ident) => {{
        use crate::compare::answer::Answer;
        use crate::truth::kind::Root;
        use crate::truth::reference::$tree::equation::{self, QuadraticSolution};
        use crate::truth::reference::$tree::{Tolerance, poly};
        use crate::truth::systems::counted;
        fn told(s: QuadraticSolution) -> (u32, [f64; 2]) {
            match s {
                QuadraticSolution::Two(x, y) => (0, [x, y]),
                QuadraticSolution::One(x) => (1, [x, f64::NAN]),
                QuadraticSolution::Linear(x) => (2, [x, f64::NAN]),
                QuadraticSolution::Degenerate => (3, [f64::NAN; 2]),
                QuadraticSolution::Empty => (4, [f64::NAN; 2]),
            }
        }
        fn handed((n, [x, y]): (u32, [f64; 2])) -> QuadraticSolution {
            match n {
                0 => QuadraticSolution::Two(x, y),
                1 => QuadraticSolution::One(x),
                2 => QuadraticSolution::Linear(x),
                3 => QuadraticSolution::Degenerate,
                _ => QuadraticSolution::Empty,
            }
        }
        fn root(r: &poly::RealRoot) -> Root {
            Root::by((r.yes > 0, r.value, r.multiplicity))
        }
        fn listed(coeffs: &[f64], roots: &[poly::RealRoot]) -> Answer {
            let roots: Vec<Root> = roots.iter().map(root).collect();
            Answer::new(crate::truth::lister::refusal(coeffs).into(), &roots)
        }
        const fn tolerance(confusion: f64, angular: f64) -> Tolerance {
            Tolerance { confusion, angular, parametric: 0.0 }
        }
        crate::runs::trees::Tree {
            list: |a, tol| {
                let (roots, systems) = counted(|| poly::real_roots(a, tol));
                listed(a, &roots).solving(systems)
            },
            touching: |a, tol, touches| listed(a, &poly::real_roots_touching(a, tol, touches)),
            crank: |terms, tol, touches| {
                let [a2, b2, c1, d1, e] = terms;
                let (k, quartic, list) =
                    equation::solve_trig(a2, b2, c1, d1, e, tolerance(tol, 0.0), touches);
                crate::runs::cranks::answer(terms, k, &quartic, list.iter().map(root))
            },
            quadratic: |[a, b, c], [con, ang]| {
                told(equation::solve_quadratic(a, b, c, tolerance(con, ang)))
            },
            centre: |a, b, ang| equation::quadratic_centre(a, b, tolerance(0.0, ang)),
            shifted: |s, t0| told(handed(s).shifted(t0)),
            touching_at: |s, vertex, yes| told(handed(s).touching_at(vertex, |_| yes)),
            pieces: crate::inputs::pieces::pieces!($tree),
        }
    }};
}
#[cfg(any(feature = "causes", feature = "coverage", feature = "mutants"))]
pub(crate) use tree;

const OF_ROUNDED: Tree = tree!(patched_kinds);
const OF_EXACT: Tree = tree!(sharp_kinds);
pub const UNTOUCHED: Tree = tree!(untouched_kinds);

/// The reference build in this mode.
pub fn reference(sine: Sine) -> &'static Tree {
    match sine {
        Sine::OfRounded => &OF_ROUNDED,
        Sine::OfExact => &OF_EXACT,
    }
}

/// What no mode changes is answered by the one of document 01.
pub const REFERENCE: Tree = OF_ROUNDED;
