//! The reference build's questions and roots in either mode, and which of these a yes helped to
//! form. The function itself asks and lists, and its systems count; its copy that counts yes replies
//! gets the same replies, and must ask and list the same.
use crate::truth::angle::Sine;
use crate::truth::kind::Formed;
use crate::truth::lister::Touches;
use crate::truth::systems::uncounted;
use std::cell::RefCell;
use std::collections::VecDeque;

/// What was asked and replied, for the copy.
struct Replies<'a> {
    touches: Touches<'a>,
    given: RefCell<VecDeque<(u64, bool)>>,
}

impl Replies<'_> {
    fn new(touches: Touches) -> Replies {
        Replies { touches, given: RefCell::default() }
    }

    fn ask(&self, x: f64) -> bool {
        let yes = (self.touches)(x);
        self.given.borrow_mut().push_back((x.to_bits(), yes));
        yes
    }

    fn again(&self, x: f64) -> bool {
        let given = self.given.borrow_mut().pop_front();
        let (place, yes) = given.unwrap_or_else(|| panic!("the copy asks once more, at {x:e}"));
        assert_eq!(x.to_bits(), place, "the copy asks at {x:e}");
        yes
    }

    /// The roots of both.
    fn formed(self, roots: &[(f64, u32)], copy: Vec<Formed>) -> Vec<Formed> {
        let same = |(a, b): (&(f64, u32), &Formed)| (a.0.to_bits(), a.1) == (b.1.to_bits(), b.2);
        let all = roots.len() == copy.len() && roots.iter().zip(&copy).all(same);
        let asked = self.given.into_inner().is_empty();
        assert!(all && asked, "the copy lists {copy:?}, the reference build {roots:?}");
        copy
    }
}

/// A crank's list: k, the quartic and the roots.
pub type Crank = (usize, [f64; 5], Vec<Formed>);

/// The functions of a reference build and of its copy that counts yes replies.
macro_rules! build {
    ($name:ident, $itself:ident, $copy:ident) => {
        mod $name {
            use super::{Crank, Formed, Replies, Touches, uncounted};
            use crate::truth::reference::{$copy, $itself};

            fn place(r: &$itself::poly::RealRoot) -> (f64, u32) {
                (r.value, r.multiplicity)
            }

            fn formed(
                replies: Replies,
                roots: &[$itself::poly::RealRoot],
                copy: &[$copy::poly::RealRoot],
            ) -> Vec<Formed> {
                let copy = copy.iter().map(|r| (r.yes > 0, r.value, r.multiplicity));
                replies.formed(&roots.iter().map(place).collect::<Vec<_>>(), copy.collect())
            }

            pub fn plain(coeffs: &[f64], tolerance: f64) -> Vec<(f64, u32)> {
                $itself::poly::real_roots(coeffs, tolerance).iter().map(place).collect()
            }

            pub fn list(coeffs: &[f64], tolerance: f64, touches: Touches) -> Vec<Formed> {
                use $copy::poly::real_roots_touching as copy;
                use $itself::poly::real_roots_touching as itself;
                let replies = Replies::new(touches);
                let roots = itself(coeffs, tolerance, |x| replies.ask(x));
                let again = uncounted(|| copy(coeffs, tolerance, |x| replies.again(x)));
                formed(replies, &roots, &again)
            }

            pub fn crank([a2, b2, c1, d1, e]: [f64; 5], confusion: f64, touches: Touches) -> Crank {
                use $copy::poly::real_roots_touching as copy;
                use $itself::{Tolerance, equation::solve_trig};
                let replies = Replies::new(touches);
                let tol = Tolerance { confusion, angular: 0.0, parametric: 0.0 };
                let (k, quartic, roots) = solve_trig(a2, b2, c1, d1, e, tol, |u| replies.ask(u));
                let again = uncounted(|| copy(&quartic, confusion, |u| replies.again(u)));
                (k, quartic, formed(replies, &roots, &again))
            }
        }
    };
}

build!(of_rounded, patched, patched_kinds);
build!(of_exact, sharp, sharp_kinds);

/// `real_roots`: places and multiplicities.
pub fn plain(sine: Sine, coeffs: &[f64], tolerance: f64) -> Vec<(f64, u32)> {
    match sine {
        Sine::OfRounded => of_rounded::plain(coeffs, tolerance),
        Sine::OfExact => of_exact::plain(coeffs, tolerance),
    }
}

/// `real_roots_touching`
pub fn list(sine: Sine, coeffs: &[f64], tolerance: f64, touches: Touches) -> Vec<Formed> {
    match sine {
        Sine::OfRounded => of_rounded::list(coeffs, tolerance, touches),
        Sine::OfExact => of_exact::list(coeffs, tolerance, touches),
    }
}

/// `solve_trig` up to its list.
pub fn crank(sine: Sine, terms: [f64; 5], confusion: f64, touches: Touches) -> Crank {
    match sine {
        Sine::OfRounded => of_rounded::crank(terms, confusion, touches),
        Sine::OfExact => of_exact::crank(terms, confusion, touches),
    }
}

/// The same of the untouched Rust, by its copy that counts yes replies alone.
pub mod untouched {
    use super::{Crank, Formed, Touches};
    use crate::truth::reference::untouched_kinds::{Tolerance, equation, poly};

    fn formed(r: &poly::RealRoot) -> Formed {
        (r.yes > 0, r.value, r.multiplicity)
    }

    pub fn plain(coeffs: &[f64], tolerance: f64) -> Vec<(f64, u32)> {
        let roots = poly::real_roots(coeffs, tolerance);
        roots.iter().map(|r| (r.value, r.multiplicity)).collect()
    }

    pub fn list(coeffs: &[f64], tolerance: f64, touches: Touches) -> Vec<Formed> {
        poly::real_roots_touching(coeffs, tolerance, touches).iter().map(formed).collect()
    }

    pub fn crank([a2, b2, c1, d1, e]: [f64; 5], confusion: f64, touches: Touches) -> Crank {
        let tol = Tolerance { confusion, angular: 0.0, parametric: 0.0 };
        let (k, quartic, roots) = equation::solve_trig(a2, b2, c1, d1, e, tol, touches);
        (k, quartic, roots.iter().map(formed).collect())
    }
}
