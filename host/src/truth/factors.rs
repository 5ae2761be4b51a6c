//! The reference build's factors in either mode.
use crate::truth::angle::Sine;

/// A polynomial's coefficients, and its degree.
pub type Given = ([f64; 5], u64);

macro_rules! factors {
    ($name:ident, $tree:ident) => {
        mod $name {
            use super::Given;
            use crate::truth::reference::$tree::poly;

            pub fn closed_form([b, c, d]: [f64; 3]) -> ([f64; 3], u64) {
                let (roots, n) = poly::cubic_closed_form(b, c, d);
                (roots, n as u64)
            }

            pub fn of_cubic([b, c, d]: [f64; 3]) -> [f64; 3] {
                poly::cubic_factor(b, c, d).into()
            }

            pub fn of_quartic([b, c, d, e]: [f64; 4]) -> [f64; 4] {
                let [(al, be), (ga, de)] = poly::quartic_factor(b, c, d, e);
                [al, be, ga, de]
            }

            pub fn of_list((a, d): Given, depth: u32) -> [f64; 10] {
                let f = poly::factorize(&poly::Scaled::new(&a[..=d as usize]), depth);
                let [q0, q1] = f.quad.map(|(al, be)| [al, be]);
                let all = [&[f.nlin as f64], &f.lin[..], &[f.nquad as f64], &q0, &q1].concat();
                all.try_into().expect("ten numbers")
            }
        }
    };
}

factors!(of_rounded, patched);
factors!(of_exact, sharp);

/// `cubic_closed_form`: the roots, and how many they are.
pub fn closed_form(sine: Sine, bcd: [f64; 3]) -> ([f64; 3], u64) {
    match sine {
        Sine::OfRounded => of_rounded::closed_form(bcd),
        Sine::OfExact => of_exact::closed_form(bcd),
    }
}

/// `cubic_factor`: r, e and f.
pub fn of_cubic(sine: Sine, bcd: [f64; 3]) -> [f64; 3] {
    match sine {
        Sine::OfRounded => of_rounded::of_cubic(bcd),
        Sine::OfExact => of_exact::of_cubic(bcd),
    }
}

/// `quartic_factor`: al, be, ga and de.
pub fn of_quartic(sine: Sine, bcde: [f64; 4]) -> [f64; 4] {
    match sine {
        Sine::OfRounded => of_rounded::of_quartic(bcde),
        Sine::OfExact => of_exact::of_quartic(bcde),
    }
}

/// `factorize` from a depth on: nlin, lin, nquad and the al and be of quad.
pub fn of_list(sine: Sine, list: Given, depth: u32) -> [f64; 10] {
    match sine {
        Sine::OfRounded => of_rounded::of_list(list, depth),
        Sine::OfExact => of_exact::of_list(list, depth),
    }
}
