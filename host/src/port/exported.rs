//! The C functions of the archives, with the only `unsafe` of the host: each without the prefix
//! `pongewaru_` of its symbol, in the order of .ci/archives; tests/header.rs compares them with the
//! crates.
//! A Rattle `&[u8]` or `&mut [u8]` is a pointer and a length, a number is itself, and no function
//! requires anything of its arguments. All numbers of an answer are stored in `out` as doubles, one
//! after another; what is said is how many bytes that are, or the number of a refusal, or 0 where
//! `out` or what is handed in is too short: nothing is written then.
#![allow(unsafe_code)]

/// Declares each C function, and a safe function of its name that calls it.
macro_rules! exported {
    ($($(#[$doc:meta])* fn $name:ident($($args:tt)*) -> $said:ty;)*) => {
        $(exported! { @ [$(#[$doc])*] $name $said, [] [] [] $($args)*, })*
    };
    (@ $doc:tt $name:ident $said:ty, [$($of:tt)*] [$($c:tt)*] [$($by:tt)*]
        $x:ident: &[u8], $($rest:tt)*) => {
        exported! { @ $doc $name $said, [$($of)* $x: &[u8],] [$($c)* _: *const u8, _: usize,]
            [$($by)* $x.as_ptr(), $x.len(),] $($rest)* }
    };
    (@ $doc:tt $name:ident $said:ty, [$($of:tt)*] [$($c:tt)*] [$($by:tt)*]
        $x:ident: &mut [u8], $($rest:tt)*) => {
        exported! { @ $doc $name $said, [$($of)* $x: &mut [u8],] [$($c)* _: *mut u8, _: usize,]
            [$($by)* $x.as_mut_ptr(), $x.len(),] $($rest)* }
    };
    (@ $doc:tt $name:ident $said:ty, [$($of:tt)*] [$($c:tt)*] [$($by:tt)*]
        $x:ident: $number:ty, $($rest:tt)*) => {
        exported! { @ $doc $name $said, [$($of)* $x: $number,] [$($c)* _: $number,]
            [$($by)* $x,] $($rest)* }
    };
    (@ [$($doc:tt)*] $name:ident $said:ty, [$($of:tt)*] [$($c:tt)*] [$($by:tt)*]) => {
        $($doc)*
        #[inline]
        #[allow(clippy::too_many_arguments)]
        pub fn $name($($of)*) -> $said {
            unsafe extern "C" {
                #[link_name = concat!("pongewaru_", stringify!($name))]
                fn $name($($c)*) -> $said;
            }
            // SAFETY: pointers and lengths are those of slices lent for the call, and `out`
            // overlaps none.
            unsafe { $name($($by)*) }
        }
    };
}

// ---- crates/c_leaves
exported! {
    fn float_abs(x: f64) -> f64;
    fn float_copysign(x: f64, y: f64) -> f64;
    fn float_min(x: f64, y: f64) -> f64;
    fn float_max(x: f64, y: f64) -> f64;
    fn float_clamp(x: f64, lo: f64, hi: f64) -> f64;
    fn float_total_le(x: f64, y: f64) -> bool;
    fn float_is_finite(x: f64) -> bool;
    fn float_powi(v: f64, n: u32) -> f64;
    fn float_floor(x: f64) -> u64;
    fn float_from_bits(n: u64) -> f64;
    fn float_to_bits(x: f64) -> u64;

    fn leaf_ldexp(x: f64, k: i32) -> f64;
    fn leaf_pow2(k: i32) -> f64;
    fn leaf_exponent(x: f64) -> i32;
    fn leaf_sqrt(x: f64) -> f64;
    fn leaf_cbrt(x: f64) -> f64;
    fn leaf_log2(x: f64) -> f64;
    /// c and s, by the number of the sine's mode.
    fn leaf_third_angle(sine: u32, v: f64, out: &mut [u8]) -> u64;
    /// L of five doubles in 40 bytes.
    fn leaf_log2_five(a: &[u8], out: &mut [u8]) -> u64;
}

// ---- crates/c_layers
exported! {
    /// The product, and its error.
    fn two_prod(a: f64, b: f64, out: &mut [u8]) -> u64;
    fn discriminant(al: f64, be: f64) -> f64;
    /// For five doubles in 40 bytes and a degree up to 4.
    fn value_slope(p: &[u8], d: u64, y: f64, out: &mut [u8]) -> u64;
    fn value_slope_compensated(p: &[u8], d: u64, y: f64, out: &mut [u8]) -> u64;
    fn derivs12(p: &[u8], d: u64, y: f64, out: &mut [u8]) -> u64;
    fn taylor(p: &[u8], d: u64, y: f64, out: &mut [u8]) -> u64;

    /// How many roots there are, and three places.
    fn cubic_closed_form(sine: u32, b: f64, c: f64, d: f64, out: &mut [u8]) -> u64;
    /// r, e and f.
    fn cubic_factor(sine: u32, b: f64, c: f64, d: f64, out: &mut [u8]) -> u64;
    /// al, be, ga and de.
    fn quartic_factor(sine: u32, b: f64, c: f64, d: f64, e: f64, out: &mut [u8]) -> u64;
    /// 1 and the root, or 0 and NaN.
    fn isolated_root(al: f64, be: f64, ga: f64, de: f64, out: &mut [u8]) -> u64;
    /// r, h2, h1 and h0.
    fn peel_root(b: f64, c: f64, d: f64, e: f64, y: f64, out: &mut [u8]) -> u64;

    /// f, g, lg, d, e and unit of `Scaled::new`, 18 doubles, for five doubles in 40 bytes and a
    /// degree up to 4.
    fn scaled_new(a: &[u8], d: u64, out: &mut [u8]) -> u64;
    /// found, as 1 or 0, small and threshold, for five logarithms.
    fn magnitude_split(lg: &[u8], d: u64, out: &mut [u8]) -> u64;
    /// nlin, lin, nquad and the al and be of quad, ten doubles, from a depth on for the polynomial
    /// that `Scaled::new` makes.
    fn factorize(sine: u32, a: &[u8], d: u64, depth: u32, out: &mut [u8]) -> u64;

    /// 1 and the unknowns, or zeros, of a system row by row and its right-hand side, in 96 bytes.
    fn solve_square3(s: &[u8], tol: f64, out: &mut [u8]) -> u64;
    /// The same in 160 bytes.
    fn solve_square4(s: &[u8], tol: f64, out: &mut [u8]) -> u64;
    /// From three doubles in 24 bytes on.
    fn refine_cubic(b: f64, c: f64, d: f64, x: &[u8], out: &mut [u8]) -> u64;
    /// From four doubles in 32 bytes on.
    fn refine_quartic(b: f64, c: f64, d: f64, e: f64, x: &[u8], out: &mut [u8]) -> u64;
    fn refine_peel(b: f64, c: f64, d: f64, e: f64, x: &[u8], out: &mut [u8]) -> u64;
    fn newton_cubic(p0: f64, p1: f64, p2: f64, p3: f64, p4: f64, y: f64) -> f64;
}

// ---- crates/c_clusters
exported! {
    fn noise(a: &[u8], d: u64, y: f64) -> f64;
    fn band(a: &[u8], d: u64, y: f64, tol: f64) -> f64;
    fn within_band(a: &[u8], d: u64, half: f64, y: f64, tol: f64) -> bool;
    fn critical_point(a: &[u8], d: u64, y: f64, lo: f64, hi: f64) -> f64;
    /// The place, NaN where there is none.
    fn extremum(a: &[u8], d: u64, y: f64, lo: f64, hi: f64, tol: f64) -> f64;
    fn polish(a: &[u8], d: u64, y: f64, gap: f64) -> f64;
    /// On n candidates and m pairs, in 68 bytes as `Handed::bytes` has them: the count, four places
    /// with their multiplicities and kinds, the count of pairs, and each centre and half, 18
    /// doubles. Nothing is written where n is above 4 or m above 2.
    fn push_quadratic(a: &[u8], d: u64, al: f64, be: f64, tol: f64, c: &[u8], n: u64, m: u64,
        out: &mut [u8]) -> u64;
    /// Of n candidates, in the first 36 bytes of c: the count, and four places with their
    /// multiplicities and kinds, 13 doubles. Nothing is written where n is above 4.
    fn finish(a: &[u8], d: u64, c: &[u8], n: u64, tol: f64, out: &mut [u8]) -> u64;
}

// ---- crates/pongewaru: each function that solves, in the mode of the exact c, and behind it the same
// by the number of the mode.
exported! {
    /// k of the crank equation, and then what its inquiry shows, as for a list, 18 doubles.
    fn crank_inquire(confusion: f64, a2: f64, b2: f64, c1: f64, d1: f64, e: f64, replies: &[u8],
        out: &mut [u8]) -> u64;
    fn crank_inquire_by(sine: u32, confusion: f64, a2: f64, b2: f64, c1: f64, d1: f64, e: f64,
        replies: &[u8], out: &mut [u8]) -> u64;
    /// The list of a path's contacts with a circle, every question replied as its numbers say; 14
    /// doubles as for `real_roots`.
    fn pin_contact(confusion: f64, x0: f64, x1: f64, x2: f64, y0: f64, y1: f64, y2: f64, cx: f64,
        cy: f64, r: f64, out: &mut [u8]) -> u64;
    fn pin_contact_by(sine: u32, confusion: f64, x0: f64, x1: f64, x2: f64, y0: f64, y1: f64,
        y2: f64, cx: f64, cy: f64, r: f64, out: &mut [u8]) -> u64;
    /// How many coefficients the polynomial of a formula has once zeros at its end are dropped, and
    /// five of them, ascending, 6 doubles; 21 where the text has more than 255 bytes.
    fn formula_coefficients(text: &[u8], out: &mut [u8]) -> u64;
    /// The list of these coefficients; 14 doubles as for `real_roots`, or the same 21.
    fn formula_roots(text: &[u8], tol: f64, out: &mut [u8]) -> u64;
    fn formula_roots_by(sine: u32, text: &[u8], tol: f64, out: &mut [u8]) -> u64;
    /// What the inquiry about the doubles in `coeffs` shows after these replies, one byte each and 0
    /// for no: 0, or 4 where a reply was refused; 1 and the place where it asks, 0 and 0 where not;
    /// and the list as for `real_roots`; 17 doubles.
    fn inquire(coeffs: &[u8], tol: f64, replies: &[u8], out: &mut [u8]) -> u64;
    fn inquire_by(sine: u32, coeffs: &[u8], tol: f64, replies: &[u8], out: &mut [u8]) -> u64;
    /// How many roots the list of the doubles in `coeffs` has, four places with their multiplicities
    /// and kinds, and how many systems were solved for them, 14 doubles; 20 where the bytes are no
    /// whole doubles.
    fn real_roots(coeffs: &[u8], tol: f64, out: &mut [u8]) -> u64;
    fn real_roots_by(sine: u32, coeffs: &[u8], tol: f64, out: &mut [u8]) -> u64;

    /// A number, 0 to 4 for two, one, linear, degenerate and empty, and two places, NaN where there
    /// is none.
    fn quadratic(a: f64, b: f64, c: f64, confusion: f64, angular: f64, out: &mut [u8]) -> u64;
    fn solve_quadratic(a: f64, b: f64, c: f64, confusion: f64, angular: f64, out: &mut [u8])
        -> u64;
    fn quadratic_centre(a: f64, b: f64, angular: f64) -> f64;
    fn shifted(n: u32, x: f64, y: f64, t0: f64, out: &mut [u8]) -> u64;
    fn touching_at(n: u32, x: f64, y: f64, vertex: f64, touches: u32, out: &mut [u8]) -> u64;
    /// k and the quartic.
    fn crank_front(a2: f64, b2: f64, c1: f64, d1: f64, e: f64, out: &mut [u8]) -> u64;

    /// The listing of a hall file from the start of `out` on, as far as `out` reaches, and how many
    /// bytes the listing has.
    fn list_file(file: &[u8], out: &mut [u8]) -> u64;
    fn list_file_by(sine: u32, file: &[u8], out: &mut [u8]) -> u64;
}
