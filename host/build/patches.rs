//! What is changed in the copies of geomcore's files: (file, old text, new text, how often the old
//! text must stand there).
pub type Patch<'a> = (&'a str, &'a str, &'a str, usize);

/// A copy that differs from the reference build: its name, what differs in a sentence, and how.
pub type Variant = (&'static str, &'static str, &'static [Patch<'static>]);

/// geomcore's files, and the names of their copies.
pub const FILES: [(&str, &str); 5] = [
    ("src/math/poly.rs", "poly.rs"),
    ("src/math/equation.rs", "equation.rs"),
    ("src/math/solve.rs", "solve.rs"),
    ("src/tolerance.rs", "tolerance.rs"),
    ("src/intersect/dispatch.rs", "list.rs"),
];

/// `InlineList` is the end of its file; what stands before needs the rest of geomcore.
pub const LIST_STARTS: &str = "/// Up to `N` items stored inline, read as a slice.\n";
pub const LIST_USES: &str = "use std::ops::{Deref, DerefMut};\n";

/// In both copies: what is private is opened, and paths lead to the copies.
pub const OPENED: &[Patch] = &[
    ("poly.rs", "use crate::InlineList;", "use super::InlineList;", 1),
    ("poly.rs", "pub(crate) ", "pub ", 5),
    ("poly.rs", "\nfn ", "\npub fn ", 17),
    ("poly.rs", "\n    fn ", "\n    pub fn ", 15),
    ("poly.rs", "\nstruct ", "\npub struct ", 4),
    ("poly.rs", "\nconst ", "\npub const ", 2),
    (
        "poly.rs",
        "\n    value: [f64; 4],\n    mult: [u32; 4],\n    len: usize,\n",
        "\n    pub value: [f64; 4],\n    pub mult: [u32; 4],\n    pub len: usize,\n",
        1,
    ),
    (
        "poly.rs",
        "\n    centre: [f64; 2],\n    half: [f64; 2],\n    len: usize,\n",
        "\n    pub centre: [f64; 2],\n    pub half: [f64; 2],\n    pub len: usize,\n",
        1,
    ),
    (
        "poly.rs",
        "\n    f: [f64; 5],\n    g: [f64; 5],\n",
        "\n    pub f: [f64; 5],\n    pub g: [f64; 5],\n",
        1,
    ),
    (
        "poly.rs",
        "\n    lg: [f64; 5],\n    d: usize,\n    e: i32,\n",
        "\n    pub lg: [f64; 5],\n    pub d: usize,\n    pub e: i32,\n",
        1,
    ),
    ("poly.rs", "\n    unit: f64,\n", "\n    pub unit: f64,\n", 1),
    (
        "poly.rs",
        "\n    lin: [f64; 4],\n    nlin: usize,\n    quad: [(f64, f64); 2],\n    nquad: usize,\n",
        "\n    pub lin: [f64; 4],\n    pub nlin: usize,\n    pub quad: [(f64, f64); 2],\n    pub nquad: usize,\n",
        1,
    ),
    (
        "equation.rs",
        "use crate::{InlineList, Tolerance};",
        "use super::{InlineList, Tolerance};",
        1,
    ),
    ("equation.rs", "pub(crate) ", "pub ", 8),
    ("solve.rs", "pub(crate) ", "pub ", 9),
    ("list.rs", "pub(crate) ", "pub ", 1),
];

/// In both copies: `solve_trig` ends with its list of r ('Crank equations'), and answers k, the
/// quartic and that list; it asks about u.
pub const CUT: &[Patch] = &[
    (
        "equation.rs",
        ") -> InlineList<(f64, u32), 4> {\n    use std::f64::consts::{FRAC_1_SQRT_2 as H, FRAC_PI_4, PI};\n",
        ") -> (usize, [f64; 5], InlineList<RealRoot, 4>) {\n    use std::f64::consts::FRAC_1_SQRT_2 as H;\n",
        1,
    ),
    ("equation.rs", "    let t0 = k as f64 * FRAC_PI_4;\n", "", 1),
    (
        "equation.rs",
        r"    // `t0` is in `[0, 2*PI)` and `2*atan(u)` in `(-PI, PI)`: one turn
    // back at most brings `t` into `(-PI, PI]`.
    let to_t = |u: f64| {
        let t = t0 + 2.0 * u.atan();
        if t > PI { t - 2.0 * PI } else { t }
    };
    let mut out = InlineList::new();
    for r in &roots_with_tangency(&q, tol, |u| touches(to_t(u))) {
        out.push((to_t(r.value), r.multiplicity));
    }
    out.sort_unstable_by(|a, b| a.0.total_cmp(&b.0));
    out
",
        "    (k, q, roots_with_tangency(&q, tol, touches))\n",
        1,
    ),
];

/// In the reference build: what document 01 puts in where the Rust leaves a result open, but for c
/// and s, which `OF_ROUNDED` puts in.
/// `solve_square` is 002's as it stands, and the host does not compile where there is fma.
pub const PUT_IN: &[Patch] = &[
    // the nearest cube root
    ("poly.rs", "q.cbrt()", "crate::truth::exact::cbrt(q)", 1),
    (
        "poly.rs",
        "-(0.5 * q + disc.max(0.0).sqrt().copysign(q)).cbrt()",
        "-crate::truth::exact::cbrt(0.5 * q + crate::truth::methods::max(disc, 0.0).sqrt().copysign(q))",
        1,
    ),
    // L
    ("poly.rs", "*l = c.abs().log2();", "*l = crate::truth::exact::log2(c.abs());", 1),
    // e, and the exact exponent
    (
        "poly.rs",
        r"        let lead = lg[d];
        // Smallest power of two bounding every |a_i / a_d|^(1/(d-i)): the
        // Fujiwara root-bound scale, so all roots satisfy |y| <= 2.
        let mut ef = f64::NEG_INFINITY;
        for (i, &l) in lg[..d].iter().enumerate() {
            ef = ef.max((l - lead) / (d - i) as f64);
        }
        let e = if ef.is_finite() {
            ef.ceil().clamp(-4000.0, 4000.0) as i32
        } else {
            0
        };
        let top = lead.floor() as i32 + e * d as i32;
",
        r"        let e = crate::truth::exact::scale_exponent(a);
        let top = crate::truth::exact::exponent(a[d]) + e * d as i32;
",
        1,
    ),
    // 2^k, k the gap's middle rounded down
    ("poly.rs", "(0.5 * (lo + hi)).exp2()", "ldexp(1.0, (0.5 * (lo + hi)).floor() as i32)", 1),
    // powi by products
    (
        "poly.rs",
        "(half - base).powi(self.d as i32)",
        "crate::truth::methods::powi(half - base, self.d as u32)",
        1,
    ),
    (
        "poly.rs",
        "(a.0 - b.0).powi(2) + (a.1 - b.1).powi(2)",
        "crate::truth::methods::powi(a.0 - b.0, 2) + crate::truth::methods::powi(a.1 - b.1, 2)",
        1,
    ),
    // min and max: of two zeros with unlike signs, the first
    ("poly.rs", "tol.max(0.0)", "crate::truth::methods::max(tol, 0.0)", 3),
    ("poly.rs", "r.min(", "crate::truth::methods::min(r, ", 2),
    ("poly.rs", "below.min(above)", "crate::truth::methods::min(below, above)", 1),
    ("poly.rs", "f64::min)", "crate::truth::methods::min)", 1),
    ("poly.rs", "f64::max)", "crate::truth::methods::max)", 1),
    (
        "poly.rs",
        "(p * p - 4.0 * r).max(0.0)",
        "crate::truth::methods::max(p * p - 4.0 * r, 0.0)",
        1,
    ),
    ("poly.rs", "iso.min(", "crate::truth::methods::min(iso, ", 1),
    ("poly.rs", "spread.max(", "crate::truth::methods::max(spread, ", 1),
    (
        "equation.rs",
        "r1.min(r2), r1.max(r2)",
        "crate::truth::methods::min(r1, r2), crate::truth::methods::max(r1, r2)",
        1,
    ),
    // sorts that keep ties in their earlier order
    ("poly.rs", "sort_unstable_by(", "sort_by(", 3),
];

/// In the reference build, after that: the ways that it goes are counted.
pub const COUNTED: &[Patch] = &[
    (
        "poly.rs",
        "(hi - lo > SPLIT_BITS).then(",
        "(hi - lo > SPLIT_BITS && crate::compare::ways::way(k)).then(",
        1,
    ),
    (
        "poly.rs",
        "magnitude_split(&sc.lg, sc.d) else {\n",
        "magnitude_split(&sc.lg, sc.d) else {\n        crate::compare::ways::way(3);\n",
        1,
    ),
    (
        "poly.rs",
        "if large.degree() != sc.d - small {\n",
        "if large.degree() != sc.d - small {\n        crate::compare::ways::way(4);\n",
        1,
    ),
    (
        "poly.rs",
        "&& s[0] != 0.0 && s[small] != 0.0) {\n",
        "&& s[0] != 0.0 && s[small] != 0.0) {\n        crate::compare::ways::way(5);\n",
        1,
    ),
    (
        "poly.rs",
        "    let inner = factorize(&sub, depth + 1);\n",
        "    crate::compare::ways::way(6 + depth as usize);\n    let inner = factorize(&sub, depth + 1);\n",
        1,
    ),
    (
        "poly.rs",
        "                Some(r) => {\n",
        "                Some(r) => {\n                    crate::compare::ways::way(9);\n",
        1,
    ),
    (
        "poly.rs",
        "value[k] = self.polish(vals[k], crate::truth::methods::min(below, above));\n",
        "value[k] = self.polish(vals[k], crate::truth::methods::min(below, above));\n                crate::compare::ways::polished(value[k]);\n",
        1,
    ),
    (
        "poly.rs",
        "            let band = self.band(mid, tol);\n",
        "            crate::compare::ways::way(12);\n            let band = self.band(mid, tol);\n",
        1,
    ),
    (
        "poly.rs",
        "            pairs.centre[pairs.len] = mid;\n",
        "            crate::compare::ways::way(13);\n            pairs.centre[pairs.len] = mid;\n",
        1,
    ),
    (
        "poly.rs",
        "                let total = m + mult[k];\n",
        "                crate::compare::ways::way(14);\n                let total = m + mult[k];\n",
        1,
    ),
    (
        "poly.rs",
        "value.is_finite().then_some(RealRoot {",
        "(value.is_finite() || crate::compare::ways::left()).then_some(RealRoot {",
        1,
    ),
    (
        "poly.rs",
        "            items[n] = (y, if touches_at(y) { 2 } else { 0 });\n",
        "            crate::compare::ways::way(16);\n            items[n] = (y, if touches_at(y) { 2 } else { 0 });\n",
        1,
    ),
    (
        "poly.rs",
        "lo < y && y < hi && touches_at(y)",
        "lo < y && y < hi && crate::compare::ways::way(17) && touches_at(y)",
        1,
    ),
    (
        "poly.rs",
        "            mult += items[k].1;\n",
        "            crate::compare::ways::way(18);\n            mult += items[k].1;\n",
        1,
    ),
    (
        "poly.rs",
        "        if zeros > 0 {\n",
        "        if zeros > 0 {\n            crate::compare::ways::zeros(zeros);\n",
        1,
    ),
];

/// In the reference build, its kinds and its mistakes: the square systems are counted, calls that find
/// none of the unknowns too. Lines keep their numbers.
pub const SYSTEMS: &[Patch] = &[(
    "solve.rs",
    ") -> Option<[f64; N]> {\n    let scale",
    ") -> Option<[f64; N]> {\n    crate::truth::systems::solved(); let scale",
    1,
)];

/// c and s of the reference build, and of its copy in the mode of the exact c (document 02).
pub const OF_ROUNDED: &[Patch] = &[pair(
    "let (cos, sin) = crate::truth::angle::third_angle(crate::truth::angle::Sine::OfRounded, cos3);",
)];
pub const OF_EXACT: &[Patch] = &[pair(
    "let (cos, sin) = crate::truth::angle::third_angle(crate::truth::angle::Sine::OfExact, cos3);",
)];

/// In the copy that has all mistakes: the mode at hand.
pub const OF_CHOSEN: &[Patch] = &[pair(
    "let (cos, sin) = crate::truth::angle::third_angle(crate::runs::mutants::sine(), cos3);",
)];

const fn pair(new: &'static str) -> Patch<'static> {
    ("poly.rs", "let (sin, cos) = (cos3.acos() / 3.0).sin_cos();", new, 1)
}

/// In copies that tell kinds: each root says how many yes replies helped to form it. An item has
/// them in its third number, 1 for a pair: where a chain takes it in, the reply was yes. Lines keep
/// their numbers.
pub const YES: &[Patch] = &[
    ("poly.rs", "    pub multiplicity: u32,\n}", "    pub multiplicity: u32, pub yes: u32,\n}", 1),
    ("poly.rs", "            multiplicity,\n", "            multiplicity, yes: 0,\n", 1),
    ("poly.rs", "[(0.0, 0u32); 4]", "[(0.0, 0u32, 0u32); 4]", 1),
    ("poly.rs", "(roots.value[k], roots.mult[k]);", "(roots.value[k], roots.mult[k], 0);", 1),
    ("poly.rs", "{ 2 } else { 0 });", "{ 2 } else { 0 }, 1);", 1),
    (
        "poly.rs",
        "let (first, mut mult) = items[k];",
        "let (first, mut mult, mut yes) = items[k];",
        1,
    ),
    (
        "poly.rs",
        "            k += 1;\n            mult += items[k].1;\n",
        "            k += 1; yes += 1 + items[k].2;\n            mult += items[k].1;\n",
        1,
    ),
    ("poly.rs", "            out.push(r);\n", "            out.push(RealRoot { yes, ..r });\n", 1),
];

/// After that, in the reference build's copy: what each chain is made of is counted.
pub const CHAINS: &[Patch] = &[
    (
        "poly.rs",
        "        if mult == 0 {\n",
        "        let begin = k;\n        if mult == 0 {\n            crate::compare::ways::way(20);\n",
        1,
    ),
    (
        "poly.rs",
        "lo < y && y < hi && touches_at(y)",
        "lo < y && y < hi && (touches_at(y) || crate::compare::ways::link_refused(mult))",
        1,
    ),
    (
        "poly.rs",
        "        let y = match touching {\n",
        "        crate::compare::ways::chain(&items[begin..=k]);\n        let y = match touching {\n",
        1,
    ),
];

/// The host's own reader and lister of hall files.
pub const OWN: [&str; 5] = ["hall_file.rs", "contact.rs", "formula.rs", "kind.rs", "lister.rs"];

/// In their copies: what is private is opened, paths lead to the copies, and printing is a function
/// of its own.
pub const OWN_OPENED: &[Patch] = &[
    ("hall_file.rs", "\nfn ", "\npub fn ", 5),
    ("hall_file.rs", "use crate::truth::contact::", "use super::contact::", 1),
    ("contact.rs", "\nfn ", "\npub fn ", 1),
    ("formula.rs", "\nfn ", "\npub fn ", 3),
    ("formula.rs", "\n    fn ", "\n    pub fn ", 11),
    ("lister.rs", "use crate::truth::formula;", "use super::formula;", 1),
    ("lister.rs", "use crate::truth::hall_file::", "use super::hall_file::", 1),
    ("lister.rs", "use crate::truth::kind::", "use super::kind::", 1),
    (
        "lister.rs",
        "impl fmt::Display for Answer {\n    fn fmt(",
        "impl fmt::Display for Answer {\n    fn fmt(&self, f: &mut fmt::Formatter) -> fmt::Result {\n        self.print(f)\n    }\n}\n\nimpl Answer {\n    \
         pub fn print(",
        1,
    ),
    (
        "lister.rs",
        "impl fmt::Display for Line {\n    fn fmt(",
        "impl fmt::Display for Line {\n    fn fmt(&self, f: &mut fmt::Formatter) -> fmt::Result {\n        self.print(f)\n    }\n}\n\nimpl Line {\n    \
         pub fn print(",
        1,
    ),
    (
        "lister.rs",
        "impl fmt::Display for Total {\n    fn fmt(",
        "impl fmt::Display for Total {\n    fn fmt(&self, f: &mut fmt::Formatter) -> fmt::Result {\n        self.print(f)\n    }\n}\n\nimpl Total {\n    \
         pub fn print(",
        1,
    ),
];
