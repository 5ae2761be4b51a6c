//! The reference build with one leaf put back as the Rust has it.
use crate::patches::Variant;

pub const CAUSES: &[Variant] = &[
    (
        "cube root",
        "the C library's `cbrt`",
        &[
            ("poly.rs", "crate::truth::exact::cbrt(q)", "q.cbrt()", 1),
            ("poly.rs", "-crate::truth::exact::cbrt(0.5 * q", "-f64::cbrt(0.5 * q", 1),
        ],
    ),
    (
        "third angle",
        "`acos`, a third of it, `sin_cos`",
        &[(
            "poly.rs",
            "let (cos, sin) = crate::truth::angle::third_angle(crate::truth::angle::Sine::OfRounded, cos3);",
            "let (sin, cos) = (cos3.acos() / 3.0).sin_cos();",
            1,
        )],
    ),
    (
        "L",
        "`log2` in the gaps between root sizes",
        &[("poly.rs", "*l = crate::truth::exact::log2(c.abs());", "*l = c.abs().log2();", 1)],
    ),
    (
        "e",
        "the largest ratio of logarithms, rounded up",
        &[(
            "poly.rs",
            "let e = crate::truth::exact::scale_exponent(a);",
            r"let log: Vec<f64> = a.iter().map(|c| c.abs().log2()).collect();
        let mut ef = f64::NEG_INFINITY;
        for (i, &l) in log[..d].iter().enumerate() {
            ef = ef.max((l - log[d]) / (d - i) as f64);
        }
        let e = if ef.is_finite() { ef.ceil().clamp(-4000.0, 4000.0) as i32 } else { 0 };",
            1,
        )],
    ),
    (
        "leading exponent",
        "the logarithm, rounded down",
        &[(
            "poly.rs",
            "crate::truth::exact::exponent(a[d])",
            "(a[d].abs().log2().floor() as i32)",
            1,
        )],
    ),
    (
        "2^k of the gap's middle",
        "`exp2` of the middle itself",
        &[(
            "poly.rs",
            "ldexp(1.0, (0.5 * (lo + hi)).floor() as i32)",
            "(0.5 * (lo + hi)).exp2()",
            1,
        )],
    ),
    (
        "powi",
        "the compiler's `powi`",
        &[
            (
                "poly.rs",
                "crate::truth::methods::powi(half - base, self.d as u32)",
                "(half - base).powi(self.d as i32)",
                1,
            ),
            ("poly.rs", "crate::truth::methods::powi(a.0 - b.0, 2)", "(a.0 - b.0).powi(2)", 1),
            ("poly.rs", "crate::truth::methods::powi(a.1 - b.1, 2)", "(a.1 - b.1).powi(2)", 1),
        ],
    ),
    (
        "min and max",
        "the compiler's `min` and `max`, for zeros of unlike sign",
        &[
            ("poly.rs", "crate::truth::methods::max", "f64::max", 7),
            ("poly.rs", "crate::truth::methods::min", "f64::min", 5),
            ("equation.rs", "crate::truth::methods::min", "f64::min", 1),
            ("equation.rs", "crate::truth::methods::max", "f64::max", 1),
        ],
    ),
    (
        "sorts",
        "`sort_unstable_by`, which may exchange ties",
        &[("poly.rs", "sort_by(", "sort_unstable_by(", 3)],
    ),
];
