//! Mistakes in cubics, quartics, their refinement and the square systems.
use crate::mutants::PAIR;
use crate::patches::Variant;

const P: &str = "poly.rs";
const S: &str = "solve.rs";

pub const ALL: &[Variant] = &[
    (
        "no root where p = 0",
        "`p > 0.0` in the cubic's closed form",
        &[(P, "if disc > 0.0 || p >= 0.0 {", "if disc > 0.0 || p > 0.0 {", 1)],
    ),
    (
        "a discriminant of 0 has one root",
        "`disc >= 0.0` in the cubic's closed form",
        &[(P, "if disc > 0.0 || p >= 0.0 {", "if disc >= 0.0 || p >= 0.0 {", 1)],
    ),
    (
        "no clamp of cos3",
        "cos3 beyond 1 has no third angle",
        &[(P, " * (-3.0 / p).sqrt()).clamp(-1.0, 1.0);", " * (-3.0 / p).sqrt());", 1)],
    ),
    (
        "s of c before it is rounded",
        "s is the sine of the angle, not √(1 - c²) of the rounded c",
        &[(
            P,
            PAIR,
            "let (cos, sin) = (crate::truth::angle::third_angle(crate::runs::mutants::sine(), cos3).0, (cos3.acos() / 3.0).sin());",
            1,
        )],
    ),
    (
        "Cardano's term without its zero test",
        "a - p / (3a) where a = 0",
        &[(
            P,
            "let t = if a != 0.0 { a - p / (3.0 * a) } else { 0.0 };",
            "let t = a - p / (3.0 * a);",
            1,
        )],
    ),
    (
        "the first of equally isolated roots",
        "`max_by` takes the last, this the first",
        &[(P, "    let best = (0..n)\n", "    let best = (0..n).rev()\n", 1)],
    ),
    (
        "five turns of newton_cubic",
        "5 in place of 4",
        &[(
            P,
            "value_slope(p, 3, y);\n    for _ in 0..4 {",
            "value_slope(p, 3, y);\n    for _ in 0..5 {",
            1,
        )],
    ),
    (
        "newton_cubic accepts an equal residual",
        "`nf.abs() > fy.abs()`",
        &[(
            P,
            "value_slope(p, 3, next);\n        if nf.abs() >= fy.abs()",
            "value_slope(p, 3, next);\n        if nf.abs() > fy.abs()",
            1,
        )],
    ),
    (
        "f from -d / r always",
        "r = 0 is not told apart",
        &[(P, "let f = if r != 0.0 { -d / r } else { c };", "let f = -d / r;", 1)],
    ),
    (
        "refinement ends after seven turns",
        "7 in place of 8",
        &[(P, "for _ in 0..8 {", "for _ in 0..7 {", 1)],
    ),
    (
        "refinement ends after nine turns",
        "9 in place of 8",
        &[(P, "for _ in 0..8 {", "for _ in 0..9 {", 1)],
    ),
    (
        "refinement accepts an equal norm",
        "`next_norm > current`",
        &[(P, "if next_norm >= current ||", "if next_norm > current ||", 1)],
    ),
    (
        "refinement ends at epsilon",
        "the floor is epsilon in place of half of it",
        &[(P, "current > 0.5 * f64::EPSILON", "current > f64::EPSILON", 1)],
    ),
    (
        "residuals not weighted",
        "`r[i]` in place of `r[i] / m[i]`",
        &[(P, "if m[i] > 0.0 { r[i] / m[i] } else { r[i] }", "r[i]", 1)],
    ),
    (
        "weights of size 0 divide too",
        "`m[i] >= 0.0`",
        &[(P, "if m[i] > 0.0 { r[i] / m[i] }", "if m[i] >= 0.0 { r[i] / m[i] }", 1)],
    ),
    (
        "a step that is not finite is tried",
        "the test of the step is left out",
        &[(P, ".filter(|s| s.iter().all(|v| v.is_finite()))", "", 1)],
    ),
    (
        "the norm's sum from the last on",
        "the sizes are added from the other end",
        &[(
            P,
            "w.iter().map(|v| v.abs()).sum::<f64>()",
            "w.iter().rev().map(|v| v.abs()).sum::<f64>()",
            1,
        )],
    ),
    (
        "the product first in an equation",
        "x0 x2 + x1 + x3 - c in place of x1 + x3 + x0 x2 - c",
        &[(P, "x[1] + x[3] + x[0] * x[2] - c", "x[0] * x[2] + x[1] + x[3] - c", 1)],
    ),
    (
        "a wrong index in the derivatives",
        "x0 and x1 exchanged in the third row",
        &[(P, "[x[3], x[2], x[1], x[0]]", "[x[3], x[2], x[0], x[1]]", 1)],
    ),
    (
        "the sum of r in another order",
        "the last two terms of the depressed quartic's r are added first",
        &[(
            P,
            "0.0625 * b2 * c - 0.01171875 * b2 * b2",
            "(0.0625 * b2 * c - 0.01171875 * b2 * b2)",
            1,
        )],
    ),
    (
        "the smallest resolvent root",
        "min in place of max",
        &[(
            P,
            "fold(f64::NEG_INFINITY, crate::truth::methods::max)",
            "fold(f64::INFINITY, crate::truth::methods::min)",
            1,
        )],
    ),
    (
        "1e-7 for nearly biquadratic",
        "m > 1e-7 scale in place of 1e-8",
        &[(P, "if m > 1e-8 * scale", "if m > 1e-7 * scale", 1)],
    ),
    (
        "w where z = 0",
        "r / z where z = 0",
        &[(P, "if z != 0.0 { r / z } else { 0.0 }", "r / z", 1)],
    ),
    (
        "the last of equally isolated quartic roots",
        "`iso >= b`",
        &[(P, "best.is_none_or(|(b, _)| iso > b)", "best.is_none_or(|(b, _)| iso >= b)", 1)],
    ),
    (
        "a spread of exactly a quarter",
        "`16 spread <= iso`",
        &[(P, "if 16.0 * spread < iso", "if 16.0 * spread <= iso", 1)],
    ),
    (
        "a spread of less than a third",
        "9 in place of 16",
        &[(P, "if 16.0 * spread < iso", "if 9.0 * spread < iso", 1)],
    ),
    (
        "a double root counts as complex",
        "`disc > 0.0` in isolated_root",
        &[(P, "if disc >= 0.0 {", "if disc > 0.0 {", 1)],
    ),
    (
        "min and max exchanged in isolated_root",
        "iso is the largest distance",
        &[(
            P,
            "iso = crate::truth::methods::min(iso, ",
            "iso = crate::truth::methods::max(0.0 * iso, ",
            1,
        )],
    ),
    (
        "the cluster's root before the peeled one",
        "the two lines are pushed in the other order",
        &[(
            P,
            "out.push_lin(r);\n                    out.push_lin(r2);",
            "out.push_lin(r2);\n                    out.push_lin(r);",
            1,
        )],
    ),
    (
        "an equal pivot below is taken",
        "`>=` in the search for the pivot",
        &[(
            S,
            "m[row][col].abs() > m[pivot][col].abs()",
            "m[row][col].abs() >= m[pivot][col].abs()",
            1,
        )],
    ),
    (
        "a zero pivot always means no step",
        "also where the entry sum is infinite",
        &[(
            S,
            "if m[col][col].abs() <= tol * scale.max(f64::MIN_POSITIVE) {\n            return None;\n        }\n        for row",
            "if m[col][col] == 0.0 || m[col][col].abs() <= tol * scale.max(f64::MIN_POSITIVE) {\n            return None;\n        }\n        for row",
            1,
        )],
    ),
    (
        "a NaN pivot means no step",
        "`!(pivot > ..)`",
        &[(
            S,
            "if m[col][col].abs() <= tol * scale.max(f64::MIN_POSITIVE) {\n            return None;\n        }\n        for row",
            "if m[col][col].is_nan() || m[col][col].abs() <= tol * scale.max(f64::MIN_POSITIVE) {\n            return None;\n        }\n        for row",
            1,
        )],
    ),
    (
        "the right-hand side stays at exchanges",
        "`b.swap` is left out",
        &[(S, "        b.swap(col, pivot);\n", "", 1)],
    ),
    (
        "back substitution from the last unknown",
        "the terms of a row are taken away in the other order",
        &[(
            S,
            "        for k in row + 1..N {\n            acc",
            "        for k in (row + 1..N).rev() {\n            acc",
            1,
        )],
    ),
];
