//! Mistakes in the closed form and the factors of cubics, operator by operator.
use crate::patches::Variant;

const P: &str = "poly.rs";

pub const ALL: &[Variant] = &[
    (
        "b times a third",
        "shift is b times -1/3",
        &[(P, "let shift = -b / 3.0;", "let shift = b * (-1.0 / 3.0);", 1)],
    ),
    (
        "no shift",
        "the cubic's roots are not moved back",
        &[(P, "let shift = -b / 3.0;", "let shift = 0.0 * b;", 1)],
    ),
    (
        "b times b / 3",
        "b (b / 3) in p",
        &[(P, "let p = c - b * b / 3.0;", "let p = c - b * (b / 3.0);", 1)],
    ),
    (
        "p with the other sign",
        "c + b² / 3",
        &[(P, "let p = c - b * b / 3.0;", "let p = c + b * b / 3.0;", 1)],
    ),
    (
        "q divided before",
        "b ((2 b² - 9 c) / 27) in q",
        &[(
            P,
            "let q = d + b * (2.0 * b * b - 9.0 * c) / 27.0;",
            "let q = d + b * ((2.0 * b * b - 9.0 * c) / 27.0);",
            1,
        )],
    ),
    (
        "q in three terms",
        "d + 2 b³ / 27 - b c / 3",
        &[(
            P,
            "let q = d + b * (2.0 * b * b - 9.0 * c) / 27.0;",
            "let q = d + 2.0 * b * b * b / 27.0 - b * c / 3.0;",
            1,
        )],
    ),
    (
        "b² first in q",
        "2 (b b) in place of (2 b) b",
        &[(
            P,
            "let q = d + b * (2.0 * b * b - 9.0 * c) / 27.0;",
            "let q = d + b * (2.0 * (b * b) - 9.0 * c) / 27.0;",
            1,
        )],
    ),
    (
        "8 c in q",
        "8 in place of 9",
        &[(P, "(2.0 * b * b - 9.0 * c) / 27.0", "(2.0 * b * b - 8.0 * c) / 27.0", 1)],
    ),
    (
        "28 in q",
        "28 in place of 27",
        &[(P, "(2.0 * b * b - 9.0 * c) / 27.0", "(2.0 * b * b - 9.0 * c) / 28.0", 1)],
    ),
    (
        "3 b² in q",
        "3 in place of 2",
        &[(P, "(2.0 * b * b - 9.0 * c) / 27.0", "(3.0 * b * b - 9.0 * c) / 27.0", 1)],
    ),
    (
        "a quarter of q²",
        "0.25 q q in the cubic's discriminant",
        &[(P, "(0.5 * q) * (0.5 * q) +", "0.25 * q * q +", 1)],
    ),
    (
        "p³ / 27",
        "p p p / 27 in the cubic's discriminant",
        &[(P, "(p / 3.0) * (p / 3.0) * (p / 3.0)", "p * p * p / 27.0", 1)],
    ),
    (
        "the discriminant's terms taken from each other",
        "q² / 4 - p³ / 27",
        &[(P, "(0.5 * q) * (0.5 * q) + (p / 3.0)", "(0.5 * q) * (0.5 * q) - (p / 3.0)", 1)],
    ),
    (
        "one root by p alone",
        "`disc > 0.0` is left out",
        &[(P, "if disc > 0.0 || p >= 0.0 {", "if p >= 0.0 {", 1)],
    ),
    (
        "one root by the discriminant alone",
        "`p >= 0.0` is left out",
        &[(P, "if disc > 0.0 || p >= 0.0 {", "if disc > 0.0 {", 1)],
    ),
    (
        "one root where both hold",
        "&& in place of ||",
        &[(P, "if disc > 0.0 || p >= 0.0 {", "if disc > 0.0 && p >= 0.0 {", 1)],
    ),
    (
        "a discriminant below 0",
        "max(disc, 0) is left out",
        &[(
            P,
            "crate::truth::methods::max(disc, 0.0).sqrt().copysign(q)",
            "disc.sqrt().copysign(q)",
            1,
        )],
    ),
    (
        "Cardano's smaller term",
        "copysign is left out",
        &[(
            P,
            "crate::truth::methods::max(disc, 0.0).sqrt().copysign(q)",
            "crate::truth::methods::max(disc, 0.0).sqrt()",
            1,
        )],
    ),
    (
        "the other term by p / 3",
        "a - (p / 3) / a",
        &[(P, "a - p / (3.0 * a)", "a - p / 3.0 / a", 1)],
    ),
    ("the other term added", "a + p / (3 a)", &[(P, "a - p / (3.0 * a)", "a + p / (3.0 * a)", 1)]),
    (
        "Cardano's places not cleared",
        "the places after the root repeat it",
        &[(P, "([t + shift, 0.0, 0.0], 1)", "([t + shift, t + shift, t + shift], 1)", 1)],
    ),
    (
        "m by one root",
        "2 √(-p / 3) as √(-4 p / 3)",
        &[(P, "let m = 2.0 * (-p / 3.0).sqrt();", "let m = (-4.0 * p / 3.0).sqrt();", 1)],
    ),
    (
        "cos3 by q / p",
        "1.5 (q / p)",
        &[(P, "(1.5 * q / p * (-3.0 / p).sqrt())", "(1.5 * (q / p) * (-3.0 / p).sqrt())", 1)],
    ),
    (
        "cos3 by the root first",
        "1.5 q √(-3 / p) / p",
        &[(P, "(1.5 * q / p * (-3.0 / p).sqrt())", "(1.5 * q * (-3.0 / p).sqrt() / p)", 1)],
    ),
    (
        "cos3 by q and m",
        "3 q / (p m)",
        &[(P, "(1.5 * q / p * (-3.0 / p).sqrt())", "(3.0 * q / (p * m))", 1)],
    ),
    (
        "cos3 with the other sign",
        "-1.5",
        &[(P, "(1.5 * q / p * (-3.0 / p).sqrt())", "(-1.5 * q / p * (-3.0 / p).sqrt())", 1)],
    ),
    (
        "cos3 not below 1",
        "the clamp's upper end is left out",
        &[(P, ".clamp(-1.0, 1.0);", ".max(-1.0);", 1)],
    ),
    (
        "cos3 not above -1",
        "the clamp's lower end is left out",
        &[(P, ".clamp(-1.0, 1.0);", ".min(1.0);", 1)],
    ),
    (
        "the third root before the second",
        "a - b before a + b",
        &[(
            P,
            "m * (a + b) + shift, m * (a - b) + shift",
            "m * (a - b) + shift, m * (a + b) + shift",
            1,
        )],
    ),
    (
        "roots in two products",
        "m a + m b in place of m (a + b)",
        &[(
            P,
            "m * (a + b) + shift, m * (a - b) + shift",
            "m * a + m * b + shift, m * a - m * b + shift",
            1,
        )],
    ),
    (
        "isolation without abs",
        "the roots' differences with their signs",
        &[(P, ".map(|j| (roots[i] - roots[j]).abs())", ".map(|j| roots[i] - roots[j])", 1)],
    ),
    (
        "the largest distance isolates",
        "max in place of min",
        &[(
            P,
            ".fold(f64::INFINITY, crate::truth::methods::min)",
            ".fold(0.0, crate::truth::methods::max)",
            1,
        )],
    ),
    (
        "the least isolated root",
        "`min_by` in place of `max_by`",
        &[(
            P,
            ".max_by(|&i, &j| isolation(i).total_cmp(&isolation(j)))",
            ".min_by(|&i, &j| isolation(i).total_cmp(&isolation(j)))",
            1,
        )],
    ),
    ("the first root", "the closed form's first root", &[(P, "roots[best]);", "roots[0]);", 1)]),
    (
        "no Newton before the factors",
        "the root of the closed form as it is",
        &[(
            P,
            "let r = newton_cubic(&[d, c, b, 1.0, 0.0], roots[best]);",
            "let r = roots[best];",
            1,
        )],
    ),
    (
        "f is 0 where r = 0",
        "0 in place of c",
        &[(P, "if r != 0.0 { -d / r } else { c };", "if r != 0.0 { -d / r } else { 0.0 };", 1)],
    ),
    (
        "f from c always",
        "c + r (b + r) in place of -d / r",
        &[(P, "let f = if r != 0.0 { -d / r } else { c };", "let f = c + r * (b + r);", 1)],
    ),
    (
        "the cubic's factors not refined",
        "what Newton's method on the root gave",
        &[(
            P,
            "    let x = refine(\n        [r, b + r, f],",
            "    if true {\n        return (r, b + r, f);\n    }\n    let x = refine(\n        [r, b + r, f],",
            1,
        )],
    ),
];
