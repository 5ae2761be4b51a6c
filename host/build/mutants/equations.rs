//! Mistakes in quadratics and crank equations.
use crate::patches::Variant;

const E: &str = "equation.rs";

pub const ALL: &[Variant] = &[
    (
        "|a| = angular is no line",
        "`a.abs() < angular`",
        &[(E, "if a.abs() <= tol.angular {", "if a.abs() < tol.angular {", 1)],
    ),
    (
        "|b| = confusion is not degenerate",
        "`b.abs() < confusion`",
        &[(E, "if b.abs() <= tol.confusion {", "if b.abs() < tol.confusion {", 1)],
    ),
    (
        "degenerate only where c = 0",
        "the comment's 0 = 0",
        &[(E, "if b.abs() <= tol.confusion {", "if b.abs() <= tol.confusion && c == 0.0 {", 1)],
    ),
    (
        "the line's place from 0",
        "0 - c / b in place of -c / b",
        &[(E, "QuadraticSolution::Linear(-c / b)", "QuadraticSolution::Linear(0.0 - c / b)", 1)],
    ),
    (
        "4(ac) in the discriminant",
        "4 (a c) in place of (4 a) c",
        &[(E, "let disc = b * b - 4.0 * a * c;", "let disc = b * b - 4.0 * (a * c);", 1)],
    ),
    (
        "(4a)c in the noise",
        "(4 a) c in place of 4 (a c)",
        &[(E, "4.0 * (a * c).abs()", "(4.0 * a * c).abs()", 1)],
    ),
    (
        "strictly within the band",
        "`sep < ..`",
        &[(E, "if sep <= tol.confusion", "if sep < tol.confusion", 1)],
    ),
    (
        "a discriminant of 0 is empty",
        "`disc <= 0.0`",
        &[(E, "} else if disc < 0.0 {", "} else if disc <= 0.0 {", 1)],
    ),
    (
        "two places not ordered",
        "min and max exchanged",
        &[(
            E,
            "crate::truth::methods::min(r1, r2), crate::truth::methods::max(r1, r2)",
            "crate::truth::methods::max(r1, r2), crate::truth::methods::min(r1, r2)",
            1,
        )],
    ),
    (
        "a negative tolerance counts as 0",
        "max(confusion, 0), as lists have it",
        &[(
            E,
            "if sep <= tol.confusion *",
            "if sep <= crate::truth::methods::max(tol.confusion, 0.0) *",
            1,
        )],
    ),
    (
        "the centre where |a| = angular",
        "`a.abs() >= angular`",
        &[(E, "if a.abs() > tol.angular &&", "if a.abs() >= tol.angular &&", 1)],
    ),
    (
        "a linear place is not shifted",
        "`shifted` moves two and one only",
        &[(
            E,
            "Self::Linear(t) => Self::Linear(t0 + t),",
            "Self::Linear(t) => Self::Linear(t),",
            1,
        )],
    ),
    (
        "a vertex that is not finite touches",
        "`vertex.is_finite()` is left out",
        &[(E, "if vertex.is_finite() && touches(vertex)", "if touches(vertex)", 1)],
    ),
    (
        "one place touches too",
        "`touching_at` moves one place to the vertex",
        &[(
            E,
            "Self::Two(..) | Self::Empty if",
            "Self::Two(..) | Self::One(_) | Self::Empty if",
            1,
        )],
    ),
    (
        "the first of equal samples",
        "`is_gt`",
        &[(E, "v.total_cmp(&largest).is_ge()", "v.total_cmp(&largest).is_gt()", 1)],
    ),
    (
        "seven samples",
        "the last of the eight is not looked at",
        &[(E, "for j in 1..8 {", "for j in 1..7 {", 1)],
    ),
    (
        "samples not opposite",
        "the value at t0 in place of the one at t0 + π",
        &[
            (E, "(0, f_at(4).abs())", "(0, f_at(0).abs())", 1),
            (E, "let v = f_at(j + 4).abs();", "let v = f_at(j).abs();", 1),
        ],
    ),
    (
        "the sample's sum from e on",
        "e first",
        &[(
            E,
            "a2 * cos2 + b2 * sin2 + c1 * cos1 + d1 * sin1 + e",
            "e + a2 * cos2 + b2 * sin2 + c1 * cos1 + d1 * sin1",
            1,
        )],
    ),
    (
        "the constant's sum in another order",
        "a2 + (c1 + e)",
        &[(E, "        a2 + c1 + e,", "        a2 + (c1 + e),", 1)],
    ),
    (
        "a turned sign in the rotation",
        "b2 cos2 + a2 sin2",
        &[(E, "b2 * cos2 - a2 * sin2", "b2 * cos2 + a2 * sin2", 1)],
    ),
];
