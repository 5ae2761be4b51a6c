//! Mistakes in quadratics and crank equations, operator by operator.
use crate::patches::Variant;

const E: &str = "equation.rs";

pub const ALL: &[Variant] = &[
    (
        "the second place is not shifted",
        "`shifted` moves the first of two",
        &[(
            E,
            "Self::Two(t1, t2) => Self::Two(t0 + t1, t0 + t2),",
            "Self::Two(t1, t2) => Self::Two(t0 + t1, t2),",
            1,
        )],
    ),
    (
        "the first place is not shifted",
        "`shifted` moves the second of two",
        &[(
            E,
            "Self::Two(t1, t2) => Self::Two(t0 + t1, t0 + t2),",
            "Self::Two(t1, t2) => Self::Two(t1, t0 + t2),",
            1,
        )],
    ),
    (
        "one place is not shifted",
        "`shifted` leaves one as it is",
        &[(E, "Self::One(t) => Self::One(t0 + t),", "Self::One(t) => Self::One(t),", 1)],
    ),
    (
        "shifted back",
        "t - t0",
        &[(E, "Self::One(t) => Self::One(t0 + t),", "Self::One(t) => Self::One(t - t0),", 1)],
    ),
    (
        "two places do not touch",
        "`touching_at` leaves two as they are",
        &[(E, "Self::Two(..) | Self::Empty if", "Self::Empty if", 1)],
    ),
    (
        "none does not touch",
        "`touching_at` leaves empty as it is",
        &[(E, "Self::Two(..) | Self::Empty if", "Self::Two(..) if", 1)],
    ),
    (
        "a linear place touches",
        "`touching_at` moves it to the vertex",
        &[(
            E,
            "Self::Two(..) | Self::Empty if",
            "Self::Two(..) | Self::Linear(_) | Self::Empty if",
            1,
        )],
    ),
    (
        "degenerate touches",
        "`touching_at` moves it to the vertex",
        &[(
            E,
            "Self::Two(..) | Self::Empty if",
            "Self::Two(..) | Self::Degenerate | Self::Empty if",
            1,
        )],
    ),
    (
        "touching without a reply",
        "the reply is not looked at",
        &[(E, "if vertex.is_finite() && touches(vertex)", "if vertex.is_finite()", 1)],
    ),
    (
        "a touching place is linear",
        "Linear in place of One",
        &[(E, "                Self::One(vertex)", "                Self::Linear(vertex)", 1)],
    ),
    (
        "the centre by half of b",
        "(-b / 2) / a",
        &[(E, "let t0 = -b / (2.0 * a);", "let t0 = -0.5 * b / a;", 1)],
    ),
    (
        "the centre with the other sign",
        "b / (2 a)",
        &[(E, "let t0 = -b / (2.0 * a);", "let t0 = b / (2.0 * a);", 1)],
    ),
    (
        "the centre by a's sign",
        "a without abs",
        &[(E, "if a.abs() > tol.angular &&", "if a > tol.angular &&", 1)],
    ),
    (
        "a centre that is not finite",
        "`t0.is_finite()` is left out",
        &[(E, "if a.abs() > tol.angular && t0.is_finite() {", "if a.abs() > tol.angular {", 1)],
    ),
    (
        "the centre of a line is -0",
        "-0 in place of 0",
        &[(
            E,
            "        t0\n    } else {\n        0.0",
            "        t0\n    } else {\n        -0.0",
            1,
        )],
    ),
    (
        "linear by a's sign",
        "a without abs",
        &[(E, "if a.abs() <= tol.angular {", "if a <= tol.angular {", 1)],
    ),
    (
        "degenerate by b's sign",
        "b without abs",
        &[(E, "if b.abs() <= tol.confusion {", "if b <= tol.confusion {", 1)],
    ),
    (
        "degenerate by angular",
        "b against angular",
        &[(E, "if b.abs() <= tol.confusion {", "if b.abs() <= tol.angular {", 1)],
    ),
    (
        "linear by confusion",
        "a against confusion",
        &[(E, "if a.abs() <= tol.angular {", "if a.abs() <= tol.confusion {", 1)],
    ),
    (
        "never degenerate",
        "a line is always answered",
        &[(E, "if b.abs() <= tol.confusion {", "if false {", 1)],
    ),
    (
        "the line's place with the other sign",
        "c / b",
        &[(E, "QuadraticSolution::Linear(-c / b)", "QuadraticSolution::Linear(c / b)", 1)],
    ),
    (
        "the line's place by the reciprocal",
        "-c times 1 / b",
        &[(E, "QuadraticSolution::Linear(-c / b)", "QuadraticSolution::Linear(-c * (1.0 / b))", 1)],
    ),
    (
        "3 a c in the discriminant",
        "3 in place of 4",
        &[(E, "let disc = b * b - 4.0 * a * c;", "let disc = b * b - 3.0 * a * c;", 1)],
    ),
    (
        "the compensated discriminant",
        "as lists have it",
        &[(
            E,
            "let disc = b * b - 4.0 * a * c;",
            "let disc = super::poly::discriminant(b, a * c);",
            1,
        )],
    ),
    (
        "the middle by half of b",
        "(-b / 2) / a",
        &[(E, "let mid = -b / (2.0 * a);", "let mid = -0.5 * b / a;", 1)],
    ),
    (
        "sep by half the root",
        "(√|disc| / 2) / |a|",
        &[(
            E,
            "let sep = disc.abs().sqrt() / (2.0 * a.abs());",
            "let sep = 0.5 * disc.abs().sqrt() / a.abs();",
            1,
        )],
    ),
    (
        "sep is the whole distance",
        "√|disc| / |a|",
        &[(
            E,
            "let sep = disc.abs().sqrt() / (2.0 * a.abs());",
            "let sep = disc.abs().sqrt() / a.abs();",
            1,
        )],
    ),
    (
        "sep by a's sign",
        "a without abs",
        &[(
            E,
            "let sep = disc.abs().sqrt() / (2.0 * a.abs());",
            "let sep = disc.abs().sqrt() / (2.0 * a);",
            1,
        )],
    ),
    (
        "sep of a complex pair is NaN",
        "√disc without abs",
        &[(
            E,
            "let sep = disc.abs().sqrt() / (2.0 * a.abs());",
            "let sep = disc.sqrt() / (2.0 * a.abs());",
            1,
        )],
    ),
    (
        "no noise",
        "the caller's band alone",
        &[(E, "tol.confusion * (1.0 + mid.abs()) + noise", "tol.confusion * (1.0 + mid.abs())", 1)],
    ),
    (
        "8 epsilon in the noise",
        "8 in place of 4",
        &[(E, "4.0 * f64::EPSILON * (b * b", "8.0 * f64::EPSILON * (b * b", 1)],
    ),
    (
        "the noise by b alone",
        "4 |a c| is left out",
        &[(E, "(b * b + 4.0 * (a * c).abs())", "(b * b)", 1)],
    ),
    (
        "the noise by a c's sign",
        "a c without abs",
        &[(E, "4.0 * (a * c).abs()", "4.0 * (a * c)", 1)],
    ),
    (
        "the noise by a's sign",
        "a without abs",
        &[(E, ".sqrt() / (2.0 * a.abs());\n    if", ".sqrt() / (2.0 * a);\n    if", 1)],
    ),
    (
        "epsilon times the noise's sum first",
        "4 (epsilon (..))",
        &[(
            E,
            "(4.0 * f64::EPSILON * (b * b + 4.0 * (a * c).abs())).sqrt()",
            "(4.0 * (f64::EPSILON * (b * b + 4.0 * (a * c).abs()))).sqrt()",
            1,
        )],
    ),
    (
        "the band without the middle",
        "confusion alone",
        &[(E, "tol.confusion * (1.0 + mid.abs()) + noise", "tol.confusion + noise", 1)],
    ),
    (
        "the band by the middle's sign",
        "1 + mid",
        &[(
            E,
            "tol.confusion * (1.0 + mid.abs()) + noise",
            "tol.confusion * (1.0 + mid) + noise",
            1,
        )],
    ),
    (
        "the band by the middle alone",
        "without 1",
        &[(E, "tol.confusion * (1.0 + mid.abs()) + noise", "tol.confusion * mid.abs() + noise", 1)],
    ),
    (
        "empty before the band",
        "`disc < 0.0` is asked first",
        &[(E, "    if sep <= tol.confusion", "    if !(disc < 0.0) && sep <= tol.confusion", 1)],
    ),
    (
        "two places with cancellation",
        "copysign is left out",
        &[(
            E,
            "let q = -0.5 * (b + disc.sqrt().copysign(b));",
            "let q = -0.5 * (b + disc.sqrt());",
            1,
        )],
    ),
    (
        "q by a quadratic's other sign",
        "0.5 (b + ..)",
        &[(
            E,
            "let q = -0.5 * (b + disc.sqrt().copysign(b));",
            "let q = 0.5 * (b + disc.sqrt().copysign(b));",
            1,
        )],
    ),
    (
        "the second place by the sum",
        "-b / a - q / a",
        &[(E, "let (r1, r2) = (q / a, c / q);", "let (r1, r2) = (q / a, -b / a - q / a);", 1)],
    ),
    (
        "a NaN place is kept",
        "min and max do not pass a NaN over",
        &[(
            E,
            "crate::truth::methods::min(r1, r2), crate::truth::methods::max(r1, r2)",
            "if r1 < r2 { r1 } else { r2 }, if r1 < r2 { r2 } else { r1 }",
            1,
        )],
    ),
    (
        "cos and sin exchanged",
        "sin for cos at 2 t",
        &[(
            E,
            "let ((cos1, sin1), (cos2, sin2)) = (UNIT[k % 8], UNIT[2 * k % 8]);\n        a2",
            "let ((cos1, sin1), (sin2, cos2)) = (UNIT[k % 8], UNIT[2 * k % 8]);\n        a2",
            1,
        )],
    ),
    (
        "samples by halves",
        "(a2 cos2 + b2 sin2) + (c1 cos1 + d1 sin1) + e",
        &[(
            E,
            "a2 * cos2 + b2 * sin2 + c1 * cos1 + d1 * sin1 + e",
            "a2 * cos2 + b2 * sin2 + (c1 * cos1 + d1 * sin1) + e",
            1,
        )],
    ),
    (
        "the sample's sum by the single angle first",
        "c1, d1, a2, b2, e",
        &[(
            E,
            "a2 * cos2 + b2 * sin2 + c1 * cos1 + d1 * sin1 + e",
            "c1 * cos1 + d1 * sin1 + a2 * cos2 + b2 * sin2 + e",
            1,
        )],
    ),
    (
        "the largest sample by its sign",
        "without abs",
        &[(E, "let v = f_at(j + 4).abs();", "let v = f_at(j + 4);", 1)],
    ),
    (
        "the first sample by its sign",
        "without abs",
        &[(E, "(0, f_at(4).abs())", "(0, f_at(4))", 1)],
    ),
    (
        "the smallest sample",
        "`is_le`",
        &[(E, "v.total_cmp(&largest).is_ge()", "v.total_cmp(&largest).is_le()", 1)],
    ),
    (
        "a NaN sample is passed over",
        "`v >= largest`",
        &[(E, "v.total_cmp(&largest).is_ge()", "v >= largest", 1)],
    ),
    (
        "samples from 2 on",
        "the second is not looked at",
        &[(E, "for j in 1..8 {", "for j in 2..8 {", 1)],
    ),
    (
        "√(1/2) by half of √2",
        "the next double below",
        &[(
            E,
            "use std::f64::consts::FRAC_1_SQRT_2 as H;",
            "const H: f64 = f64::from_bits(std::f64::consts::FRAC_1_SQRT_2.to_bits() - 1);",
            1,
        )],
    ),
    ("a turned sign in the table", "-H for the sine of 5π/4", &[(E, "(-H, -H),", "(-H, H),", 1)]),
    ("-0 in the table", "-0 for the sine of π", &[(E, "(-1.0, 0.0),", "(-1.0, -0.0),", 1)]),
    (
        "a turned sign in the first rotation",
        "a2 cos2 - b2 sin2",
        &[(
            E,
            "let (a2, b2) = (a2 * cos2 + b2 * sin2,",
            "let (a2, b2) = (a2 * cos2 - b2 * sin2,",
            1,
        )],
    ),
    (
        "a turned sign in the third rotation",
        "c1 cos1 - d1 sin1",
        &[(
            E,
            "let (c1, d1) = (c1 * cos1 + d1 * sin1,",
            "let (c1, d1) = (c1 * cos1 - d1 * sin1,",
            1,
        )],
    ),
    (
        "a turned sign in the last rotation",
        "d1 cos1 + c1 sin1",
        &[(E, "d1 * cos1 - c1 * sin1", "d1 * cos1 + c1 * sin1", 1)],
    ),
    (
        "the double angle not doubled",
        "k in place of 2 k in the rotation",
        &[(
            E,
            "let ((cos1, sin1), (cos2, sin2)) = (UNIT[k], UNIT[2 * k % 8]);",
            "let ((cos1, sin1), (cos2, sin2)) = (UNIT[k], UNIT[k % 8]);",
            1,
        )],
    ),
    (
        "the leading sum in another order",
        "a2 - (c1 - e)",
        &[(E, "        a2 - c1 + e,", "        a2 - (c1 - e),", 1)],
    ),
    (
        "e first in the leading sum",
        "e + a2 - c1",
        &[(E, "        a2 - c1 + e,", "        e + a2 - c1,", 1)],
    ),
    (
        "3 b2 in the quartic",
        "3 in place of 4",
        &[(E, "        4.0 * b2 + 2.0 * d1,", "        3.0 * b2 + 2.0 * d1,", 1)],
    ),
    (
        "d1 in the quartic",
        "1 in place of 2",
        &[(E, "        4.0 * b2 + 2.0 * d1,", "        4.0 * b2 + d1,", 1)],
    ),
    (
        "5 a2 in the quartic",
        "5 in place of 6",
        &[(E, "        -6.0 * a2 + 2.0 * e,", "        -5.0 * a2 + 2.0 * e,", 1)],
    ),
    (
        "e in the quartic",
        "1 in place of 2",
        &[(E, "        -6.0 * a2 + 2.0 * e,", "        -6.0 * a2 + e,", 1)],
    ),
    (
        "2 (e - 3 a2) in the quartic",
        "the product after the sum",
        &[(E, "        -6.0 * a2 + 2.0 * e,", "        2.0 * (e - 3.0 * a2),", 1)],
    ),
    (
        "2 (2 b2 + d1) in the quartic",
        "the product after the sum",
        &[(E, "        4.0 * b2 + 2.0 * d1,", "        2.0 * (2.0 * b2 + d1),", 1)],
    ),
    (
        "b2 with its sign twice",
        "4 b2 in both odd coefficients",
        &[(E, "        -4.0 * b2 + 2.0 * d1,", "        4.0 * b2 + 2.0 * d1,", 1)],
    ),
    (
        "0 less 6 a2",
        "0 - 6 a2 + 2 e",
        &[(E, "        -6.0 * a2 + 2.0 * e,", "        0.0 - 6.0 * a2 + 2.0 * e,", 1)],
    ),
];
