//! Mistakes in the modes of the third-angle pair.
use crate::mutants::PAIR;
use crate::patches::Variant;

const P: &str = "poly.rs";

pub const ALL: &[Variant] = &[
    (
        "s of the rounded c in both modes",
        "the new mode takes the c that was rounded",
        &[(
            P,
            PAIR,
            "let (cos, sin) = crate::truth::angle::third_angle(crate::truth::angle::Sine::OfRounded, cos3);",
            1,
        )],
    ),
    (
        "s of the exact c in both modes",
        "the old mode takes the c before it is rounded",
        &[(
            P,
            PAIR,
            "let (cos, sin) = crate::truth::angle::third_angle(crate::truth::angle::Sine::OfExact, cos3);",
            1,
        )],
    ),
    (
        "s of the rounded c in the peeled cubic",
        "the mode is not handed on to the cubic that is left of a quartic",
        &[(
            P,
            "let (r2, e, f) = cubic_factor(h2, h1, h0);",
            "let (r2, e, f) = crate::runs::mutants::of_rounded(|| cubic_factor(h2, h1, h0));",
            1,
        )],
    ),
    (
        "the sign of 1 - 4m² ignored",
        "v and √(1 - m²)(1 - 4m²) are compared by their squares alone",
        &[(
            P,
            PAIR,
            "let cos = crate::truth::angle::third_angle(crate::runs::mutants::sine(), cos3).0; let sin = \
             crate::truth::angle::third_angle(crate::runs::mutants::sine(), cos3.abs()).1;",
            1,
        )],
    ),
];
