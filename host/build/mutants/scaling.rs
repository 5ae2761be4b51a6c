//! Mistakes in the scaling, the gaps between root sizes and the second scaling.
use crate::patches::Variant;

const P: &str = "poly.rs";

pub const ALL: &[Variant] = &[
    (
        "lg from the scaled coefficient",
        "lg is L of f_i, which may have become 0, in place of L of a_i plus the shift",
        &[(P, "lg[i] += shift as f64;", "lg[i] = crate::truth::exact::log2(fi.abs());", 1)],
    ),
    (
        "a gap of 8 bits splits",
        "`hi - lo >= SPLIT_BITS`",
        &[(P, "(hi - lo > SPLIT_BITS)", "(hi - lo >= SPLIT_BITS)", 1)],
    ),
    ("a gap of 9 bits", "SPLIT_BITS is 9", &[(P, "(hi - lo > SPLIT_BITS)", "(hi - lo > 9.0)", 1)]),
    (
        "the lowest gap first",
        "the edges of the hull are looked at from the smallest roots up",
        &[(P, "(0..h.saturating_sub(2)).rev().find_map", "(0..h.saturating_sub(2)).find_map", 1)],
    ),
    (
        "points on an edge stay in the hull",
        "`cross > 0.0`",
        &[(P, "if cross >= 0.0 {", "if cross > 0.0 {", 1)],
    ),
    (
        "exact exp2 for the gap's middle",
        "the threshold is 2^middle, not 2^k",
        &[(P, "ldexp(1.0, (0.5 * (lo + hi)).floor() as i32)", "(0.5 * (lo + hi)).exp2()", 1)],
    ),
    (
        "the middle rounded up",
        "k is the middle of the gap rounded up",
        &[(P, "(0.5 * (lo + hi)).floor() as i32", "(0.5 * (lo + hi)).ceil() as i32", 1)],
    ),
    (
        "the gap's lower end",
        "the threshold is the lower end of the gap",
        &[(P, "(0.5 * (lo + hi)).floor() as i32", "lo.floor() as i32", 1)],
    ),
    (
        "a unit at the threshold is small",
        "`m <= threshold * f64::EPSILON`",
        &[(P, "m < threshold * f64::EPSILON", "m <= threshold * f64::EPSILON", 1)],
    ),
    (
        "a NaN unit does not end the loop",
        "`m.is_nan()` is left out",
        &[(P, " || m.is_nan() {\n            break;", " {\n            break;", 1)],
    ),
    (
        "units of equal size in the other order",
        "ties among the units are exchanged",
        &[(
            P,
            "    units[..nu].sort_by(",
            "    units[..nu].reverse();\n    units[..nu].sort_by(",
            1,
        )],
    ),
    (
        "a double real factor is split",
        "`disc >= 0.0` where units are made",
        &[(
            P,
            "        let disc = discriminant(al, be);\n        if disc > 0.0 {\n            let q = -0.5 * (al + disc.sqrt().copysign(al));\n            for r",
            "        let disc = discriminant(al, be);\n        if disc >= 0.0 {\n            let q = -0.5 * (al + disc.sqrt().copysign(al));\n            \
             for r",
            1,
        )],
    ),
    (
        "the factor product started from -0",
        "the sums of the product of the large factors begin with -0",
        &[(P, "let mut next = [0.0; 5];", "let mut next = [-0.0; 5];", 1)],
    ),
    (
        "quadratic factors multiplied first",
        "the large factors are multiplied in the other order",
        &[
            (
                P,
                "    for &r in &large.lin[..large.nlin] {\n        mul(&[-r, 1.0]);\n    }\n",
                "",
                1,
            ),
            (
                P,
                "        mul(&[be, al, 1.0]);\n    }\n",
                "        mul(&[be, al, 1.0]);\n    }\n    for &r in &large.lin[..large.nlin] {\n        mul(&[-r, 1.0]);\n    }\n",
                1,
            ),
        ],
    ),
    (
        "a quotient's last coefficient may be 0",
        "`s[small] != 0.0` is left out",
        &[(P, " && s[0] != 0.0 && s[small] != 0.0)", " && s[0] != 0.0)", 1)],
    ),
    (
        "one second scaling at most",
        "`depth >= 1`",
        &[(P, "if depth >= 3 ||", "if depth >= 1 ||", 1)],
    ),
    ("depth 2 in place of 3", "`depth >= 2`", &[(P, "if depth >= 3 ||", "if depth >= 2 ||", 1)]),
    ("quadratics are scaled a second time", "`sc.d <= 1`", &[(P, "sc.d <= 2 {", "sc.d <= 1 {", 1)]),
    (
        "be moved back in two steps",
        "be times 2^e twice, each rounded",
        &[(P, "ldexp(be, 2 * sub.e)", "ldexp(ldexp(be, sub.e), sub.e)", 1)],
    ),
    (
        "ldexp in steps of 1022",
        "the chain of products has other steps",
        &[(P, "const STEP: i32 = 1000;", "const STEP: i32 = 1022;", 1)],
    ),
    (
        "the exponent of a subnormal from its field",
        "the exponent of a number below 2^-1022 is -1023",
        &[(
            P,
            "crate::truth::exact::exponent(a[d])",
            "crate::truth::exact::exponent(a[d]).max(-1023)",
            1,
        )],
    ),
    (
        "a strict bound in e",
        "e with |a_i| < |a_d| 2^(e(d-i))",
        &[(
            P,
            "crate::truth::exact::scale_exponent(a)",
            "crate::truth::exact::scale_exponent(&[&a.iter().take(d).map(|x| x * (1.0 + f64::EPSILON)).collect::<Vec<_>>()[..], &a[d..]].concat())",
            1,
        )],
    ),
];
