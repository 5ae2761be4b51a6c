//! Mistakes in the closed form and the factors of quartics, in isolated roots and in peeling,
//! operator by operator.
use crate::patches::Variant;

const P: &str = "poly.rs";

pub const ALL: &[Variant] = &[
    (
        "a quarter of b with the other sign",
        "shift is 0.25 b",
        &[(P, "let shift = -0.25 * b;", "let shift = 0.25 * b;", 1)],
    ),
    ("3 / 8 is 1 / 4", "0.25 b² in the depressed p", &[(P, "c - 0.375 * b2", "c - 0.25 * b2", 1)]),
    (
        "1 / 8 is 1 / 4",
        "0.25 b³ in the depressed q",
        &[(P, "0.125 * b2 * b;", "0.25 * b2 * b;", 1)],
    ),
    (
        "1 / 2 is 1 / 4",
        "0.25 b c in the depressed q",
        &[(P, "d - 0.5 * b * c +", "d - 0.25 * b * c +", 1)],
    ),
    (
        "the last two terms of q first",
        "d - (b c / 2 - b³ / 8)",
        &[(P, "d - 0.5 * b * c + 0.125 * b2 * b;", "d - (0.5 * b * c - 0.125 * b2 * b);", 1)],
    ),
    ("b³ as b b²", "0.125 (b² b)", &[(P, "0.125 * b2 * b;", "0.125 * (b2 * b);", 1)]),
    ("b d first", "0.25 (b d) in r", &[(P, "0.25 * b * d +", "0.25 * (b * d) +", 1)]),
    (
        "b⁴ first",
        "3 / 256 (b² b²) in r",
        &[(P, "0.01171875 * b2 * b2", "0.01171875 * (b2 * b2)", 1)],
    ),
    ("1 / 16 is 1 / 8", "in r", &[(P, "0.0625 * b2 * c", "0.125 * b2 * c", 1)]),
    ("3 / 256 is 1 / 64", "in r", &[(P, "0.01171875 * b2 * b2", "0.015625 * b2 * b2", 1)]),
    (
        "the first two terms of r last",
        "e - (b d / 4 - b² c / 16)",
        &[(P, "e - 0.25 * b * d + 0.0625 * b2 * c -", "e - (0.25 * b * d - 0.0625 * b2 * c) -", 1)],
    ),
    (
        "q² with its sign in the resolvent",
        "q q in place of -q q",
        &[(
            P,
            "[-q * q, p * p - 4.0 * r, 2.0 * p, 1.0, 0.0]",
            "[q * q, p * p - 4.0 * r, 2.0 * p, 1.0, 0.0]",
            1,
        )],
    ),
    (
        "p² + 4 r in the resolvent",
        "the sum in place of the difference",
        &[(
            P,
            "[-q * q, p * p - 4.0 * r, 2.0 * p, 1.0, 0.0]",
            "[-q * q, p * p + 4.0 * r, 2.0 * p, 1.0, 0.0]",
            1,
        )],
    ),
    (
        "p in the resolvent",
        "p in place of 2 p",
        &[(
            P,
            "[-q * q, p * p - 4.0 * r, 2.0 * p, 1.0, 0.0]",
            "[-q * q, p * p - 4.0 * r, p, 1.0, 0.0]",
            1,
        )],
    ),
    (
        "the resolvent's root by all three",
        "the places after the root count too",
        &[(P, "let m_raw = ms[..n].iter()", "let m_raw = ms[..].iter()", 1)],
    ),
    (
        "the largest root from 0 on",
        "a resolvent root below 0 becomes 0",
        &[(
            P,
            "fold(f64::NEG_INFINITY, crate::truth::methods::max)",
            "fold(0.0, crate::truth::methods::max)",
            1,
        )],
    ),
    (
        "no Newton on the resolvent",
        "the closed form's root as it is",
        &[(P, "let m = newton_cubic(&resolvent, m_raw);", "let m = m_raw;", 1)],
    ),
    (
        "scale without its root",
        "|p| + |r|",
        &[(P, "let scale = p.abs() + r.abs().sqrt();", "let scale = p.abs() + r.abs();", 1)],
    ),
    (
        "scale by r's sign",
        "√r in place of √|r|",
        &[(P, "let scale = p.abs() + r.abs().sqrt();", "let scale = p.abs() + r.sqrt();", 1)],
    ),
    (
        "scale by p's sign",
        "p in place of |p|",
        &[(P, "let scale = p.abs() + r.abs().sqrt();", "let scale = p + r.abs().sqrt();", 1)],
    ),
    (
        "m at the edge is clear",
        "`m >= 1e-8 * scale`",
        &[(P, "if m > 1e-8 * scale", "if m >= 1e-8 * scale", 1)],
    ),
    (
        "an infinite m is clear",
        "`m.is_finite()` is left out",
        &[(P, "if m > 1e-8 * scale && m.is_finite() {", "if m > 1e-8 * scale {", 1)],
    ),
    (
        "1e-9 for nearly biquadratic",
        "m > 1e-9 scale in place of 1e-8",
        &[(P, "if m > 1e-8 * scale", "if m > 1e-9 * scale", 1)],
    ),
    (
        "m - q / u first",
        "p + (m - q / u) in v",
        &[(P, "0.5 * (p + m - q / u)", "0.5 * (p + (m - q / u))", 1)],
    ),
    (
        "m + q / u first",
        "p + (m + q / u) in w",
        &[(P, "0.5 * (p + m + q / u)", "0.5 * (p + (m + q / u))", 1)],
    ),
    (
        "v and w exchanged",
        "q / u with the other sign",
        &[(
            P,
            "(u, 0.5 * (p + m - q / u), 0.5 * (p + m + q / u))",
            "(u, 0.5 * (p + m + q / u), 0.5 * (p + m - q / u))",
            1,
        )],
    ),
    ("u below 0", "-√m", &[(P, "let u = m.sqrt();", "let u = -m.sqrt();", 1)]),
    (
        "a biquadratic's discriminant below 0",
        "max with 0 is left out",
        &[(
            P,
            "let disc = crate::truth::methods::max(p * p - 4.0 * r, 0.0);",
            "let disc = p * p - 4.0 * r;",
            1,
        )],
    ),
    (
        "a biquadratic's smaller z",
        "copysign is left out",
        &[(
            P,
            "let z = 0.5 * (p + disc.sqrt().copysign(p));",
            "let z = 0.5 * (p + disc.sqrt());",
            1,
        )],
    ),
    (
        "a biquadratic's factors exchanged",
        "w before v",
        &[(
            P,
            "(0.0, z, if z != 0.0 { r / z } else { 0.0 })",
            "(0.0, if z != 0.0 { r / z } else { 0.0 }, z)",
            1,
        )],
    ),
    (
        "w from the sum",
        "p - z in place of r / z",
        &[(P, "if z != 0.0 { r / z } else { 0.0 }", "if z != 0.0 { p - z } else { 0.0 }", 1)],
    ),
    (
        "u is -0",
        "a biquadratic's u begins with -0",
        &[(P, "(0.0, z, if z != 0.0", "(-0.0, z, if z != 0.0", 1)],
    ),
    (
        "al by one product",
        "u + b / 2 in place of u - 2 shift",
        &[(P, "            u - 2.0 * shift,", "            u + 0.5 * b,", 1)],
    ),
    (
        "v first in be",
        "s² - (u shift - v)",
        &[(P, "s2 - u * shift + v,", "s2 - (u * shift - v),", 1)],
    ),
    (
        "w first in de",
        "s² + (u shift + w)",
        &[(P, "s2 + u * shift + w,", "s2 + (u * shift + w),", 1)],
    ),
    (
        "be and de by the same sign",
        "s² + u shift + v",
        &[(P, "s2 - u * shift + v,", "s2 + u * shift + v,", 1)],
    ),
    (
        "ga from 0",
        "0 - u - 2 shift in place of -u - 2 shift",
        &[(P, "            -u - 2.0 * shift,", "            0.0 - u - 2.0 * shift,", 1)],
    ),
    (
        "the quartic's factors not refined",
        "what Ferrari's method gave",
        &[(
            P,
            "    let s2 = shift * shift;\n    let x = refine(",
            "    let s2 = shift * shift;\n    if true {\n        let two = 2.0 * shift;\n        \
             return [(u - two, s2 - u * shift + v), (-u - two, s2 + u * shift + w)];\n    }\n    let x = refine(",
            1,
        )],
    ),
    (
        "isolated_root with cancellation",
        "copysign is left out",
        &[(
            P,
            "            let q = -0.5 * (al + disc.sqrt().copysign(al));\n            let other",
            "            let q = -0.5 * (al + disc.sqrt());\n            let other",
            1,
        )],
    ),
    (
        "the other root of a double zero",
        "be / q where q = 0",
        &[(P, "let other = if q != 0.0 { be / q } else { 0.0 };", "let other = be / q;", 1)],
    ),
    (
        "the other root by the sum",
        "-al - q in `isolated_root`",
        &[(P, "let other = if q != 0.0 { be / q } else { 0.0 };", "let other = -al - q;", 1)],
    ),
    (
        "the whole imaginary part",
        "√-disc in place of half of it",
        &[(P, "let half = 0.5 * (-disc).sqrt();", "let half = (-disc).sqrt();", 1)],
    ),
    (
        "a pair on one side",
        "both with +half",
        &[(P, "z[2 * k + 1] = (-0.5 * al, -half);", "z[2 * k + 1] = (-0.5 * al, half);", 1)],
    ),
    (
        "distances along the axis",
        "the imaginary parts do not count",
        &[(P, " + crate::truth::methods::powi(a.1 - b.1, 2)", "", 1)],
    ),
    (
        "complex roots may be isolated",
        "`z[i].1 != 0.0` is left out",
        &[(P, "        if z[i].1 != 0.0 {\n            continue;\n        }\n", "", 1)],
    ),
    (
        "the nearest of the first three",
        "j goes up to 3",
        &[(P, "for j in (0..4).filter(|&j| j != i) {", "for j in (0..3).filter(|&j| j != i) {", 1)],
    ),
    (
        "the smallest spread",
        "min in place of max",
        &[(
            P,
            "spread = crate::truth::methods::max(spread, ",
            "spread = crate::truth::methods::min(if spread == 0.0 { f64::INFINITY } else { spread }, ",
            1,
        )],
    ),
    (
        "the spread with the root itself",
        "`k != i` is left out",
        &[(P, "for k in (j + 1..4).filter(|&k| k != i) {", "for k in j + 1..4 {", 1)],
    ),
    (
        "a spread of less than a fifth",
        "25 in place of 16",
        &[(P, "if 16.0 * spread < iso", "if 25.0 * spread < iso", 1)],
    ),
    (
        "any isolated root",
        "`iso > b` is left out",
        &[(P, " && best.is_none_or(|(b, _)| iso > b)", "", 1)],
    ),
    (
        "the first isolated root",
        "a later one is not looked at",
        &[(P, " && best.is_none_or(|(b, _)| iso > b)", " && best.is_none()", 1)],
    ),
    (
        "h1 without h2",
        "c + r b in place of c + r h2",
        &[(P, "let h1 = c + r * h2;", "let h1 = c + r * b;", 1)],
    ),
    (
        "h0 from e",
        "-e / r in place of d + r h1",
        &[(P, "let h0 = d + r * h1;", "let h0 = -e / r;", 1)],
    ),
    (
        "the peeled factors not refined",
        "what the division gave",
        &[(
            P,
            "    let x = refine(\n        [r, h2, h1, h0],",
            "    if true {\n        return (r, h2, h1, h0);\n    }\n    let x = refine(\n        [r, h2, h1, h0],",
            1,
        )],
    ),
];
