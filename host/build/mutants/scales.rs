//! More mistakes in the scaling, the gaps between root sizes and the second scaling, operator by
//! operator.
use crate::patches::Variant;

const P: &str = "poly.rs";

pub const ALL: &[Variant] = &[
    ("a gap of 7 bits", "SPLIT_BITS is 7", &[(P, "(hi - lo > SPLIT_BITS)", "(hi - lo > 7.0)", 1)]),
    (
        "the gap's upper end",
        "the threshold is the upper end of the gap",
        &[(P, "(0.5 * (lo + hi)).floor() as i32", "hi.floor() as i32", 1)],
    ),
    (
        "the gap's width as its middle",
        "0.5 (hi - lo)",
        &[(P, "(0.5 * (lo + hi)).floor() as i32", "(0.5 * (hi - lo)).floor() as i32", 1)],
    ),
    (
        "the roots below the edge",
        "small is the lower end of the edge below the gap",
        &[(P, ".then(|| (hull[k + 1].0,", ".then(|| (hull[k].0,", 1)],
    ),
    (
        "the hull without the leading point",
        "i goes up to d - 1",
        &[(P, "lg.iter().enumerate().take(d + 1) {", "lg.iter().enumerate().take(d) {", 1)],
    ),
    (
        "zeros in the hull",
        "points at minus infinity stay",
        &[(P, "        if !l.is_finite() {\n            continue;\n        }\n", "", 1)],
    ),
    (
        "an edge's slope not divided",
        "mag is the height alone",
        &[(P, " / (hull[k + 1].0 - hull[k].0) as f64;", ";", 1)],
    ),
    ("the lower hull", "`cross <= 0.0`", &[(P, "if cross >= 0.0 {", "if cross <= 0.0 {", 1)]),
    (
        "cross from the other point",
        "the distances are taken from b",
        &[(
            P,
            "(b.0 - a.0) as f64 * (p.1 - a.1) - (b.1 - a.1) * (p.0 - a.0) as f64",
            "(b.0 - a.0) as f64 * (p.1 - b.1) - (b.1 - a.1) * (p.0 - b.0) as f64",
            1,
        )],
    ),
    (
        "one point less is left",
        "`h > 2` in the loop over the hull",
        &[(P, "while h >= 2 {", "while h > 2 {", 1)],
    ),
    (
        "the topmost gap is not looked at",
        "edges up to the last but one",
        &[(P, "(0..h.saturating_sub(2)).rev()", "(0..h.saturating_sub(3)).rev()", 1)],
    ),
    (
        "e one larger",
        "e + 1",
        &[(
            P,
            "let e = crate::truth::exact::scale_exponent(a);",
            "let e = crate::truth::exact::scale_exponent(a) + 1;",
            1,
        )],
    ),
    (
        "e without the constant",
        "a_0 does not bound e",
        &[(
            P,
            "let e = crate::truth::exact::scale_exponent(a);",
            "let e = if d > 1 { crate::truth::exact::scale_exponent(&[&[0.0], &a[1..]].concat()) } else { crate::truth::exact::scale_exponent(a) };",
            1,
        )],
    ),
    (
        "e is at least 0",
        "a negative e becomes 0",
        &[(
            P,
            "let e = crate::truth::exact::scale_exponent(a);",
            "let e = crate::truth::exact::scale_exponent(a).max(0);",
            1,
        )],
    ),
    (
        "e from logarithms",
        "the Rust's own e, by `log2` rounded up",
        &[(
            P,
            "let e = crate::truth::exact::scale_exponent(a);",
            "let e = (0..d).map(|i| ((lg[i] - lg[d]) / (d - i) as f64).ceil()).fold(f64::NEG_INFINITY, f64::max) as i32;\n        \
             let e = if d == 0 { 0 } else { e };",
            1,
        )],
    ),
    (
        "the exponent rounded up",
        "the exponent of a_d is that of the next power of two",
        &[(
            P,
            "crate::truth::exact::exponent(a[d]) + e * d as i32",
            "crate::truth::exact::exponent(a[d]) + 1 + e * d as i32",
            1,
        )],
    ),
    (
        "top without e d",
        "top is the exponent alone",
        &[(
            P,
            "crate::truth::exact::exponent(a[d]) + e * d as i32",
            "crate::truth::exact::exponent(a[d])",
            1,
        )],
    ),
    (
        "lg without the shift",
        "lg is L of a_i",
        &[(P, "            lg[i] += shift as f64;\n", "", 1)],
    ),
    (
        "L to the nearest",
        "L is rounded to the nearest multiple of 1/256",
        &[(
            P,
            "*l = crate::truth::exact::log2(c.abs());",
            "*l = (256.0 * c.abs().log2()).round() / 256.0;",
            1,
        )],
    ),
    (
        "L of 128 steps",
        "L is a multiple of 1/128",
        &[(
            P,
            "*l = crate::truth::exact::log2(c.abs());",
            "*l = (128.0 * crate::truth::exact::log2(c.abs())).floor() / 128.0;",
            1,
        )],
    ),
    (
        "L exact",
        "L is the logarithm itself",
        &[(P, "*l = crate::truth::exact::log2(c.abs());", "*l = c.abs().log2();", 1)],
    ),
    (
        "monic by the reciprocal",
        "g_i is f_i times 1 / f_d",
        &[(P, "g[i] = f[i] / f[d];", "g[i] = f[i] * (1.0 / f[d]);", 1)],
    ),
    (
        "g from the coefficients",
        "g_i is a_i / a_d, scaled after",
        &[(P, "g[i] = f[i] / f[d];", "g[i] = ldexp(a[i] / a[d], e * (i as i32 - d as i32));", 1)],
    ),
    ("the leading f for 1", "g_d is f_d", &[(P, "g[d] = 1.0;", "g[d] = f[d];", 1)]),
    (
        "the unit is 2^e",
        "e in place of -e",
        &[(P, "unit: ldexp(1.0, -e),", "unit: ldexp(1.0, e),", 1)],
    ),
    (
        "the unit is 1",
        "one unit of x is one of y",
        &[(P, "unit: ldexp(1.0, -e),", "unit: 1.0,", 1)],
    ),
    (
        "a place times 2^-e",
        "`unscaled` with -e",
        &[(P, "let value = ldexp(y, self.e);", "let value = ldexp(y, -self.e);", 1)],
    ),
    (
        "a place by one product",
        "y times 2^e at once, e within the exponents",
        &[(
            P,
            "let value = ldexp(y, self.e);",
            "let value = y * pow2(self.e.clamp(-1022, 1023));",
            1,
        )],
    ),
    (
        "a small unit never ends the loop",
        "`m < 0.0`",
        &[(P, "m < threshold * f64::EPSILON", "m < 0.0", 1)],
    ),
    (
        "units below the threshold itself",
        "without epsilon",
        &[(P, "m < threshold * f64::EPSILON", "m < threshold", 1)],
    ),
    (
        "units below epsilon squared",
        "epsilon twice",
        &[(P, "m < threshold * f64::EPSILON", "m < threshold * f64::EPSILON * f64::EPSILON", 1)],
    ),
    (
        "a NaN unit is passed over",
        "`continue` in place of `break`",
        &[(
            P,
            "        if large.degree() >= sc.d - small || m < threshold * f64::EPSILON || m.is_nan() {\n            break;",
            "        if m.is_nan() {\n            continue;\n        }\n        \
             if large.degree() >= sc.d - small || m < threshold * f64::EPSILON {\n            break;",
            1,
        )],
    ),
    (
        "a NaN unit goes last",
        "in the order of sizes a NaN is the smallest",
        &[(
            P,
            "    units[..nu].sort_by(|a, b| b.0.total_cmp(&a.0));",
            "    let key = |x: f64| if x.is_nan() { -1.0 } else { x };\n    units[..nu].sort_by(|a, b| key(b.0).total_cmp(&key(a.0)));",
            1,
        )],
    ),
    (
        "the smallest units first",
        "by rising size",
        &[(
            P,
            "    units[..nu].sort_by(|a, b| b.0.total_cmp(&a.0));",
            "    units[..nu].sort_by(|a, b| a.0.total_cmp(&b.0));",
            1,
        )],
    ),
    (
        "one unit too many",
        "`large.degree() > d - small`",
        &[(P, "large.degree() >= sc.d - small ||", "large.degree() > sc.d - small ||", 1)],
    ),
    (
        "all units down to the threshold",
        "the degree does not end the loop",
        &[(P, "large.degree() >= sc.d - small || m", "m", 1)],
    ),
    (
        "a large group of another degree",
        "`<` in place of `!=`",
        &[(P, "if large.degree() != sc.d - small {", "if large.degree() < sc.d - small {", 1)],
    ),
    (
        "a quadratic has degree 1",
        "nlin + nquad",
        &[(P, "self.nlin + 2 * self.nquad", "self.nlin + self.nquad", 1)],
    ),
    (
        "the size of a pair is |be|",
        "without the square root",
        &[(P, "units[nu] = (be.abs().sqrt(), al, be);", "units[nu] = (be.abs(), al, be);", 1)],
    ),
    (
        "the size of a pair from be itself",
        "without abs",
        &[(P, "units[nu] = (be.abs().sqrt(), al, be);", "units[nu] = (be.sqrt(), al, be);", 1)],
    ),
    (
        "the size of a pair from al",
        "half of al",
        &[(
            P,
            "units[nu] = (be.abs().sqrt(), al, be);",
            "units[nu] = (0.5 * al.abs(), al, be);",
            1,
        )],
    ),
    (
        "units of a real factor by the sum",
        "the other root is -al - q",
        &[(P, "for r in [q, be / q] {", "for r in [q, -al - q] {", 1)],
    ),
    (
        "the smaller root's unit first",
        "be / q before q",
        &[(P, "for r in [q, be / q] {", "for r in [be / q, q] {", 1)],
    ),
    (
        "units with cancellation",
        "q of the units without copysign",
        &[(
            P,
            "            let q = -0.5 * (al + disc.sqrt().copysign(al));\n            for r",
            "            let q = -0.5 * (al + disc.sqrt());\n            for r",
            1,
        )],
    ),
    (
        "signed sizes",
        "a unit's size is its root",
        &[(P, "units[nu] = (r.abs(), r, f64::NAN);", "units[nu] = (r, r, f64::NAN);", 2)],
    ),
    (
        "the product from the other factor",
        "the loops of the product are exchanged",
        &[(
            P,
            "        for (i, &li) in l[..=dl].iter().enumerate() {\n            for (j, &fj) in f.iter().enumerate() {",
            "        for (j, &fj) in f.iter().enumerate() {\n            for (i, &li) in l[..=dl].iter().enumerate() {",
            1,
        )],
    ),
    (
        "the product of all five",
        "the zeros after L are multiplied too",
        &[(
            P,
            "        for (i, &li) in l[..=dl].iter().enumerate() {",
            "        for (i, &li) in l[..5 - (f.len() - 1)].iter().enumerate() {",
            1,
        )],
    ),
    (
        "a line's sign in the product",
        "y + r in place of y - r",
        &[(P, "mul(&[-r, 1.0]);", "mul(&[r, 1.0]);", 1)],
    ),
    (
        "0 - r in the product",
        "0 - r in place of -r",
        &[(P, "mul(&[-r, 1.0]);", "mul(&[0.0 - r, 1.0]);", 1)],
    ),
    (
        "the quotient's sums from the other end",
        "j goes down",
        &[(P, "for j in 1..=i.min(dl) {", "for j in (1..=i.min(dl)).rev() {", 1)],
    ),
    (
        "the quotient by all of L",
        "j up to i",
        &[(P, "for j in 1..=i.min(dl) {", "for j in 1..=i {", 1)],
    ),
    (
        "the quotient by the reciprocal",
        "acc times 1 / l_0",
        &[(P, "s[i] = acc / l[0];", "s[i] = acc * (1.0 / l[0]);", 1)],
    ),
    ("the quotient not divided", "l_0 counts as 1", &[(P, "s[i] = acc / l[0];", "s[i] = acc;", 1)]),
    (
        "the quotient's sum from the products",
        "the products are added, and taken from g_i",
        &[(
            P,
            "        let mut acc = g[i];\n        for j in 1..=i.min(dl) {\n            acc -= l[j] * s[i - j];\n        }\n        s[i] = acc / l[0];",
            "        let mut acc = 0.0;\n        for j in 1..=i.min(dl) {\n            acc += l[j] * s[i - j];\n        }\n        s[i] = (g[i] - acc) / l[0];",
            1,
        )],
    ),
    (
        "a quotient that is not finite",
        "the test is left out",
        &[(
            P,
            "if !(s[..=small].iter().all(|v| v.is_finite()) && s[0] != 0.0",
            "if !(s[0] != 0.0",
            1,
        )],
    ),
    (
        "a quotient's first coefficient may be 0",
        "`s[0] != 0.0` is left out",
        &[(P, " && s[0] != 0.0 && s[small] != 0.0)", " && s[small] != 0.0)", 1)],
    ),
    (
        "no second scaling",
        "the gap is not looked for",
        &[(P, "if depth >= 3 || sc.d <= 2 {", "if depth <= 3 || sc.d <= 2 {", 1)],
    ),
    ("depth 4 in place of 3", "`depth >= 4`", &[(P, "if depth >= 3 ||", "if depth >= 4 ||", 1)]),
    ("cubics are not scaled a second time", "`sc.d <= 3`", &[(P, "sc.d <= 2 {", "sc.d <= 3 {", 1)]),
    (
        "the depth is not counted",
        "depth in place of depth + 1",
        &[(P, "factorize(&sub, depth + 1)", "factorize(&sub, depth)", 1)],
    ),
    (
        "two steps of depth",
        "depth + 2",
        &[(P, "factorize(&sub, depth + 1)", "factorize(&sub, depth + 2)", 1)],
    ),
    ("be moved back once", "be times 2^e", &[(P, "ldexp(be, 2 * sub.e)", "ldexp(be, sub.e)", 1)]),
    ("al moved back twice", "al times 2^2e", &[(P, "ldexp(al, sub.e)", "ldexp(al, 2 * sub.e)", 1)]),
    (
        "lines not moved back",
        "r of the second scaling as it is",
        &[(P, "merged.push_lin(ldexp(r, sub.e));", "merged.push_lin(r);", 1)],
    ),
    (
        "the small factors first",
        "those of the second scaling before the large ones",
        &[
            (P, "    let mut merged = large;\n", "    let mut merged = Factors::default();\n", 1),
            (
                P,
                "    merged\n}",
                "    for &r in &large.lin[..large.nlin] {\n        merged.push_lin(r);\n    }\n    for &(al, be) in &large.quad[..large.nquad] {\n        \
                 merged.push_quad(al, be);\n    }\n    merged\n}",
                1,
            ),
        ],
    ),
    (
        "the second quadratic first",
        "a quartic's two quadratics are pushed in the other order",
        &[(P, "for (al, be) in quads {", "for (al, be) in [quads[1], quads[0]] {", 1)],
    ),
    (
        "nothing is peeled",
        "an isolated root is not looked for",
        &[(
            P,
            "match isolated_root(&quads) {",
            "match isolated_root(&quads).filter(|_| false) {",
            1,
        )],
    ),
    (
        "three lines at most",
        "`self.nlin < 3`",
        &[(P, "if self.nlin < 4 {", "if self.nlin < 3 {", 1)],
    ),
    (
        "one quadratic at most",
        "`self.nquad < 1`",
        &[(P, "if self.nquad < 2 {", "if self.nquad < 1 {", 1)],
    ),
    (
        "the peeled root as it was found",
        "the root of `isolated_root`, not of `peel_root`",
        &[(
            P,
            "let (r, h2, h1, h0) = peel_root(g[3], g[2], g[1], g[0], r);",
            "let (_, h2, h1, h0) = peel_root(g[3], g[2], g[1], g[0], r);",
            1,
        )],
    ),
];
