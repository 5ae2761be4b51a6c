//! Mistakes in evaluation, powers of two and the leaves.
use crate::mutants::PAIR;
use crate::patches::Variant;

const P: &str = "poly.rs";

pub const ALL: &[Variant] = &[
    (
        "the slope after the value",
        "the slope takes the value of its own turn",
        &[(
            P,
            "        s = s * y + v;\n        v = v * y + c;",
            "        v = v * y + c;\n        s = s * y + v;",
            1,
        )],
    ),
    (
        "the plain slope's sum from -0",
        "`value_slope` begins with the slope -0",
        &[(P, "let (mut v, mut s) = (p[d], 0.0);", "let (mut v, mut s) = (p[d], -0.0);", 1)],
    ),
    (
        "the slope's sum from -0",
        "`value_slope_compensated` begins with the slope -0",
        &[(
            P,
            "let (mut v, mut err, mut s) = (p[d], 0.0, 0.0);",
            "let (mut v, mut err, mut s) = (p[d], 0.0, -0.0);",
            1,
        )],
    ),
    (
        "the error's sum from -0",
        "`value_slope_compensated` begins with the error -0",
        &[(
            P,
            "let (mut v, mut err, mut s) = (p[d], 0.0, 0.0);",
            "let (mut v, mut err, mut s) = (p[d], -0.0, 0.0);",
            1,
        )],
    ),
    (
        "the slope after the value, compensated",
        "the slope takes the value of its own turn",
        &[
            (P, "        s = s * y + v;\n        let (prod", "        let (prod", 1),
            (P, "        v = sum;\n", "        v = sum;\n        s = s * y + v;\n", 1),
        ],
    ),
    (
        "without the product's error",
        "`sum_err` alone is gathered",
        &[(P, "err * y + (prod_err + sum_err)", "err * y + sum_err", 1)],
    ),
    (
        "without the sum's error",
        "`prod_err` alone is gathered",
        &[(P, "err * y + (prod_err + sum_err)", "err * y + prod_err", 1)],
    ),
    (
        "the errors gathered one by one",
        "(err y + prod_err) + sum_err",
        &[(P, "err * y + (prod_err + sum_err)", "err * y + prod_err + sum_err", 1)],
    ),
    (
        "the sum's error by c alone",
        "c - back in place of Knuth's formula",
        &[(P, "(prod - (sum - back)) + (c - back)", "c - back", 1)],
    ),
    (
        "the sum's error by the product alone",
        "prod - (sum - back) in place of Knuth's formula",
        &[(P, "(prod - (sum - back)) + (c - back)", "prod - (sum - back)", 1)],
    ),
    (
        "the error taken away",
        "v - err in place of v + err",
        &[(P, "(v + err, s)", "(v - err, s)", 1)],
    ),
    ("a split of 26 digits", "2^26 + 1 in `two_prod`", &[(P, "134_217_729.0", "67_108_865.0", 1)]),
    ("a split of 28 digits", "2^28 + 1 in `two_prod`", &[(P, "134_217_729.0", "268_435_457.0", 1)]),
    ("a split by 2^27", "without the 1 in `two_prod`", &[(P, "134_217_729.0", "134_217_728.0", 1)]),
    (
        "the other small product first",
        "al bh before ah bl in `two_prod`",
        &[(P, "((ah * bh - p) + ah * bl + al * bh)", "((ah * bh - p) + al * bh + ah * bl)", 1)],
    ),
    (
        "the small products first",
        "ah bl + al bh are added on their own in `two_prod`",
        &[(P, "((ah * bh - p) + ah * bl + al * bh)", "((ah * bh - p) + (ah * bl + al * bh))", 1)],
    ),
    (
        "the smallest product before",
        "al bl before al bh in `two_prod`",
        &[(
            P,
            "((ah * bh - p) + ah * bl + al * bh) + al * bl",
            "((ah * bh - p) + ah * bl + al * bl) + al * bh",
            1,
        )],
    ),
    (
        "without the smallest product",
        "al bl is left out in `two_prod`",
        &[(P, "al * bh) + al * bl)", "al * bh))", 1)],
    ),
    (
        "the product last",
        "p is taken away last in `two_prod`",
        &[(
            P,
            "((ah * bh - p) + ah * bl + al * bh) + al * bl",
            "(ah * bh + ah * bl + al * bh) + al * bl - p",
            1,
        )],
    ),
    (
        "the plain discriminant",
        "without the square's rounding error",
        &[(P, "(sq - 4.0 * be) + err", "sq - 4.0 * be", 1)],
    ),
    (
        "the square's error first",
        "(sq + err) - 4 be",
        &[(P, "(sq - 4.0 * be) + err", "(sq + err) - 4.0 * be", 1)],
    ),
    (
        "the square's error with be",
        "sq - (4 be - err)",
        &[(P, "(sq - 4.0 * be) + err", "sq - (4.0 * be - err)", 1)],
    ),
    (
        "5 be in the discriminant",
        "5 in place of 4",
        &[(P, "(sq - 4.0 * be)", "(sq - 5.0 * be)", 1)],
    ),
    (
        "the first derivative's sum from -0",
        "`derivs12` begins with -0",
        &[(
            P,
            "let (mut d1, mut d2) = (0.0, 0.0);\n    for i",
            "let (mut d1, mut d2) = (-0.0, 0.0);\n    for i",
            1,
        )],
    ),
    (
        "the second derivative's sum from -0",
        "`derivs12` begins with -0",
        &[(
            P,
            "let (mut d1, mut d2) = (0.0, 0.0);\n    for i",
            "let (mut d1, mut d2) = (0.0, -0.0);\n    for i",
            1,
        )],
    ),
    (
        "k before k - 1",
        "k ((k - 1) a) in place of (k (k - 1)) a",
        &[(P, "k * (k - 1.0) * p[i]", "k * ((k - 1.0) * p[i])", 1)],
    ),
    ("k squared", "k k in place of k (k - 1)", &[(P, "k * (k - 1.0) * p[i]", "k * k * p[i]", 1)]),
    (
        "the second derivative from 1 on",
        "`i >= 1`",
        &[(P, "if i >= 2 {\n            d2", "if i >= 1 {\n            d2", 1)],
    ),
    (
        "the second derivative from 3 on",
        "`i >= 3`",
        &[(P, "if i >= 2 {\n            d2", "if i >= 3 {\n            d2", 1)],
    ),
    (
        "derivatives down to 2",
        "`(2..=d).rev()`",
        &[(P, "for i in (1..=d).rev() {", "for i in (2..=d).rev() {", 1)],
    ),
    (
        "Taylor's sweeps upward",
        "i from k up in `taylor`",
        &[(P, "for i in (k..d).rev() {", "for i in k..d {", 1)],
    ),
    (
        "one sweep less",
        "k up to d - 2 in `taylor`",
        &[(
            P,
            "    for k in 0..d {\n        for i in (k..d)",
            "    for k in 0..d.max(1) - 1 {\n        for i in (k..d)",
            1,
        )],
    ),
    (
        "sweeps from 1 on",
        "k from 1 in `taylor`",
        &[(
            P,
            "    for k in 0..d {\n        for i in (k..d)",
            "    for k in 1..d {\n        for i in (k..d)",
            1,
        )],
    ),
    (
        "every sweep to the constant",
        "i down to 0 in `taylor`",
        &[(P, "for i in (k..d).rev() {", "for i in (0..d).rev() {", 1)],
    ),
    (
        "three turns of newton_cubic",
        "3 in place of 4",
        &[(
            P,
            "value_slope(p, 3, y);\n    for _ in 0..4 {",
            "value_slope(p, 3, y);\n    for _ in 0..3 {",
            1,
        )],
    ),
    (
        "newton_cubic goes on at 0",
        "`fy == 0.0` is left out",
        &[(
            P,
            "value_slope(p, 3, y);\n    for _ in 0..4 {\n        if fy == 0.0 || dy == 0.0 {",
            "value_slope(p, 3, y);\n    for _ in 0..4 {\n        if dy == 0.0 {",
            1,
        )],
    ),
    (
        "newton_cubic goes on where it is flat",
        "`dy == 0.0` is left out",
        &[(
            P,
            "value_slope(p, 3, y);\n    for _ in 0..4 {\n        if fy == 0.0 || dy == 0.0 {",
            "value_slope(p, 3, y);\n    for _ in 0..4 {\n        if fy == 0.0 {",
            1,
        )],
    ),
    (
        "newton_cubic compares values",
        "nf and fy without abs",
        &[(
            P,
            "value_slope(p, 3, next);\n        if nf.abs() >= fy.abs()",
            "value_slope(p, 3, next);\n        if nf >= fy",
            1,
        )],
    ),
    (
        "newton_cubic accepts a NaN",
        "`nf.is_nan()` is left out",
        &[(
            P,
            "value_slope(p, 3, next);\n        if nf.abs() >= fy.abs() || nf.is_nan() {",
            "value_slope(p, 3, next);\n        if nf.abs() >= fy.abs() {",
            1,
        )],
    ),
    (
        "newton_cubic steps by the product",
        "y - fy (1 / dy)",
        &[(
            P,
            "let next = y - fy / dy;\n        let (nf, nd) = value_slope(p",
            "let next = y - fy * (1.0 / dy);\n        let (nf, nd) = value_slope(p",
            1,
        )],
    ),
    (
        "newton_cubic steps the other way",
        "y + fy / dy",
        &[(
            P,
            "let next = y - fy / dy;\n        let (nf, nd) = value_slope(p",
            "let next = y + fy / dy;\n        let (nf, nd) = value_slope(p",
            1,
        )],
    ),
    (
        "ldexp rounds once",
        "a result below 2^-1022 is rounded once",
        &[(
            P,
            "    if (-STEP..=STEP).contains(&k) {\n        return x * pow2(k);",
            "    if let Some(d) = crate::truth::exact::digits(x) {\n        let size = crate::truth::exact::nearest(d.w, d.k + k);\n        \
             return if d.negative { -size } else { size };\n    }\n    if (-STEP..=STEP).contains(&k) {\n        return x * pow2(k);",
            1,
        )],
    ),
    (
        "ldexp from the other end",
        "what is left first, then the steps of 1000",
        &[(
            P,
            "    while k > STEP &&",
            "    if k > STEP || k < -STEP {\n        let rest = (k.abs() - 1) % STEP + 1;\n        x *= pow2(rest * k.signum());\n        \
             k -= rest * k.signum();\n    }\n    while k > STEP &&",
            1,
        )],
    ),
    (
        "ldexp in steps of 500",
        "the chain of products has other steps",
        &[(P, "const STEP: i32 = 1000;", "const STEP: i32 = 500;", 1)],
    ),
    (
        "a step at 1000 too",
        "`k >= STEP`",
        &[
            (P, "while k > STEP &&", "while k >= STEP &&", 1),
            (P, "while k < -STEP &&", "while k <= -STEP &&", 1),
            (P, "if (-STEP..=STEP).contains(&k) {", "if (1 - STEP..STEP).contains(&k) {", 1),
        ],
    ),
    (
        "v⁴ by three products",
        "((v v) v) v in place of (v v)(v v)",
        &[(
            P,
            "crate::truth::methods::powi(half - base, self.d as u32)",
            "(if self.d == 4 { (half - base) * (half - base) * (half - base) * (half - base) } else { crate::truth::methods::powi(half - base, self.d as \
             u32) })",
            1,
        )],
    ),
    (
        "the maximum of a number and NaN is NaN",
        "max does not pass a NaN over",
        &[(
            P,
            "crate::truth::methods::max",
            "(|x: f64, y: f64| if x.is_nan() || y.is_nan() { f64::NAN } else { crate::truth::methods::max(x, y) })",
            7,
        )],
    ),
    (
        "the largest cube root below",
        "the cube root is rounded toward 0",
        &[(
            P,
            "crate::truth::exact::cbrt(",
            "(|x: f64| { let c = crate::truth::exact::cbrt(x); if c.is_finite() && c != 0.0 && (c * c * c).abs() > x.abs() { f64::from_bits(c.to_bits() - \
             1) } else { c } })(",
            2,
        )],
    ),
    (
        "s from sin",
        "s is the sine of a third of the angle",
        &[(
            P,
            PAIR,
            "let cos = crate::truth::angle::third_angle(crate::runs::mutants::sine(), cos3).0; let sin = ((1.0 - cos) * (1.0 + cos)).sqrt();",
            1,
        )],
    ),
    (
        "c of the smallest solution",
        "the angle's third of the other end",
        &[(
            P,
            PAIR,
            "let (cos, sin) = crate::truth::angle::third_angle(crate::runs::mutants::sine(), -cos3);",
            1,
        )],
    ),
];
