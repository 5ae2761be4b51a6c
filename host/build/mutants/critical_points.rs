//! Mistakes in quadratic factors and critical points, operator by operator.
use crate::patches::Variant;

const P: &str = "poly.rs";

pub const ALL: &[Variant] = &[
    (
        "the middle with the other sign",
        "0.5 al",
        &[(P, "let mid = -0.5 * al;", "let mid = 0.5 * al;", 1)],
    ),
    (
        "the whole distance of a factor's roots",
        "√|disc| in place of half of it",
        &[(P, "let half = 0.5 * disc.abs().sqrt();", "let half = disc.abs().sqrt();", 1)],
    ),
    (
        "half of a complex pair is NaN",
        "√disc without abs",
        &[(P, "let half = 0.5 * disc.abs().sqrt();", "let half = 0.5 * disc.sqrt();", 1)],
    ),
    (
        "half by a quarter",
        "√(|disc| / 4)",
        &[(P, "let half = 0.5 * disc.abs().sqrt();", "let half = (0.25 * disc.abs()).sqrt();", 1)],
    ),
    (
        "a double root at the middle",
        "not at the critical point",
        &[(
            P,
            "out.push(self.critical_point(mid, mid - band, mid + band), 2);",
            "out.push(mid, 2);",
            1,
        )],
    ),
    (
        "a double root counts once",
        "multiplicity 1",
        &[(
            P,
            "out.push(self.critical_point(mid, mid - band, mid + band), 2);",
            "out.push(self.critical_point(mid, mid - band, mid + band), 1);",
            1,
        )],
    ),
    (
        "a double root above the middle",
        "from the middle up",
        &[(
            P,
            "self.critical_point(mid, mid - band, mid + band)",
            "self.critical_point(mid, mid, mid + band)",
            1,
        )],
    ),
    (
        "a double root below the middle",
        "from the middle down",
        &[(
            P,
            "self.critical_point(mid, mid - band, mid + band)",
            "self.critical_point(mid, mid - band, mid)",
            1,
        )],
    ),
    (
        "the two roots before the band",
        "`disc > 0.0` is asked first",
        &[(
            P,
            "        if self.within_band(half, mid, tol) {\n            let band",
            "        if !(disc > 0.0) && self.within_band(half, mid, tol) {\n            let band",
            1,
        )],
    ),
    (
        "roots with cancellation",
        "copysign is left out in `push_quadratic`",
        &[(
            P,
            "            let q = -0.5 * (al + disc.sqrt().copysign(al));\n            out",
            "            let q = -0.5 * (al + disc.sqrt());\n            out",
            1,
        )],
    ),
    (
        "q with the other sign",
        "0.5 (al + ..)",
        &[(
            P,
            "            let q = -0.5 * (al + disc.sqrt().copysign(al));\n            out",
            "            let q = 0.5 * (al + disc.sqrt().copysign(al));\n            out",
            1,
        )],
    ),
    (
        "the other root by the factor's sum",
        "-al - q in `push_quadratic`",
        &[(P, "out.push(be / q, 1);", "out.push(-al - q, 1);", 1)],
    ),
    ("one pair at most", "`pairs.len < 1`", &[(P, "pairs.len < 2 {", "pairs.len < 1 {", 1)]),
    (
        "a pair's half is its square",
        "|disc| in place of half",
        &[(P, "pairs.half[pairs.len] = half;", "pairs.half[pairs.len] = disc.abs();", 1)],
    ),
    (
        "three candidates at most",
        "`self.len < 3`",
        &[(
            P,
            "if value.is_finite() && self.len < 4 {",
            "if value.is_finite() && self.len < 3 {",
            1,
        )],
    ),
    (
        "three turns in critical_point",
        "3 in place of 4",
        &[(
            P,
            "derivs12(&self.f, self.d, y);\n        for _ in 0..4 {",
            "derivs12(&self.f, self.d, y);\n        for _ in 0..3 {",
            1,
        )],
    ),
    (
        "critical_point goes on at 0",
        "`d1 == 0.0` is left out",
        &[(P, "if d1 == 0.0 || d2 == 0.0 {", "if d2 == 0.0 {", 1)],
    ),
    (
        "critical_point goes on where d2 = 0",
        "`d2 == 0.0` is left out",
        &[(P, "if d1 == 0.0 || d2 == 0.0 {", "if d1 == 0.0 {", 1)],
    ),
    (
        "critical_point steps the other way",
        "y + d1 / d2",
        &[(P, "let next = y - d1 / d2;", "let next = y + d1 / d2;", 1)],
    ),
    (
        "critical_point steps by the product",
        "d1 (1 / d2)",
        &[(P, "let next = y - d1 / d2;", "let next = y - d1 * (1.0 / d2);", 1)],
    ),
    (
        "critical_point above its lower end",
        "`lo < next`",
        &[(P, "!(lo <= next && next <= hi)", "!(lo < next && next <= hi)", 1)],
    ),
    (
        "critical_point below its upper end",
        "`next < hi`",
        &[(P, "!(lo <= next && next <= hi)", "!(lo <= next && next < hi)", 1)],
    ),
    (
        "critical_point without a lower end",
        "`lo <= next` is left out",
        &[(P, "!(lo <= next && next <= hi)", "!(next <= hi)", 1)],
    ),
    (
        "critical_point without an upper end",
        "`next <= hi` is left out",
        &[(P, "!(lo <= next && next <= hi)", "!(lo <= next)", 1)],
    ),
    (
        "a NaN place is between the ends",
        "`next < lo || hi < next`",
        &[(P, "!(lo <= next && next <= hi)", "(next < lo || hi < next)", 1)],
    ),
    (
        "critical_point compares slopes",
        "n1 and d1 without abs",
        &[(P, "if n1.abs() >= d1.abs() ||", "if n1 >= d1 ||", 1)],
    ),
    (
        "critical_point accepts a NaN",
        "`n1.is_nan()` is left out",
        &[(P, "if n1.abs() >= d1.abs() || n1.is_nan() {", "if n1.abs() >= d1.abs() {", 1)],
    ),
    (
        "critical_point keeps its first slope",
        "d2 stays",
        &[(P, "(y, d1, d2) = (next, n1, n2);", "(y, d1) = (next, n1);", 1)],
    ),
    (
        "extremum by d2 first",
        "tol ((unit + |y|) |d2|)",
        &[(
            P,
            "(d1.abs() <= tol * (self.unit + y.abs()) * d2.abs())",
            "(d1.abs() <= tol * ((self.unit + y.abs()) * d2.abs()))",
            1,
        )],
    ),
    (
        "extremum by the step",
        "|d1 / d2| <= tol (unit + |y|)",
        &[(
            P,
            "(d1.abs() <= tol * (self.unit + y.abs()) * d2.abs())",
            "((d1 / d2).abs() <= tol * (self.unit + y.abs()))",
            1,
        )],
    ),
    ("extremum with d1's sign", "d1 without abs", &[(P, "(d1.abs() <= tol *", "(d1 <= tol *", 1)]),
    (
        "extremum with y's sign",
        "unit + y",
        &[(
            P,
            "(d1.abs() <= tol * (self.unit + y.abs()) * d2.abs())",
            "(d1.abs() <= tol * (self.unit + y) * d2.abs())",
            1,
        )],
    ),
    (
        "extremum with 1 + |y|",
        "1 in place of the unit",
        &[(
            P,
            "(d1.abs() <= tol * (self.unit + y.abs()) * d2.abs())",
            "(d1.abs() <= tol * (1.0 + y.abs()) * d2.abs())",
            1,
        )],
    ),
    (
        "extremum within the band",
        "with the noise",
        &[(
            P,
            "(d1.abs() <= tol * (self.unit + y.abs()) * d2.abs())",
            "(d1.abs() <= self.band(y, tol) * d2.abs())",
            1,
        )],
    ),
    (
        "extremum always",
        "the last step is not tested",
        &[(
            P,
            "(d1.abs() <= tol * (self.unit + y.abs()) * d2.abs()).then_some(y)",
            "(y == y).then_some(y)",
            1,
        )],
    ),
];
