//! Mistakes in bands, polishing, joining, the list and the inquiry.
use crate::patches::Variant;

const P: &str = "poly.rs";

pub const ALL: &[Variant] = &[
    (
        "no crude bound in within_band",
        "the band and the noise radius alone decide",
        &[(
            P,
            "if crate::truth::methods::powi(half - base, self.d as u32) * self.f[self.d].abs() > budget {",
            "if half < base && budget < 0.0 {",
            1,
        )],
    ),
    (
        "the crude bound at the budget",
        "`>= budget`",
        &[(P, "self.f[self.d].abs() > budget {", "self.f[self.d].abs() >= budget {", 1)],
    ),
    (
        "strictly within the caller's band",
        "`half < base`",
        &[(P, "if half <= base {", "if half < base {", 1)],
    ),
    (
        "strictly within band and noise",
        "`half < base + noise`",
        &[(P, "half <= base + self.noise(y)", "half < base + self.noise(y)", 1)],
    ),
    (
        "a noise factor of 3",
        "NOISE_FACTOR is 3",
        &[(P, "NOISE_FACTOR * f64::EPSILON", "3.0 * f64::EPSILON", 2)],
    ),
    (
        "an infinite noise radius kept",
        "the radius is not set to 0 where no coefficient bounds it",
        &[(P, "if r.is_finite() { r } else { 0.0 }", "r", 1)],
    ),
    (
        "the noise radius without the last coefficient",
        "k goes up to d - 1",
        &[(P, "take(d + 1).skip(2)", "take(d).skip(2)", 1)],
    ),
    (
        "sizes without abs in the noise budget",
        "the sum of the terms, not of their sizes",
        &[(P, "fold(0.0, |acc, &c| acc * ay + c.abs())", "fold(0.0, |acc, &c| acc * ay + c)", 2)],
    ),
    (
        "the minimum of a number and NaN is NaN",
        "min does not pass a NaN over",
        &[(
            P,
            "crate::truth::methods::min",
            "(|x: f64, y: f64| if x.is_nan() || y.is_nan() { f64::NAN } else { crate::truth::methods::min(x, y) })",
            5,
        )],
    ),
    (
        "max(-0, 0) = +0",
        "of two zeros with unlike signs max takes the positive one",
        &[(
            P,
            "crate::truth::methods::max",
            "(|x: f64, y: f64| crate::truth::methods::max(x, y) + 0.0)",
            7,
        )],
    ),
    (
        "the last of two zeros",
        "of two zeros with unlike signs min takes the last",
        &[(
            P,
            "crate::truth::methods::min",
            "(|x: f64, y: f64| crate::truth::methods::min(y, x))",
            5,
        )],
    ),
    (
        "the size of a negative tolerance",
        "`tol.abs()` in place of max(tol, 0)",
        &[(P, "crate::truth::methods::max(tol, 0.0)", "tol.abs()", 3)],
    ),
    (
        "a NaN tolerance stays",
        "NaN is not read as 0",
        &[(P, "crate::truth::methods::max(tol, 0.0)", "(if tol < 0.0 { 0.0 } else { tol })", 3)],
    ),
    (
        "a factor of discriminant 0 beyond the band is real",
        "`disc >= 0.0` in push_quadratic",
        &[(P, "} else if disc > 0.0 {", "} else if disc >= 0.0 {", 1)],
    ),
    (
        "the middle's zero",
        "mid is 0 - al / 2: +0 for al = 0",
        &[(P, "let mid = -0.5 * al;", "let mid = 0.0 - 0.5 * al;", 1)],
    ),
    (
        "a line's zero",
        "0 - g0 in place of -g0",
        &[(P, "out.push_lin(-g[0])", "out.push_lin(0.0 - g[0])", 1)],
    ),
    (
        "zeros at -0",
        "leading zeros become the root -0",
        &[(P, "cands.push(0.0, zeros as u32)", "cands.push(-0.0, zeros as u32)", 1)],
    ),
    (
        "the smaller root of a factor first",
        "be / q is pushed before q",
        &[(
            P,
            "out.push(q, 1);\n            out.push(be / q, 1);",
            "out.push(be / q, 1);\n            out.push(q, 1);",
            1,
        )],
    ),
    (
        "non-finite candidates kept",
        "candidates are not tested",
        &[(P, "if value.is_finite() && self.len < 4 {", "if self.len < 4 {", 1)],
    ),
    (
        "a pair with a middle that is not finite",
        "`mid.is_finite()` is left out",
        &[(P, "} else if mid.is_finite() && pairs.len < 2 {", "} else if pairs.len < 2 {", 1)],
    ),
    (
        "five turns in critical_point",
        "5 in place of 4",
        &[(
            P,
            "derivs12(&self.f, self.d, y);\n        for _ in 0..4 {",
            "derivs12(&self.f, self.d, y);\n        for _ in 0..5 {",
            1,
        )],
    ),
    (
        "critical_point stays inside its ends",
        "`lo < next && next < hi`",
        &[(P, "!(lo <= next && next <= hi)", "!(lo < next && next < hi)", 1)],
    ),
    (
        "critical_point accepts an equal slope",
        "`n1.abs() > d1.abs()`",
        &[(P, "if n1.abs() >= d1.abs()", "if n1.abs() > d1.abs()", 1)],
    ),
    ("extremum strictly", "`<` in its test", &[(P, "(d1.abs() <= tol *", "(d1.abs() < tol *", 1)]),
    (
        "extremum without abs",
        "d2 in place of its size",
        &[(P, "* d2.abs()).then_some(y)", "* d2).then_some(y)", 1)],
    ),
    (
        "an infinite polishing step refused",
        "a step that is not finite ends polishing even where the gap is infinite",
        &[(P, "> 0.25 * gap || step.is_nan()", "> 0.25 * gap || !step.is_finite()", 1)],
    ),
    (
        "a step of exactly a quarter refused",
        "`>= 0.25 * gap`",
        &[(P, "step.abs() > 0.25 * gap", "step.abs() >= 0.25 * gap", 1)],
    ),
    (
        "half the gap",
        "steps up to half the gap",
        &[(P, "step.abs() > 0.25 * gap", "step.abs() > 0.5 * gap", 1)],
    ),
    (
        "five polishing turns",
        "5 in place of 4",
        &[(
            P,
            "value_slope_compensated(&self.f, self.d, y);\n        for _ in 0..4 {",
            "value_slope_compensated(&self.f, self.d, y);\n        for _ in 0..5 {",
            1,
        )],
    ),
    (
        "polishing accepts an equal residual",
        "`nf.abs() > fy.abs()`",
        &[(
            P,
            "self.d, next);\n            if nf.abs() >= fy.abs()",
            "self.d, next);\n            if nf.abs() > fy.abs()",
            1,
        )],
    ),
    (
        "polishing goes on after a small step",
        "`<` in the test of the step",
        &[(P, "step.abs() <= f64::EPSILON * y.abs()", "step.abs() < f64::EPSILON * y.abs()", 1)],
    ),
    (
        "polishing on plain Horner",
        "the residual without compensation",
        &[(P, "value_slope_compensated(&self.f, ", "value_slope(&self.f, ", 2)],
    ),
    (
        "a zero root is not polished",
        "a simple root at 0 stays",
        &[(P, "if mult[k] == 1 {", "if mult[k] == 1 && vals[k] != 0.0 {", 1)],
    ),
    (
        "gaps from polished places",
        "the neighbour below as polishing left it",
        &[(P, "vals[k] - vals[k - 1]", "vals[k] - value[k - 1]", 1)],
    ),
    (
        "the larger gap",
        "max in place of min",
        &[(
            P,
            "crate::truth::methods::min(below, above)",
            "crate::truth::methods::max(below, above)",
            1,
        )],
    ),
    (
        "joined with the neighbour, not the mean",
        "half the distance to the place before, not to the running mean",
        &[(
            P,
            "0.5 * (value[k + 1] - y), 0.5 * (value[k + 1] + y)",
            "0.5 * (value[k + 1] - value[k]), 0.5 * (value[k + 1] + value[k])",
            1,
        )],
    ),
    (
        "the plain mean of joined places",
        "multiplicities do not weigh",
        &[(
            P,
            "(y * m as f64 + value[k] * mult[k] as f64) / total as f64",
            "0.5 * (y + value[k])",
            1,
        )],
    ),
    (
        "the weighted mean in another order",
        "each product is divided on its own",
        &[(
            P,
            "(y * m as f64 + value[k] * mult[k] as f64) / total as f64",
            "y * (m as f64 / total as f64) + value[k] * (mult[k] as f64 / total as f64)",
            1,
        )],
    ),
    (
        "roots beyond the finite range listed",
        "`unscaled` always gives a root",
        &[(P, "value.is_finite().then_some(RealRoot {", "true.then_some(RealRoot {", 1)],
    ),
    (
        "the second pair first where equal",
        "`half[1] <= half[0]`",
        &[(P, "pairs.half[1] < pairs.half[0]", "pairs.half[1] <= pairs.half[0]", 1)],
    ),
    (
        "pairs in their own order",
        "the narrower pair does not go first",
        &[(P, "pairs.half[1] < pairs.half[0]", "false", 1)],
    ),
    (
        "the whole distance as reach",
        "a pair's reach is the distance to the other items",
        &[(P, "0.5 * (it.0 - m).abs()", "(it.0 - m).abs()", 1)],
    ),
    (
        "a pair at the band's edge is kept",
        "`>= tol * ..`",
        &[(
            P,
            "(it.0 - y).abs() > tol * (poly.unit + y.abs())",
            "(it.0 - y).abs() >= tol * (poly.unit + y.abs())",
            1,
        )],
    ),
    (
        "a refused pair is no separator",
        "it is dropped",
        &[(
            P,
            "            items[n] = (y, if touches_at(y) { 2 } else { 0 }, 1);\n            n += 1;\n",
            "            if touches_at(y) {\n                items[n] = (y, 2, 1);\n                n += 1;\n            }\n",
            1,
        )],
    ),
    (
        "items always sorted",
        "also where there is no pair",
        &[(P, "if pairs.len > 0 {", "if n > 0 {", 1)],
    ),
    (
        "a link at a root is asked about",
        "`lo <= y && y <= hi`",
        &[(P, "lo < y && y < hi && touches_at(y)", "lo <= y && y <= hi && touches_at(y)", 1)],
    ),
    (
        "a link is asked before its place is tested",
        "the question first, then lo < y < hi",
        &[(P, "lo < y && y < hi && touches_at(y)", "touches_at(y) && lo < y && y < hi", 1)],
    ),
    (
        "double roots do not count as touching",
        "a chain's touching points are the links alone",
        &[(P, "touching += 1 + u32::from(items[k].1 >= 2);", "touching += 1;", 1)],
    ),
    (
        "a chain's last link",
        "a chain of several is reported at its last link",
        &[(P, "_ => 0.5 * (first + items[k].0),", "_ => at,", 1)],
    ),
    (
        "the length before trailing zeros",
        "the degree is tested before zeros are dropped",
        &[(P, "if n <= 1 || n > 5 {", "if n <= 1 || coeffs.len() > 5 {", 1)],
    ),
];
