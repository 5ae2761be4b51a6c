//! Mistakes in polishing, joining and the coefficients that count, operator by operator.
use crate::patches::Variant;

const P: &str = "poly.rs";

pub const ALL: &[Variant] = &[
    (
        "three polishing turns",
        "3 in place of 4",
        &[(
            P,
            "value_slope_compensated(&self.f, self.d, y);\n        for _ in 0..4 {",
            "value_slope_compensated(&self.f, self.d, y);\n        for _ in 0..3 {",
            1,
        )],
    ),
    (
        "polishing goes on at 0",
        "`fy == 0.0` is left out",
        &[(
            P,
            "        for _ in 0..4 {\n            if fy == 0.0 || dy == 0.0 {\n                break;\n            }\n            let step",
            "        for _ in 0..4 {\n            if dy == 0.0 {\n                break;\n            }\n            let step",
            1,
        )],
    ),
    (
        "polishing goes on where it is flat",
        "`dy == 0.0` is left out",
        &[(
            P,
            "        for _ in 0..4 {\n            if fy == 0.0 || dy == 0.0 {\n                break;\n            }\n            let step",
            "        for _ in 0..4 {\n            if fy == 0.0 {\n                break;\n            }\n            let step",
            1,
        )],
    ),
    (
        "steps by their sign",
        "step without abs against the gap",
        &[(P, "step.abs() > 0.25 * gap", "step > 0.25 * gap", 1)],
    ),
    (
        "an eighth of the gap",
        "0.125 in place of 0.25",
        &[(P, "step.abs() > 0.25 * gap", "step.abs() > 0.125 * gap", 1)],
    ),
    (
        "a NaN step is tried",
        "`step.is_nan()` is left out",
        &[(P, "> 0.25 * gap || step.is_nan() {", "> 0.25 * gap {", 1)],
    ),
    (
        "a step that does not move",
        "`next == y` is left out",
        &[(P, "            if next == y {\n                break;\n            }\n", "", 1)],
    ),
    (
        "polishing compares values",
        "nf and fy without abs",
        &[(
            P,
            "self.d, next);\n            if nf.abs() >= fy.abs()",
            "self.d, next);\n            if nf >= fy",
            1,
        )],
    ),
    (
        "polishing accepts a NaN",
        "`nf.is_nan()` is left out",
        &[(
            P,
            "self.d, next);\n            if nf.abs() >= fy.abs() || nf.is_nan() {",
            "self.d, next);\n            if nf.abs() >= fy.abs() {",
            1,
        )],
    ),
    (
        "polishing keeps its first slope",
        "dy stays",
        &[(
            P,
            "(y, fy, dy) = (next, nf, nd);\n            if",
            "(y, fy) = (next, nf);\n            if",
            1,
        )],
    ),
    (
        "a small step of 2^-51",
        "two epsilon",
        &[(
            P,
            "step.abs() <= f64::EPSILON * y.abs()",
            "step.abs() <= 2.0 * f64::EPSILON * y.abs()",
            1,
        )],
    ),
    (
        "a small step of 2^-53",
        "half of epsilon",
        &[(
            P,
            "step.abs() <= f64::EPSILON * y.abs()",
            "step.abs() <= 0.5 * f64::EPSILON * y.abs()",
            1,
        )],
    ),
    (
        "a small step by its sign",
        "without abs",
        &[(P, "step.abs() <= f64::EPSILON * y.abs()", "step <= f64::EPSILON * y.abs()", 1)],
    ),
    (
        "a small step by the place's sign",
        "y without abs",
        &[(P, "step.abs() <= f64::EPSILON * y.abs()", "step.abs() <= f64::EPSILON * y", 1)],
    ),
    (
        "a small step at the place before",
        "against the place that the step left",
        &[(
            P,
            "            (y, fy, dy) = (next, nf, nd);\n            if step.abs() <= f64::EPSILON * y.abs() {\n                break;\n            }",
            "            let before = y;\n            (y, fy, dy) = (next, nf, nd);\n            \
             if step.abs() <= f64::EPSILON * before.abs() {\n                break;\n            }",
            1,
        )],
    ),
    (
        "no small step",
        "the test is left out",
        &[(
            P,
            "            if step.abs() <= f64::EPSILON * y.abs() {\n                break;\n            }\n",
            "",
            1,
        )],
    ),
    (
        "candidates of equal place in the other order",
        "ties are exchanged in `finish`",
        &[(
            P,
            "order[..n].sort_by(|&i, &j| c.value[i].total_cmp(&c.value[j]));",
            "order[..n].reverse();\n        order[..n].sort_by(|&i, &j| c.value[i].total_cmp(&c.value[j]));",
            1,
        )],
    ),
    (
        "-0 and +0 are ties among candidates",
        "`partial_cmp`",
        &[(
            P,
            "c.value[i].total_cmp(&c.value[j])",
            "c.value[i].partial_cmp(&c.value[j]).unwrap_or(std::cmp::Ordering::Equal)",
            1,
        )],
    ),
    (
        "candidates in falling order",
        "the largest place first",
        &[(P, "c.value[i].total_cmp(&c.value[j])", "c.value[j].total_cmp(&c.value[i])", 1)],
    ),
    (
        "double roots are polished too",
        "every multiplicity",
        &[(P, "if mult[k] == 1 {", "if mult[k] >= 1 {", 1)],
    ),
    ("nothing is polished", "no multiplicity", &[(P, "if mult[k] == 1 {", "if mult[k] == 0 {", 1)]),
    (
        "the gap above alone",
        "the gap below does not count",
        &[(P, "crate::truth::methods::min(below, above)", "above", 1)],
    ),
    (
        "the gap below alone",
        "the gap above does not count",
        &[(P, "crate::truth::methods::min(below, above)", "below", 1)],
    ),
    (
        "no gap below the first",
        "0 in place of infinity",
        &[(
            P,
            "                    vals[k] - vals[k - 1]\n                } else {\n                    f64::INFINITY",
            "                    vals[k] - vals[k - 1]\n                } else {\n                    0.0",
            1,
        )],
    ),
    (
        "no gap above the last",
        "0 in place of infinity",
        &[(
            P,
            "                    vals[k + 1] - vals[k]\n                } else {\n                    f64::INFINITY",
            "                    vals[k + 1] - vals[k]\n                } else {\n                    0.0",
            1,
        )],
    ),
    (
        "the whole distance joins",
        "in place of half of it",
        &[(
            P,
            "self.within_band(0.5 * (value[k + 1] - y), 0.5 * (value[k + 1] + y), tol)",
            "self.within_band(value[k + 1] - y, 0.5 * (value[k + 1] + y), tol)",
            1,
        )],
    ),
    (
        "joined by the band about the run",
        "the band at the run's mean",
        &[(
            P,
            "self.within_band(0.5 * (value[k + 1] - y), 0.5 * (value[k + 1] + y), tol)",
            "self.within_band(0.5 * (value[k + 1] - y), y, tol)",
            1,
        )],
    ),
    (
        "joined by the band about the next",
        "the band at the next place",
        &[(
            P,
            "self.within_band(0.5 * (value[k + 1] - y), 0.5 * (value[k + 1] + y), tol)",
            "self.within_band(0.5 * (value[k + 1] - y), value[k + 1], tol)",
            1,
        )],
    ),
    (
        "the middle by two halves",
        "y / 2 + v / 2",
        &[(P, "0.5 * (value[k + 1] + y)", "(0.5 * value[k + 1] + 0.5 * y)", 1)],
    ),
    (
        "the distance by two halves",
        "v / 2 - y / 2",
        &[(P, "0.5 * (value[k + 1] - y)", "(0.5 * value[k + 1] - 0.5 * y)", 1)],
    ),
    (
        "joined by places not polished",
        "the next place as it was",
        &[(
            P,
            "self.within_band(0.5 * (value[k + 1] - y), 0.5 * (value[k + 1] + y), tol)",
            "self.within_band(0.5 * (vals[k + 1] - y), 0.5 * (vals[k + 1] + y), tol)",
            1,
        )],
    ),
    (
        "a run has one more member",
        "the multiplicities do not add up",
        &[(P, "let total = m + mult[k];", "let total = m + 1;", 1)],
    ),
    (
        "a run stays at its first place",
        "the mean is not taken",
        &[(
            P,
            "y = (y * m as f64 + value[k] * mult[k] as f64) / total as f64;",
            "y = y + 0.0 * value[k];",
            1,
        )],
    ),
    (
        "only two join",
        "the run ends after its second place",
        &[(
            P,
            "                m = total;\n",
            "                m = total;\n                break;\n",
            1,
        )],
    ),
    (
        "the mean's multiplicities exchanged",
        "y k + v m",
        &[(
            P,
            "(y * m as f64 + value[k] * mult[k] as f64)",
            "(y * mult[k] as f64 + value[k] * m as f64)",
            1,
        )],
    ),
    (
        "-0 at the end is kept",
        "trailing zeros are +0 alone",
        &[(
            P,
            "while n > 0 && coeffs[n - 1] == 0.0 {",
            "while n > 0 && coeffs[n - 1].to_bits() == 0 {",
            1,
        )],
    ),
    (
        "-0 at the start is no root",
        "leading zeros are +0 alone",
        &[(
            P,
            "take_while(|&&c| c == 0.0).count()",
            "take_while(|&&c| c.to_bits() == 0).count()",
            1,
        )],
    ),
    ("a single zero is no root", "`zeros > 1`", &[(P, "if zeros > 0 {", "if zeros > 1 {", 1)]),
    (
        "leading zeros count once",
        "multiplicity 1",
        &[(P, "cands.push(0.0, zeros as u32)", "cands.push(0.0, 1)", 1)],
    ),
    (
        "zeros stay in the polynomial",
        "leading zeros are not divided out",
        &[(
            P,
            "let poly = Scaled::new(&coeffs[zeros..n]);",
            "let poly = Scaled::new(&coeffs[zeros.min(1)..n]);",
            1,
        )],
    ),
    ("lines are refused", "`n <= 2`", &[(P, "if n <= 1 || n > 5 {", "if n <= 2 || n > 5 {", 1)]),
    (
        "quartics are refused",
        "`n >= 5`",
        &[(P, "if n <= 1 || n > 5 {", "if n <= 1 || n >= 5 {", 1)],
    ),
    (
        "quadratics before lines",
        "the candidates in the other order",
        &[
            (
                P,
                "        for &r in &factors.lin[..factors.nlin] {\n            cands.push(r, 1);\n        }\n",
                "",
                1,
            ),
            (
                P,
                "            poly.push_quadratic(al, be, tol, &mut cands, &mut pairs);\n        }\n",
                "            poly.push_quadratic(al, be, tol, &mut cands, &mut pairs);\n        }\n        \
                 for &r in &factors.lin[..factors.nlin] {\n            cands.push(r, 1);\n        }\n",
                1,
            ),
        ],
    ),
    (
        "the last quadratic first",
        "quadratic factors in the other order",
        &[(
            P,
            "for &(al, be) in &factors.quad[..factors.nquad] {\n            poly",
            "for &(al, be) in factors.quad[..factors.nquad].iter().rev() {\n            poly",
            1,
        )],
    ),
];
