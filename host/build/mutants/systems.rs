//! Mistakes in the square systems and their refinement, operator by operator.
use crate::patches::Variant;

const P: &str = "poly.rs";
const S: &str = "solve.rs";

pub const ALL: &[Variant] = &[
    (
        "the entry sum by columns",
        "the sum of the sizes is added column by column",
        &[(
            S,
            "m.iter().flatten().map(|v| v.abs()).sum()",
            "(0..N).flat_map(|j| (0..N).map(move |i| (i, j))).map(|(i, j)| m[i][j].abs()).sum()",
            1,
        )],
    ),
    (
        "the entry sum from the last row up",
        "each row from its first entry",
        &[(
            S,
            "m.iter().flatten().map(|v| v.abs()).sum()",
            "m.iter().rev().flatten().map(|v| v.abs()).sum()",
            1,
        )],
    ),
    (
        "the entry sum's rows from their ends",
        "each row from its last entry",
        &[(
            S,
            "m.iter().flatten().map(|v| v.abs()).sum()",
            "m.iter().flat_map(|row| row.iter().rev()).map(|v| v.abs()).sum()",
            1,
        )],
    ),
    (
        "the entry sum of row sums",
        "each row is added on its own",
        &[(
            S,
            "m.iter().flatten().map(|v| v.abs()).sum()",
            "m.iter().map(|row| row.iter().map(|v| v.abs()).sum::<f64>()).sum()",
            1,
        )],
    ),
    (
        "the entry sum with signs",
        "the entries, not their sizes",
        &[(S, "m.iter().flatten().map(|v| v.abs()).sum()", "m.iter().flatten().sum()", 1)],
    ),
    (
        "the largest entry as scale",
        "max in place of the sum",
        &[(
            S,
            "m.iter().flatten().map(|v| v.abs()).sum()",
            "m.iter().flatten().map(|v| v.abs()).fold(0.0, f64::max)",
            1,
        )],
    ),
    (
        "the pivot by its sign",
        "the entries below without abs",
        &[(S, "m[row][col].abs() > m[pivot][col].abs()", "m[row][col] > m[pivot][col].abs()", 1)],
    ),
    (
        "the pivot so far by its sign",
        "the pivot so far without abs",
        &[(S, "m[row][col].abs() > m[pivot][col].abs()", "m[row][col].abs() > m[pivot][col]", 1)],
    ),
    (
        "no pivoting",
        "the diagonal entry stays",
        &[(
            S,
            "m[row][col].abs() > m[pivot][col].abs()",
            "false && m[row][col].abs() > m[pivot][col].abs()",
            1,
        )],
    ),
    (
        "the first larger entry",
        "the search ends at the first larger entry",
        &[(
            S,
            "                pivot = row;\n            }\n        }\n        m.swap",
            "                pivot = row;\n                break;\n            }\n        }\n        m.swap",
            1,
        )],
    ),
    (
        "the last row is no pivot",
        "the search ends before it",
        &[(
            S,
            "for row in col + 1..N {\n            if",
            "for row in col + 1..N - 1 {\n            if",
            1,
        )],
    ),
    (
        "rows stay at exchanges",
        "`m.swap` is left out",
        &[(S, "        m.swap(col, pivot);\n", "", 1)],
    ),
    (
        "a pivot at the bound goes on",
        "`<` in the test of the pivot",
        &[(
            S,
            "if m[col][col].abs() <= tol * scale.max(f64::MIN_POSITIVE) {\n            return None;\n        }\n        for row",
            "if m[col][col].abs() < tol * scale.max(f64::MIN_POSITIVE) {\n            return None;\n        }\n        for row",
            1,
        )],
    ),
    (
        "the pivot's sign is tested",
        "without abs",
        &[(
            S,
            "if m[col][col].abs() <= tol * scale.max(f64::MIN_POSITIVE) {\n            return None;\n        }\n        for row",
            "if m[col][col] <= tol * scale.max(f64::MIN_POSITIVE) {\n            return None;\n        }\n        for row",
            1,
        )],
    ),
    (
        "no least scale",
        "max with 2^-1022 is left out",
        &[(
            S,
            "if m[col][col].abs() <= tol * scale.max(f64::MIN_POSITIVE) {\n            return None;\n        }\n        for row",
            "if m[col][col].abs() <= tol * scale {\n            return None;\n        }\n        for row",
            1,
        )],
    ),
    (
        "a least scale of 2^-1074",
        "2^-1074 in place of 2^-1022",
        &[(
            S,
            "if m[col][col].abs() <= tol * scale.max(f64::MIN_POSITIVE) {\n            return None;\n        }\n        for row",
            "if m[col][col].abs() <= tol * scale.max(f64::from_bits(1)) {\n            return None;\n        }\n        for row",
            1,
        )],
    ),
    (
        "a least scale of 1",
        "1 in place of 2^-1022",
        &[(
            S,
            "if m[col][col].abs() <= tol * scale.max(f64::MIN_POSITIVE) {\n            return None;\n        }\n        for row",
            "if m[col][col].abs() <= tol * scale.max(1.0) {\n            return None;\n        }\n        for row",
            1,
        )],
    ),
    (
        "the last pivot is not tested",
        "columns up to the last but one",
        &[(
            S,
            "if m[col][col].abs() <= tol * scale.max(f64::MIN_POSITIVE) {\n            return None;\n        }\n        for row",
            "if col + 1 < N && m[col][col].abs() <= tol * scale.max(f64::MIN_POSITIVE) {\n            return None;\n        }\n        for row",
            1,
        )],
    ),
    (
        "the factor by the reciprocal",
        "entry times 1 / pivot",
        &[(
            S,
            "let factor = m[row][col] / m[col][col];",
            "let factor = m[row][col] * (1.0 / m[col][col]);",
            1,
        )],
    ),
    (
        "the product before the quotient",
        "(entry times the pivot row) / pivot",
        &[
            (
                S,
                "*cell -= factor * pivot_row[k];",
                "*cell -= m_row_col * pivot_row[k] / pivot_row[col];",
                1,
            ),
            (
                S,
                "let factor = m[row][col] / m[col][col];",
                "let factor = m[row][col] / m[col][col];\n            let m_row_col = m[row][col];",
                1,
            ),
        ],
    ),
    (
        "the pivot's column stays",
        "rows lose what is right of the pivot",
        &[(S, ".enumerate().skip(col) {", ".enumerate().skip(col + 1) {", 1)],
    ),
    (
        "whole rows are lost",
        "also what is left of the pivot",
        &[(S, ".enumerate().skip(col) {", ".enumerate().skip(0) {", 1)],
    ),
    (
        "the right-hand side stays in elimination",
        "b loses nothing",
        &[(S, "            b[row] -= factor * b[col];\n", "", 1)],
    ),
    (
        "the next row alone is reduced",
        "one row below the pivot",
        &[(
            S,
            "for row in col + 1..N {\n            let factor",
            "for row in col + 1..N.min(col + 2) {\n            let factor",
            1,
        )],
    ),
    (
        "back substitution by the reciprocal",
        "acc times 1 / pivot",
        &[(S, "x[row] = acc / m[row][row];", "x[row] = acc * (1.0 / m[row][row]);", 1)],
    ),
    (
        "back substitution adds up first",
        "the products are added, and taken from b",
        &[(
            S,
            "        let mut acc = b[row];\n        for k in row + 1..N {\n            acc -= m[row][k] * x[k];\n        }\n        \
             x[row] = acc / m[row][row];",
            "        let mut acc = 0.0;\n        for k in row + 1..N {\n            acc += m[row][k] * x[k];\n        }\n        \
             x[row] = (b[row] - acc) / m[row][row];",
            1,
        )],
    ),
    (
        "the norm without abs",
        "the residuals with their signs",
        &[(P, "w.iter().map(|v| v.abs()).sum::<f64>()", "w.iter().sum::<f64>()", 1)],
    ),
    (
        "the largest residual as norm",
        "max in place of the sum",
        &[(
            P,
            "w.iter().map(|v| v.abs()).sum::<f64>()",
            "w.iter().map(|v| v.abs()).fold(0.0, f64::max)",
            1,
        )],
    ),
    (
        "a norm at the floor goes on",
        "`current >= 0.5 * f64::EPSILON`",
        &[(P, "current > 0.5 * f64::EPSILON &&", "current >= 0.5 * f64::EPSILON &&", 1)],
    ),
    (
        "refinement ends at a quarter of epsilon",
        "the floor is a quarter of epsilon",
        &[(P, "current > 0.5 * f64::EPSILON &&", "current > 0.25 * f64::EPSILON &&", 1)],
    ),
    (
        "an infinite norm goes on",
        "`current.is_finite()` is left out",
        &[(P, " && current.is_finite()) {", ") {", 1)],
    ),
    (
        "rows not weighted",
        "the derivatives as they are",
        &[(P, "row.iter_mut().for_each(|v| *v /= m);", "", 1)],
    ),
    (
        "rows of weight 0 divided",
        "`m >= 0.0` for the rows",
        &[(
            P,
            "            if m > 0.0 {\n                row",
            "            if m >= 0.0 {\n                row",
            1,
        )],
    ),
    (
        "rows by the reciprocal",
        "entries times 1 / m",
        &[(
            P,
            "row.iter_mut().for_each(|v| *v /= m);",
            "row.iter_mut().for_each(|v| *v *= 1.0 / m);",
            1,
        )],
    ),
    (
        "residuals by the reciprocal",
        "r times 1 / m",
        &[(P, "if m[i] > 0.0 { r[i] / m[i] }", "if m[i] > 0.0 { r[i] * (1.0 / m[i]) }", 1)],
    ),
    (
        "the start's weights",
        "the rows keep the weights of the first turn",
        &[(P, "(x, w, mag) = (next, nw, nm);", "(x, w) = (next, nw);", 1)],
    ),
    (
        "a nearly singular step is refused",
        "a tolerance of epsilon",
        &[(P, "solve_square(j, w, 0.0)", "solve_square(j, w, f64::EPSILON)", 1)],
    ),
    (
        "the step added",
        "x + step",
        &[(
            P,
            "std::array::from_fn(|i| x[i] - step[i])",
            "std::array::from_fn(|i| x[i] + step[i])",
            1,
        )],
    ),
    (
        "refinement accepts a NaN norm",
        "`next_norm.is_nan()` is left out",
        &[(P, "if next_norm >= current || next_norm.is_nan() {", "if next_norm >= current {", 1)],
    ),
    (
        "refinement accepts any norm",
        "the norms are not compared",
        &[(P, "if next_norm >= current || next_norm.is_nan() {", "if next_norm.is_nan() {", 1)],
    ),
    ("one turn of refinement", "1 in place of 8", &[(P, "for _ in 0..8 {", "for _ in 0..1 {", 1)]),
];
