//! Mistakes in expanding formulas: the order of parts, their products and sums, and the limits, in a
//! copy of the host's own formula.rs.
use crate::patches::Variant;

const T: &str = "formula.rs";

/// A power, from what it is the power of.
const POWER: &str = "                let base = base.expanded()?;\n                \
                     (0..*power).try_fold(vec![1], |so_far, _| self.allowed(product(&so_far, &base)))\n";

/// Both operands.
const OPERANDS: &str = "let (left, right) = (left.expanded()?, right.expanded()?);\n";

/// The zeros at the end.
const ZEROS: &str =
    "        while coeffs.last() == Some(&0) {\n            coeffs.pop();\n        }\n";

/// The two limits.
const DEGREE: &str = "        if coeffs.len() > MOST_DEGREE + 1 {\n            return Err(Fault::Degree { part, degree: coeffs.len() - 1 });\n        }\n";
const LARGE: &str = "|c| c.unsigned_abs() > MOST_SIZE";

pub const ALL: &[Variant] = &[
    (
        "the right operand first",
        "then the left",
        &[(
            T,
            OPERANDS,
            "let right = right.expanded()?;\n                let left = left.expanded()?;\n",
            1,
        )],
    ),
    (
        "0 times what is refused",
        "the right operand is not expanded",
        &[(
            T,
            OPERANDS,
            "let left = left.expanded()?;\n                \
             if left.is_empty() && *operator == Operator::Times {\n                    \
             return Ok(left);\n                }\n                let right = right.expanded()?;\n",
            1,
        )],
    ),
    (
        "the power 0 first",
        "its base is not expanded",
        &[(
            T,
            POWER,
            "                if *power == 0 {\n                    return Ok(vec![1]);\n                }\n                \
             let base = base.expanded()?;\n                \
             (0..*power).try_fold(vec![1], |so_far, _| self.allowed(product(&so_far, &base)))\n",
            1,
        )],
    ),
    (
        "the power 0 of 0",
        "is 0",
        &[(
            T,
            POWER,
            "                let base = base.expanded()?;\n                \
             if base.is_empty() {\n                    return Ok(base);\n                }\n                \
             (0..*power).try_fold(vec![1], |so_far, _| self.allowed(product(&so_far, &base)))\n",
            1,
        )],
    ),
    (
        "a power from its base",
        "the power 0 gives the base",
        &[(
            T,
            POWER,
            "                let base = base.expanded()?;\n                \
             (1..*power).try_fold(base.clone(), |so_far, _| self.allowed(product(&so_far, &base)))\n",
            1,
        )],
    ),
    (
        "one product more",
        "`0..=power`",
        &[(T, "(0..*power).try_fold(vec![1]", "(0..=*power).try_fold(vec![1]", 1)],
    ),
    (
        "one product less",
        "the power 1 gives 1",
        &[(T, "(0..*power).try_fold(vec![1]", "(1..*power).try_fold(vec![1]", 1)],
    ),
    (
        "a power by squares",
        "one more than is needed",
        &[(
            T,
            POWER,
            "                let (mut square, mut rest, mut all) = (base.expanded()?, *power, vec![1]);\n                \
             while rest > 0 {\n                    \
             if rest % 2 == 1 {\n                        all = self.allowed(product(&all, &square))?;\n                    }\n                    \
             square = self.allowed(product(&square, &square))?;\n                    rest /= 2;\n                }\n                \
             Ok(all)\n",
            1,
        )],
    ),
    (
        "a power's products without limits",
        "its last alone is asked",
        &[(
            T,
            "(0..*power).try_fold(vec![1], |so_far, _| self.allowed(product(&so_far, &base)))\n",
            "self.allowed((0..*power).fold(vec![1], |so_far, _| product(&so_far, &base)))\n",
            1,
        )],
    ),
    (
        "limits of the whole alone",
        "its parts are not asked",
        &[(
            T,
            "        let part = self.bytes.clone();\n",
            "        let part = self.bytes.clone();\n        if part.start > 0 {\n            return Ok(coeffs);\n        }\n",
            1,
        )],
    ),
    (
        "sums without limits",
        "products alone are asked",
        &[
            (
                T,
                "Operator::Plus => sum(&left, &right, 1),",
                "Operator::Plus => return Ok(sum(&left, &right, 1)),",
                1,
            ),
            (
                T,
                "Operator::Minus => sum(&left, &right, -1),",
                "Operator::Minus => return Ok(sum(&left, &right, -1)),",
                1,
            ),
        ],
    ),
    (
        "15 before 14",
        "where one product meets both",
        &[(
            T,
            DEGREE,
            "        if let Some(power) = coeffs.iter().position(|c| c.unsigned_abs() > MOST_SIZE) {\n            \
             return Err(Fault::Size { part, coefficient: coeffs[power], power });\n        }\n        \
             if coeffs.len() > MOST_DEGREE + 1 {\n            return Err(Fault::Degree { part, degree: coeffs.len() - 1 });\n        }\n",
            1,
        )],
    ),
    (
        "zeros before the degree",
        "are not dropped",
        &[(T, ZEROS, "        coeffs.pop_if(|_| self.bytes.is_empty());\n", 1)],
    ),
    (
        "one zero is dropped",
        "`if` in place of `while`",
        &[(T, "while coeffs.last() == Some(&0) {", "if coeffs.last() == Some(&0) {", 1)],
    ),
    (
        "degree 5 passes",
        "`> MOST_DEGREE + 2`",
        &[(T, "coeffs.len() > MOST_DEGREE + 1", "coeffs.len() > MOST_DEGREE + 2", 1)],
    ),
    (
        "degree 4 is refused",
        "`> MOST_DEGREE`",
        &[(T, "coeffs.len() > MOST_DEGREE + 1", "coeffs.len() > MOST_DEGREE", 1)],
    ),
    ("14 is not asked", "the list refuses the degree", &[(T, DEGREE, "", 1)]),
    ("2^53 is refused", "`>=`", &[(T, LARGE, "|c| c.unsigned_abs() >= MOST_SIZE", 1)]),
    ("2^53 + 1 passes", "one more", &[(T, LARGE, "|c| c.unsigned_abs() > MOST_SIZE + 1", 1)]),
    (
        "2^53 - 1 is refused",
        "53 digits of two are too many",
        &[(T, LARGE, "|c| c.unsigned_abs() >= MOST_SIZE - 1", 1)],
    ),
    (
        "sizes as doubles",
        "2^53 + 1 is 2^53",
        &[(T, LARGE, "|c| (*c as f64).abs() > 2f64.powi(53)", 1)],
    ),
    ("sizes above 0 alone", "without abs", &[(T, LARGE, "|c| *c > MOST_SIZE as i128", 1)]),
    ("sizes below 2^64", "2^63 is the most", &[(T, LARGE, "|c| c.unsigned_abs() > 1 << 63", 1)]),
    (
        "the first coefficient alone",
        "is asked for its size",
        &[(T, "coeffs.iter().position(", "coeffs.iter().take(1).position(", 1)],
    ),
    (
        "the last coefficient alone",
        "is asked for its size",
        &[(
            T,
            "match coeffs.iter().position(|c| c.unsigned_abs() > MOST_SIZE) {",
            "match coeffs.iter().rposition(|c| c.unsigned_abs() > MOST_SIZE).filter(|i| i + 1 == coeffs.len()) {",
            1,
        )],
    ),
    (
        "products of 64 digits",
        "they wrap around",
        &[(T, "all[i + j] += x * y;", "all[i + j] += i128::from((x * y) as i64);", 1)],
    ),
    (
        "products as doubles",
        "rounded",
        &[(T, "all[i + j] += x * y;", "all[i + j] += (*x as f64 * *y as f64) as i128;", 1)],
    ),
    (
        "sums of products as doubles",
        "rounded",
        &[(
            T,
            "all[i + j] += x * y;",
            "all[i + j] = (all[i + j] as f64 + (x * y) as f64) as i128;",
            1,
        )],
    ),
    (
        "sums of 32 digits",
        "they wrap around",
        &[(T, "at(a, i) + sign * at(b, i)", "i128::from((at(a, i) + sign * at(b, i)) as i32)", 1)],
    ),
    (
        "sums as doubles",
        "rounded",
        &[(
            T,
            "at(a, i) + sign * at(b, i)",
            "(at(a, i) as f64 + (sign * at(b, i)) as f64) as i128",
            1,
        )],
    ),
    (
        "the last of two products",
        "`=` in place of `+=`",
        &[(T, "all[i + j] += x * y;", "all[i + j] = x * y;", 1)],
    ),
    (
        "products term by term",
        "the same powers alone",
        &[(T, "all[i + j] += x * y;", "all[i] += x * y * i128::from(i == j);", 1)],
    ),
    (
        "sums as far as both have terms",
        "`min` in place of `max`",
        &[(T, "a.len().max(b.len())", "a.len().min(b.len())", 1)],
    ),
    (
        "sums as far as the left has terms",
        "of the right no more",
        &[(T, "a.len().max(b.len())", "a.len()", 1)],
    ),
    (
        "the difference the other way",
        "right less left",
        &[(
            T,
            "Operator::Minus => sum(&left, &right, -1),",
            "Operator::Minus => sum(&right, &left, -1),",
            1,
        )],
    ),
    (
        "minus is plus",
        "one sign for both",
        &[(
            T,
            "Operator::Minus => sum(&left, &right, -1),",
            "Operator::Minus => sum(&left, &right, 1),",
            1,
        )],
    ),
    (
        "the size of a difference",
        "no coefficient below 0",
        &[(T, "at(a, i) + sign * at(b, i)", "(at(a, i) + sign * at(b, i)).abs()", 1)],
    ),
    (
        "t is 1",
        "in place of 0 and 1",
        &[(T, "self.allowed(vec![0, 1])", "self.allowed(vec![1])", 1)],
    ),
    (
        "the highest power first",
        "coefficients descend",
        &[(T, "expanded(text)?.into_iter()", "expanded(text)?.into_iter().rev()", 1)],
    ),
    (
        "a zero is -0",
        "where a coefficient is 0",
        &[(T, "|c| c as f64)", "|c| if c == 0 { -0.0 } else { c as f64 })", 1)],
    ),
    (
        "zeros below a negative one",
        "are -0",
        &[(
            T,
            "    Ok(expanded(text)?.into_iter().map(|c| c as f64).collect())\n",
            "    let all = expanded(text)?;\n    let sign = all.last().map_or(1.0, |c| c.signum() as f64);\n    \
             Ok(all.into_iter().map(|c| if c == 0 { sign * 0.0 } else { c as f64 }).collect())\n",
            1,
        )],
    ),
    (
        "monic",
        "divided by the last coefficient",
        &[(
            T,
            "    Ok(expanded(text)?.into_iter().map(|c| c as f64).collect())\n",
            "    let all = expanded(text)?;\n    let last = all.last().map_or(1.0, |c| *c as f64);\n    \
             Ok(all.into_iter().map(|c| c as f64 / last).collect())\n",
            1,
        )],
    ),
    (
        "14 is 3",
        "as of a list",
        &[(
            T,
            "Fault::Degree { .. } => refusals::DEGREE_TOO_HIGH,",
            "Fault::Degree { .. } => refusals::TOO_MANY,",
            1,
        )],
    ),
    (
        "14 and 15 exchanged",
        "their numbers",
        &[
            (
                T,
                "Fault::Degree { .. } => refusals::DEGREE_TOO_HIGH,",
                "Fault::Degree { .. } => refusals::COEFFICIENT_TOO_LARGE,",
                1,
            ),
            (
                T,
                "Fault::Size { .. } => refusals::COEFFICIENT_TOO_LARGE,",
                "Fault::Size { .. } => refusals::DEGREE_TOO_HIGH,",
                1,
            ),
        ],
    ),
    (
        "13 is 6",
        "as of an unknown mark",
        &[(
            T,
            "Fault::NotASum { .. } => refusals::NOT_A_SUM,",
            "Fault::NotASum { .. } => refusals::UNKNOWN_MARK,",
            1,
        )],
    ),
];
