//! Mistakes in bands, operator by operator.
use crate::patches::Variant;

const P: &str = "poly.rs";

pub const ALL: &[Variant] = &[
    (
        "y with its sign in the band",
        "unit + y in `band`",
        &[(
            P,
            "tol * (self.unit + y.abs()) + self.noise(y)",
            "tol * (self.unit + y) + self.noise(y)",
            1,
        )],
    ),
    (
        "1 + |y| in the band",
        "1 in place of the unit in `band`",
        &[(
            P,
            "tol * (self.unit + y.abs()) + self.noise(y)",
            "tol * (1.0 + y.abs()) + self.noise(y)",
            1,
        )],
    ),
    (
        "the band without noise",
        "the critical point of a double root is sought within tol (unit + |y|)",
        &[(P, "tol * (self.unit + y.abs()) + self.noise(y)", "tol * (self.unit + y.abs())", 1)],
    ),
    (
        "the band in two products",
        "tol unit + tol |y|",
        &[(
            P,
            "tol * (self.unit + y.abs()) + self.noise(y)",
            "tol * self.unit + tol * y.abs() + self.noise(y)",
            1,
        )],
    ),
    (
        "y with its sign in the caller's band",
        "unit + y in `within_band`",
        &[(P, "let base = tol * (self.unit + y.abs());", "let base = tol * (self.unit + y);", 1)],
    ),
    (
        "1 + |y| in the caller's band",
        "1 in place of the unit in `within_band`",
        &[(P, "let base = tol * (self.unit + y.abs());", "let base = tol * (1.0 + y.abs());", 1)],
    ),
    (
        "the caller's band in two products",
        "tol unit + tol |y| in `within_band`",
        &[(
            P,
            "let base = tol * (self.unit + y.abs());",
            "let base = tol * self.unit + tol * y.abs();",
            1,
        )],
    ),
    (
        "the caller's band about half",
        "unit + |y| / 2",
        &[(
            P,
            "let base = tol * (self.unit + y.abs());",
            "let base = tol * (self.unit + 0.5 * y.abs());",
            1,
        )],
    ),
    (
        "the crude bound of half itself",
        "half^d in place of (half - base)^d",
        &[(
            P,
            "crate::truth::methods::powi(half - base, self.d as u32)",
            "crate::truth::methods::powi(half, self.d as u32)",
            1,
        )],
    ),
    (
        "the crude bound with d - 1",
        "one power less",
        &[(
            P,
            "crate::truth::methods::powi(half - base, self.d as u32)",
            "crate::truth::methods::powi(half - base, self.d as u32 - 1)",
            1,
        )],
    ),
    (
        "the crude bound without f_d",
        "the leading coefficient counts as 1",
        &[(P, " * self.f[self.d].abs() > budget", " > budget", 1)],
    ),
    (
        "the crude bound with f_d's sign",
        "without abs",
        &[(P, "self.f[self.d].abs() > budget", "self.f[self.d] > budget", 1)],
    ),
    (
        "noise against half - base",
        "half - base <= noise",
        &[(P, "half <= base + self.noise(y)", "half - base <= self.noise(y)", 1)],
    ),
    (
        "noise alone",
        "half <= noise",
        &[(P, "half <= base + self.noise(y)", "half <= self.noise(y)", 1)],
    ),
    (
        "epsilon halved in the crude bound",
        "2^-53 in `within_band`",
        &[(
            P,
            "        let budget = NOISE_FACTOR * f64::EPSILON * mag;\n        if",
            "        let budget = NOISE_FACTOR * 0.5 * f64::EPSILON * mag;\n        if",
            1,
        )],
    ),
    (
        "epsilon halved in the noise",
        "2^-53 in `noise`",
        &[(
            P,
            "        let budget = NOISE_FACTOR * f64::EPSILON * mag;\n        let",
            "        let budget = NOISE_FACTOR * 0.5 * f64::EPSILON * mag;\n        let",
            1,
        )],
    ),
    (
        "a noise factor of 5",
        "NOISE_FACTOR is 5",
        &[(P, "NOISE_FACTOR * f64::EPSILON", "5.0 * f64::EPSILON", 2)],
    ),
    (
        "epsilon times the sum first",
        "4 (epsilon mag)",
        &[(P, "NOISE_FACTOR * f64::EPSILON * mag", "NOISE_FACTOR * (f64::EPSILON * mag)", 2)],
    ),
    (
        "the budget's sum from the constant",
        "the sizes are folded upward",
        &[(
            P,
            "            .rev()\n            .fold(0.0, |acc, &c| acc * ay + c.abs());",
            "            .fold(0.0, |acc, &c| acc * ay + c.abs());",
            2,
        )],
    ),
    (
        "the budget's sum from the leading size",
        "the fold begins with |f_d|",
        &[(
            P,
            "            .rev()\n            .fold(0.0, |acc, &c| acc * ay + c.abs());",
            "            .rev()\n            .skip(1)\n            .fold(self.f[self.d].abs(), |acc, &c| acc * ay + c.abs());",
            2,
        )],
    ),
    (
        "the budget at y itself",
        "y in place of |y|",
        &[(P, "        let ay = y.abs();", "        let ay = y;", 2)],
    ),
    (
        "the budget's sum from -0",
        "the fold begins with -0",
        &[(
            P,
            ".fold(0.0, |acc, &c| acc * ay + c.abs());",
            ".fold(-0.0, |acc, &c| acc * ay + c.abs());",
            2,
        )],
    ),
    (
        "the radius from the largest double",
        "r begins with the largest double",
        &[(
            P,
            "let mut r = f64::INFINITY;\n        for (k",
            "let mut r = f64::MAX;\n        for (k",
            1,
        )],
    ),
    (
        "the radius from 1",
        "r begins with 1",
        &[(P, "let mut r = f64::INFINITY;\n        for (k", "let mut r = 1.0;\n        for (k", 1)],
    ),
    (
        "simple roots have noise",
        "k from 1",
        &[(P, "take(d + 1).skip(2)", "take(d + 1).skip(1)", 1)],
    ),
    (
        "double roots have no noise",
        "k from 3",
        &[(P, "take(d + 1).skip(2)", "take(d + 1).skip(3)", 1)],
    ),
    (
        "a Taylor coefficient of 0 bounds too",
        "`tk != 0.0` is left out",
        &[(P, "            if tk != 0.0 {\n", "            if true {\n", 1)],
    ),
    (
        "a Taylor coefficient's sign",
        "budget / tk without abs",
        &[(P, "let q = budget / tk.abs();", "let q = budget / tk;", 1)],
    ),
    (
        "the cube root for 2",
        "q.cbrt() in place of q.sqrt()",
        &[(P, "2 => q.sqrt(),", "2 => crate::truth::exact::cbrt(q),", 1)],
    ),
    (
        "the square root for 3",
        "q.sqrt() in place of q.cbrt()",
        &[(P, "3 => crate::truth::exact::cbrt(q),", "3 => q.sqrt(),", 1)],
    ),
    (
        "the square root for 4",
        "q.sqrt() once",
        &[(P, "_ => q.sqrt().sqrt(),", "_ => q.sqrt(),", 1)],
    ),
    (
        "the largest radius",
        "max in place of min",
        &[
            (
                P,
                "let mut r = f64::INFINITY;\n        for (k",
                "let mut r = 0.0;\n        for (k",
                1,
            ),
            (
                P,
                "r = crate::truth::methods::min(r, match k {",
                "r = crate::truth::methods::max(r, match k {",
                1,
            ),
        ],
    ),
];
