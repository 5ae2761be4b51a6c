//! Mistakes in counting the square systems that are solved.
use crate::patches::Variant;

const P: &str = "poly.rs";
const S: &str = "solve.rs";

const CALL: &str = "crate::truth::systems::solved(); let scale";
const SOLVE: &str = "solve_square(j, w, 0.0)";
const INNER: &str = "    let inner = factorize(&sub, depth + 1);\n";
const QUARTIC: &str = "let quads = quartic_factor(g[3], g[2], g[1], g[0]);";
const BEGIN: (&str, &str, &str, usize) = (
    P,
    "    let mut out = Factors::default();\n    match sc.d {",
    "    let before = crate::truth::systems::so_far();\n    let mut out = Factors::default();\n    match sc.d {",
    1,
);

pub const ALL: &[Variant] = &[
    (
        "calls without unknowns not counted",
        "a call counts where it finds the unknowns",
        &[
            (S, CALL, "let scale", 1),
            (S, "    Some(x)\n", "    crate::truth::systems::solved();\n    Some(x)\n", 1),
        ],
    ),
    (
        "calls that find no step not counted",
        "a call counts where its step is finite",
        &[
            (P, SOLVE, "crate::truth::systems::uncounted(|| solve_square(j, w, 0.0))", 1),
            (
                P,
                "        let next: [f64; N] = ",
                "        crate::truth::systems::solved();\n        let next: [f64; N] = ",
                1,
            ),
        ],
    ),
    (
        "steps not taken not counted",
        "a call counts where its step makes the norm smaller",
        &[
            (P, SOLVE, "crate::truth::systems::uncounted(|| solve_square(j, w, 0.0))", 1),
            (
                P,
                "        (x, w, mag) = (next, nw, nm);\n",
                "        crate::truth::systems::solved();\n        (x, w, mag) = (next, nw, nm);\n",
                1,
            ),
        ],
    ),
    (
        "turns counted",
        "a turn that ends at the floor counts too",
        &[
            (P, SOLVE, "crate::truth::systems::uncounted(|| solve_square(j, w, 0.0))", 1),
            (
                P,
                "        let current = norm(&w);\n",
                "        crate::truth::systems::solved();\n        let current = norm(&w);\n",
                1,
            ),
        ],
    ),
    (
        "refinements counted",
        "however many turns it takes, a refinement counts once",
        &[
            (P, SOLVE, "crate::truth::systems::uncounted(|| solve_square(j, w, 0.0))", 1),
            (
                P,
                "    let mut mag = m0;\n",
                "    crate::truth::systems::solved();\n    let mut mag = m0;\n",
                1,
            ),
        ],
    ),
    (
        "systems of three alone counted",
        "those of four count nothing",
        &[(S, CALL, "if N == 3 { crate::truth::systems::solved() }; let scale", 1)],
    ),
    (
        "the factors that a second scaling replaces not counted",
        "those of the factors in the end count",
        &[
            BEGIN,
            (
                P,
                INNER,
                "    crate::truth::systems::back_to(before);\n    let inner = factorize(&sub, depth + 1);\n",
                1,
            ),
        ],
    ),
    (
        "second scalings not counted",
        "those of the first factors count",
        &[(
            P,
            INNER,
            "    let inner = crate::truth::systems::uncounted(|| factorize(&sub, depth + 1));\n",
            1,
        )],
    ),
    (
        "one more for a second scaling",
        "each counts once by itself",
        &[(
            P,
            INNER,
            "    crate::truth::systems::solved();\n    let inner = factorize(&sub, depth + 1);\n",
            1,
        )],
    ),
    (
        "the two quadratics that peeling replaces not counted",
        "those of the factors in the end count",
        &[
            (
                P,
                "                Some(r) => {\n",
                "                Some(r) => {\n                    crate::truth::systems::back_to(before);\n",
                1,
            ),
            BEGIN,
        ],
    ),
    (
        "the two quadratics not counted",
        "those of a peeled root and of cubics count",
        &[(
            P,
            QUARTIC,
            "let quads = crate::truth::systems::uncounted(|| quartic_factor(g[3], g[2], g[1], g[0]));",
            1,
        )],
    ),
    (
        "the peeled root not counted",
        "those of the cubic behind it count",
        &[(
            P,
            "= peel_root(g[3], g[2], g[1], g[0], r);",
            "= crate::truth::systems::uncounted(|| peel_root(g[3], g[2], g[1], g[0], r));",
            1,
        )],
    ),
    (
        "the cubic behind a peeled root not counted",
        "those of the peeled root count",
        &[(
            P,
            "= cubic_factor(h2, h1, h0);",
            "= crate::truth::systems::uncounted(|| cubic_factor(h2, h1, h0));",
            1,
        )],
    ),
    (
        "cubics not counted",
        "those of degree 4 count",
        &[(
            P,
            "= cubic_factor(g[2], g[1], g[0]);",
            "= crate::truth::systems::uncounted(|| cubic_factor(g[2], g[1], g[0]));",
            1,
        )],
    ),
    (
        "replies counted",
        "a question counts once",
        &[
            (
                P,
                "    let touches_at = |y: f64| poly",
                "    let touches_at = |y: f64| {\n        crate::truth::systems::solved();\n        poly",
                1,
            ),
            (
                P,
                "is_some_and(|r| touches(r.value));",
                "is_some_and(|r| touches(r.value))\n    };",
                1,
            ),
        ],
    ),
];
