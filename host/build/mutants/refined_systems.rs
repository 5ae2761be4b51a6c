//! Mistakes in the three systems that are refined, operator by operator.
use crate::patches::Variant;

const P: &str = "poly.rs";

pub const ALL: &[Variant] = &[
    (
        "b first in the cubic's first equation",
        "x1 - (x0 + b)",
        &[(
            P,
            "[x[1] - x[0] - b, x[2] - x[0] * x[1] - c, -x[0] * x[2] - d]",
            "[x[1] - (x[0] + b), x[2] - x[0] * x[1] - c, -x[0] * x[2] - d]",
            1,
        )],
    ),
    (
        "c first in the cubic's second equation",
        "x2 - c - x0 x1",
        &[(
            P,
            "[x[1] - x[0] - b, x[2] - x[0] * x[1] - c, -x[0] * x[2] - d]",
            "[x[1] - x[0] - b, x[2] - c - x[0] * x[1], -x[0] * x[2] - d]",
            1,
        )],
    ),
    (
        "the product added in the cubic's second equation",
        "x2 + x0 x1 - c",
        &[(
            P,
            "[x[1] - x[0] - b, x[2] - x[0] * x[1] - c, -x[0] * x[2] - d]",
            "[x[1] - x[0] - b, x[2] + x[0] * x[1] - c, -x[0] * x[2] - d]",
            1,
        )],
    ),
    (
        "0 less the product in the cubic's third equation",
        "0 - x0 x2 - d",
        &[(
            P,
            "[x[1] - x[0] - b, x[2] - x[0] * x[1] - c, -x[0] * x[2] - d]",
            "[x[1] - x[0] - b, x[2] - x[0] * x[1] - c, 0.0 - x[0] * x[2] - d]",
            1,
        )],
    ),
    (
        "the cubic's first magnitude from b",
        "|b| first",
        &[(
            P,
            "                [\n                    x[1].abs() + x[0].abs() + b.abs(),\n                    \
             x[2].abs() + (x[0] * x[1]).abs() + c.abs(),\n                    (x[0] * x[2]).abs() + d.abs(),",
            "                [\n                    b.abs() + x[1].abs() + x[0].abs(),\n                    \
             x[2].abs() + (x[0] * x[1]).abs() + c.abs(),\n                    (x[0] * x[2]).abs() + d.abs(),",
            1,
        )],
    ),
    (
        "the cubic's second magnitude from c",
        "|c| first",
        &[(
            P,
            "                [\n                    x[1].abs() + x[0].abs() + b.abs(),\n                    \
             x[2].abs() + (x[0] * x[1]).abs() + c.abs(),\n                    (x[0] * x[2]).abs() + d.abs(),",
            "                [\n                    x[1].abs() + x[0].abs() + b.abs(),\n                    \
             c.abs() + x[2].abs() + (x[0] * x[1]).abs(),\n                    (x[0] * x[2]).abs() + d.abs(),",
            1,
        )],
    ),
    (
        "the cubic's magnitudes without the coefficients",
        "|d| is left out",
        &[(
            P,
            "                    (x[0] * x[2]).abs() + d.abs(),\n                ],\n            )\n        },\n        |x| [[-1.0",
            "                    (x[0] * x[2]).abs(),\n                ],\n            )\n        },\n        |x| [[-1.0",
            1,
        )],
    ),
    (
        "the cubic's first derivative with the other sign",
        "1 in place of -1",
        &[(
            P,
            "[[-1.0, 1.0, 0.0], [-x[1], -x[0], 1.0], [-x[2], 0.0, -x[0]]]",
            "[[1.0, 1.0, 0.0], [-x[1], -x[0], 1.0], [-x[2], 0.0, -x[0]]]",
            1,
        )],
    ),
    (
        "x0 and x1 exchanged in the cubic's derivatives",
        "in the second row",
        &[(
            P,
            "[[-1.0, 1.0, 0.0], [-x[1], -x[0], 1.0], [-x[2], 0.0, -x[0]]]",
            "[[-1.0, 1.0, 0.0], [-x[0], -x[1], 1.0], [-x[2], 0.0, -x[0]]]",
            1,
        )],
    ),
    (
        "x0 and x2 exchanged in the cubic's derivatives",
        "in the third row",
        &[(
            P,
            "[[-1.0, 1.0, 0.0], [-x[1], -x[0], 1.0], [-x[2], 0.0, -x[0]]]",
            "[[-1.0, 1.0, 0.0], [-x[1], -x[0], 1.0], [-x[0], 0.0, -x[2]]]",
            1,
        )],
    ),
    (
        "-0 in the cubic's derivatives",
        "-0 in the first row",
        &[(
            P,
            "[[-1.0, 1.0, 0.0], [-x[1], -x[0], 1.0], [-x[2], 0.0, -x[0]]]",
            "[[-1.0, 1.0, -0.0], [-x[1], -x[0], 1.0], [-x[2], 0.0, -x[0]]]",
            1,
        )],
    ),
    (
        "b first in the quartic's first equation",
        "x0 + (x2 - b)",
        &[(P, "x[0] + x[2] - b,", "x[0] + (x[2] - b),", 1)],
    ),
    (
        "d first in the quartic's third equation",
        "x0 x3 + (x1 x2 - d)",
        &[(P, "x[0] * x[3] + x[1] * x[2] - d,", "x[0] * x[3] + (x[1] * x[2] - d),", 1)],
    ),
    (
        "c first in the quartic's second equation",
        "x1 + x3 - c + x0 x2",
        &[(P, "x[1] + x[3] + x[0] * x[2] - c,", "x[1] + x[3] - c + x[0] * x[2],", 1)],
    ),
    (
        "x3 last in the quartic's second equation",
        "x1 + x0 x2 + x3 - c",
        &[(P, "x[1] + x[3] + x[0] * x[2] - c,", "x[1] + x[0] * x[2] + x[3] - c,", 1)],
    ),
    (
        "the quartic's second magnitude from the product",
        "|x0 x2| first",
        &[(
            P,
            "x[1].abs() + x[3].abs() + (x[0] * x[2]).abs() + c.abs(),",
            "(x[0] * x[2]).abs() + x[1].abs() + x[3].abs() + c.abs(),",
            1,
        )],
    ),
    (
        "the quartic's first magnitude from b",
        "|b| first",
        &[(P, "x[0].abs() + x[2].abs() + b.abs(),", "b.abs() + x[0].abs() + x[2].abs(),", 1)],
    ),
    (
        "the quartic's third magnitude from d",
        "|d| first",
        &[(
            P,
            "(x[0] * x[3]).abs() + (x[1] * x[2]).abs() + d.abs(),",
            "d.abs() + (x[0] * x[3]).abs() + (x[1] * x[2]).abs(),",
            1,
        )],
    ),
    (
        "the quartic's last magnitude without e",
        "|e| is left out",
        &[(P, "(x[1] * x[3]).abs() + e.abs(),", "(x[1] * x[3]).abs(),", 1)],
    ),
    (
        "a wrong index in the second row",
        "x0 and x2 exchanged",
        &[(P, "[x[2], 1.0, x[0], 1.0]", "[x[0], 1.0, x[2], 1.0]", 1)],
    ),
    (
        "a wrong index in the last row",
        "x1 and x3 exchanged",
        &[(P, "[0.0, x[3], 0.0, x[1]]", "[0.0, x[1], 0.0, x[3]]", 1)],
    ),
    (
        "a wrong index in the third row's start",
        "x2 and x3 exchanged",
        &[(P, "[x[3], x[2], x[1], x[0]]", "[x[2], x[3], x[1], x[0]]", 1)],
    ),
    (
        "b first in the peeled first equation",
        "x1 - (x0 + b)",
        &[(
            P,
            "                    x[1] - x[0] - b,\n",
            "                    x[1] - (x[0] + b),\n",
            1,
        )],
    ),
    (
        "c first in the peeled second equation",
        "x2 - c - x0 x1",
        &[(
            P,
            "                    x[2] - x[0] * x[1] - c,\n",
            "                    x[2] - c - x[0] * x[1],\n",
            1,
        )],
    ),
    (
        "d first in the peeled third equation",
        "x3 - d - x0 x2",
        &[(
            P,
            "                    x[3] - x[0] * x[2] - d,\n",
            "                    x[3] - d - x[0] * x[2],\n",
            1,
        )],
    ),
    (
        "0 less the product in the peeled last equation",
        "0 - x0 x3 - e",
        &[(
            P,
            "                    -x[0] * x[3] - e,\n",
            "                    0.0 - x[0] * x[3] - e,\n",
            1,
        )],
    ),
    (
        "the peeled first magnitude from b",
        "|b| first",
        &[(
            P,
            "                    x[1].abs() + x[0].abs() + b.abs(),\n                    x[2].abs() + (x[0] * x[1]).abs() + c.abs(),\n                    x[3]",
            "                    b.abs() + x[1].abs() + x[0].abs(),\n                    x[2].abs() + (x[0] * x[1]).abs() + c.abs(),\n                    x[3]",
            1,
        )],
    ),
    (
        "the peeled second magnitude from c",
        "|c| first",
        &[(
            P,
            "                    x[2].abs() + (x[0] * x[1]).abs() + c.abs(),\n                    x[3]",
            "                    c.abs() + x[2].abs() + (x[0] * x[1]).abs(),\n                    x[3]",
            1,
        )],
    ),
    (
        "the peeled third magnitude from d",
        "|d| first",
        &[(
            P,
            "x[3].abs() + (x[0] * x[2]).abs() + d.abs(),",
            "d.abs() + x[3].abs() + (x[0] * x[2]).abs(),",
            1,
        )],
    ),
    (
        "the peeled last magnitude without e",
        "|e| is left out",
        &[(P, "(x[0] * x[3]).abs() + e.abs(),\n", "(x[0] * x[3]).abs(),\n", 1)],
    ),
    (
        "x0 and x1 exchanged in the peeled derivatives",
        "in the second row",
        &[(P, "[-x[1], -x[0], 1.0, 0.0],", "[-x[0], -x[1], 1.0, 0.0],", 1)],
    ),
    (
        "x0 and x2 exchanged in the peeled derivatives",
        "in the third row",
        &[(P, "[-x[2], 0.0, -x[0], 1.0],", "[-x[0], 0.0, -x[2], 1.0],", 1)],
    ),
    (
        "x0 and x3 exchanged in the peeled derivatives",
        "in the last row",
        &[(P, "[-x[3], 0.0, 0.0, -x[0]],", "[-x[0], 0.0, 0.0, -x[3]],", 1)],
    ),
];
