//! Mistakes in pin contacts: the equation and the reply, in a copy of the host's own contact.rs.
use crate::patches::Variant;

const C: &str = "contact.rs";

pub const ALL: &[Variant] = &[
    (
        "R² before Y0²",
        "(X0² - R²) + Y0²",
        &[(
            C,
            "(x0 * x0 + y0 * y0) - self.radius * self.radius,",
            "(x0 * x0 - self.radius * self.radius) + y0 * y0,",
            1,
        )],
    ),
    (
        "Y0² less R² first",
        "X0² + (Y0² - R²)",
        &[(
            C,
            "(x0 * x0 + y0 * y0) - self.radius * self.radius,",
            "x0 * x0 + (y0 * y0 - self.radius * self.radius),",
            1,
        )],
    ),
    (
        "R² as a product of sums",
        "(D0 - R)(D0 + R)",
        &[(
            C,
            "(x0 * x0 + y0 * y0) - self.radius * self.radius,",
            "((x0 * x0 + y0 * y0).sqrt() - self.radius) * ((x0 * x0 + y0 * y0).sqrt() + self.radius),",
            1,
        )],
    ),
    (
        "R itself",
        "R in place of R²",
        &[(
            C,
            "(x0 * x0 + y0 * y0) - self.radius * self.radius,",
            "(x0 * x0 + y0 * y0) - self.radius,",
            1,
        )],
    ),
    (
        "a fused constant",
        "X0² is not rounded",
        &[(
            C,
            "(x0 * x0 + y0 * y0) - self.radius * self.radius,",
            "x0.mul_add(x0, y0 * y0) - self.radius * self.radius,",
            1,
        )],
    ),
    (
        "2 X0X1 + 2 Y0Y1",
        "each product doubled",
        &[(C, "2.0 * (x0 * x1 + y0 * y1),", "2.0 * x0 * x1 + 2.0 * y0 * y1,", 1)],
    ),
    ("X0X1 + Y0Y1", "not doubled", &[(C, "2.0 * (x0 * x1 + y0 * y1),", "x0 * x1 + y0 * y1,", 1)]),
    (
        "X0X1 - Y0Y1",
        "the other sign",
        &[(C, "2.0 * (x0 * x1 + y0 * y1),", "2.0 * (x0 * x1 - y0 * y1),", 1)],
    ),
    (
        "X0Y1 + Y0X1",
        "across by along",
        &[(C, "2.0 * (x0 * x1 + y0 * y1),", "2.0 * (x0 * y1 + y0 * x1),", 1)],
    ),
    (
        "a fused c1",
        "X0X1 is not rounded",
        &[(C, "2.0 * (x0 * x1 + y0 * y1),", "2.0 * x0.mul_add(x1, y0 * y1),", 1)],
    ),
    (
        "Y1² with the doubled sum",
        "X1² + (Y1² + 2(X0X2 + Y0Y2))",
        &[(
            C,
            "(x1 * x1 + y1 * y1) + 2.0 * (x0 * x2 + y0 * y2),",
            "x1 * x1 + (y1 * y1 + 2.0 * (x0 * x2 + y0 * y2)),",
            1,
        )],
    ),
    (
        "the doubled sum first",
        "(X1² + 2(X0X2 + Y0Y2)) + Y1²",
        &[(
            C,
            "(x1 * x1 + y1 * y1) + 2.0 * (x0 * x2 + y0 * y2),",
            "(x1 * x1 + 2.0 * (x0 * x2 + y0 * y2)) + y1 * y1,",
            1,
        )],
    ),
    (
        "c2 by coordinates",
        "(X1² + 2 X0X2) + (Y1² + 2 Y0Y2)",
        &[(
            C,
            "(x1 * x1 + y1 * y1) + 2.0 * (x0 * x2 + y0 * y2),",
            "(x1 * x1 + 2.0 * x0 * x2) + (y1 * y1 + 2.0 * y0 * y2),",
            1,
        )],
    ),
    (
        "2 X0X2 + 2 Y0Y2",
        "each product doubled",
        &[(
            C,
            "(x1 * x1 + y1 * y1) + 2.0 * (x0 * x2 + y0 * y2),",
            "(x1 * x1 + y1 * y1) + (2.0 * x0 * x2 + 2.0 * y0 * y2),",
            1,
        )],
    ),
    (
        "X0X2 + Y0Y2",
        "not doubled",
        &[(
            C,
            "(x1 * x1 + y1 * y1) + 2.0 * (x0 * x2 + y0 * y2),",
            "(x1 * x1 + y1 * y1) + (x0 * x2 + y0 * y2),",
            1,
        )],
    ),
    (
        "2 of all of c2",
        "X1² + Y1² doubled too",
        &[(
            C,
            "(x1 * x1 + y1 * y1) + 2.0 * (x0 * x2 + y0 * y2),",
            "2.0 * ((x1 * x1 + y1 * y1) + (x0 * x2 + y0 * y2)),",
            1,
        )],
    ),
    (
        "c2 without the bend",
        "X1² + Y1² alone",
        &[(C, "(x1 * x1 + y1 * y1) + 2.0 * (x0 * x2 + y0 * y2),", "x1 * x1 + y1 * y1,", 1)],
    ),
    (
        "2 X1X2 + 2 Y1Y2",
        "each product doubled",
        &[(C, "2.0 * (x1 * x2 + y1 * y2),", "2.0 * x1 * x2 + 2.0 * y1 * y2,", 1)],
    ),
    ("X1X2 + Y1Y2", "not doubled", &[(C, "2.0 * (x1 * x2 + y1 * y2),", "x1 * x2 + y1 * y2,", 1)]),
    (
        "(X2 + Y2)²",
        "the sum squared",
        &[(C, "            x2 * x2 + y2 * y2,", "            (x2 + y2) * (x2 + y2),", 1)],
    ),
    (
        "a fused c4",
        "X2² is not rounded",
        &[(C, "            x2 * x2 + y2 * y2,", "            x2.mul_add(x2, y2 * y2),", 1)],
    ),
    (
        "the centre seen from the ball",
        "cx - x0 and cy - y0",
        &[(
            C,
            "[[x0 - cx, x1, x2], [y0 - cy, y1, y2]]",
            "[[cx - x0, x1, x2], [cy - y0, y1, y2]]",
            1,
        )],
    ),
    (
        "about the origin",
        "the centre is not taken away",
        &[(C, "[[x0 - cx, x1, x2], [y0 - cy, y1, y2]]", "[[x0, x1, x2], [y0, y1, y2]]", 1)],
    ),
    (
        "cx along",
        "cx and cy are exchanged",
        &[(
            C,
            "[[x0 - cx, x1, x2], [y0 - cy, y1, y2]]",
            "[[x0 - cy, x1, x2], [y0 - cx, y1, y2]]",
            1,
        )],
    ),
    ("X by powers", "X0 + t X1 + t² X2", &[(C, "a + t * (b + t * c)", "a + t * b + t * t * c", 1)]),
    (
        "X from the left",
        "(X0 + t X1) + t (t X2)",
        &[(C, "a + t * (b + t * c)", "(a + t * b) + t * (t * c)", 1)],
    ),
    (
        "X from the right",
        "X0 + (t X1 + t² X2)",
        &[(C, "a + t * (b + t * c)", "a + (t * b + t * t * c)", 1)],
    ),
    (
        "X fused",
        "each product and sum rounded once",
        &[(C, "a + t * (b + t * c)", "t.mul_add(t.mul_add(c, b), a)", 1)],
    ),
    (
        "X by half the bend",
        "X2 / 2, as of an acceleration",
        &[(C, "a + t * (b + t * c)", "a + t * (b + t * (0.5 * c))", 1)],
    ),
    (
        "D by hypot",
        "rounded once, and without overflow",
        &[(C, "(x * x + y * y).sqrt()", "x.hypot(y)", 1)],
    ),
    ("D²", "without the root", &[(C, "(x * x + y * y).sqrt()", "x * x + y * y", 1)]),
    (
        "D fused",
        "X² is not rounded",
        &[(C, "(x * x + y * y).sqrt()", "x.mul_add(x, y * y).sqrt()", 1)],
    ),
    (
        "strictly within confusion",
        "`<` in the reply",
        &[(
            C,
            "self.beyond(t).abs() <= self.confusion",
            "self.beyond(t).abs() < self.confusion",
            1,
        )],
    ),
    (
        "confusion from 0 on",
        "max(confusion, 0) in the reply",
        &[(
            C,
            "self.beyond(t).abs() <= self.confusion",
            "self.beyond(t).abs() <= self.confusion.max(0.0)",
            1,
        )],
    ),
    (
        "the size of confusion",
        "|confusion| in the reply",
        &[(
            C,
            "self.beyond(t).abs() <= self.confusion",
            "self.beyond(t).abs() <= self.confusion.abs()",
            1,
        )],
    ),
    (
        "within the circle",
        "D - R without its size",
        &[(C, "self.beyond(t).abs() <= self.confusion", "self.beyond(t) <= self.confusion", 1)],
    ),
    (
        "outside of the circle",
        "R - D without its size",
        &[(C, "self.beyond(t).abs() <= self.confusion", "-self.beyond(t) <= self.confusion", 1)],
    ),
    (
        "squares in the reply",
        "|D² - R²| up to confusion",
        &[(
            C,
            "self.beyond(t).abs() <= self.confusion",
            "(self.distance(t).powi(2) - self.radius * self.radius).abs() <= self.confusion",
            1,
        )],
    ),
    (
        "between two radii",
        "D from R - confusion to R + confusion",
        &[(
            C,
            "self.beyond(t).abs() <= self.confusion",
            "self.radius - self.confusion <= self.distance(t) && self.distance(t) <= self.radius + self.confusion",
            1,
        )],
    ),
    (
        "confusion of the radius",
        "|D - R| up to confusion R",
        &[(
            C,
            "self.beyond(t).abs() <= self.confusion",
            "self.beyond(t).abs() <= self.confusion * self.radius",
            1,
        )],
    ),
    (
        "always no",
        "no question is replied yes",
        &[(C, "self.beyond(t).abs() <= self.confusion", "false", 1)],
    ),
    (
        "always yes",
        "where confusion is not below 0",
        &[(C, "self.beyond(t).abs() <= self.confusion", "self.confusion >= 0.0", 1)],
    ),
];
