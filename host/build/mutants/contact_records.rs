//! Mistakes in the records of pin contacts: the list that is asked for, refusals, the order of the
//! numbers and the mark, in copies of the host's own contact.rs, lister.rs and hall_file.rs.
use crate::patches::Variant;

const C: &str = "contact.rs";
const N: &str = "lister.rs";
const F: &str = "hall_file.rs";

pub const ALL: &[Variant] = &[
    (
        "nothing asked of a contact",
        "`real_roots` in place of `real_roots_touching`",
        &[(
            N,
            "Answer::List(solver.touching(&coeffs, contact.confusion, &touches))",
            "Answer::List(solver.list(&coeffs, contact.confusion))",
            1,
        )],
    ),
    (
        "2^-30 in the list",
        "in place of confusion",
        &[(
            N,
            "Answer::List(solver.touching(&coeffs, contact.confusion, &touches))",
            "Answer::List(solver.touching(&coeffs, 1.0 / (1u64 << 30) as f64, &touches))",
            1,
        )],
    ),
    (
        "the size of confusion in the list",
        "|confusion| as the tolerance",
        &[(
            N,
            "Answer::List(solver.touching(&coeffs, contact.confusion, &touches))",
            "Answer::List(solver.touching(&coeffs, contact.confusion.abs(), &touches))",
            1,
        )],
    ),
    (
        "confusion is no number of 10",
        "infinities and NaN are taken",
        &[(C, "!finite(&self.numbers())", "!finite(&self.numbers()[1..])", 1)],
    ),
    (
        "the centre is no number of 10",
        "12 comes then",
        &[(C, "!finite(&self.numbers())", "!finite(&self.numbers()[..7])", 1)],
    ),
    ("a circle of radius 0", "`< 0.0`", &[(C, "self.radius <= 0.0", "self.radius < 0.0", 1)]),
    (
        "a circle of radius -0",
        "its sign is not looked at",
        &[(C, "self.radius <= 0.0", "self.radius <= 0.0 && self.radius.to_bits() != 1 << 63", 1)],
    ),
    (
        "a confusion below 0 is refused",
        "11 is asked of it too",
        &[(C, "self.radius <= 0.0", "self.radius <= 0.0 || self.confusion < 0.0", 1)],
    ),
    (
        "11 before 10",
        "the radius is asked first",
        &[(
            C,
            "            _ if !finite(&self.numbers()) => refusals::RECORD_NOT_FINITE,\n            _ if self.radius <= 0.0 => refusals::NO_RADIUS,\n",
            "            _ if self.radius <= 0.0 => refusals::NO_RADIUS,\n            _ if !finite(&self.numbers()) => refusals::RECORD_NOT_FINITE,\n",
            1,
        )],
    ),
    (
        "12 before 10",
        "the coefficients are asked first",
        &[(
            C,
            "            _ if !finite(&self.numbers()) => refusals::RECORD_NOT_FINITE,\n            _ if self.radius <= 0.0 => refusals::NO_RADIUS,\n            _ if !finite(&coeffs) => refusals::MADE_NOT_FINITE,\n",
            "            _ if !finite(&coeffs) => refusals::MADE_NOT_FINITE,\n            _ if !finite(&self.numbers()) => refusals::RECORD_NOT_FINITE,\n            _ if self.radius <= 0.0 => refusals::NO_RADIUS,\n",
            1,
        )],
    ),
    (
        "12 before 11",
        "the coefficients before the radius",
        &[(
            C,
            "            _ if self.radius <= 0.0 => refusals::NO_RADIUS,\n            _ if !finite(&coeffs) => refusals::MADE_NOT_FINITE,\n",
            "            _ if !finite(&coeffs) => refusals::MADE_NOT_FINITE,\n            _ if self.radius <= 0.0 => refusals::NO_RADIUS,\n",
            1,
        )],
    ),
    (
        "2 before 12",
        "the length before the coefficients",
        &[(
            C,
            "            _ if !finite(&coeffs) => refusals::MADE_NOT_FINITE,\n            0 | 1 => refusals::TOO_FEW,\n",
            "            0 | 1 => refusals::TOO_FEW,\n            _ if !finite(&coeffs) => refusals::MADE_NOT_FINITE,\n",
            1,
        )],
    ),
    (
        "2 before 11",
        "the length before the radius",
        &[(
            C,
            "            _ if self.radius <= 0.0 => refusals::NO_RADIUS,\n            _ if !finite(&coeffs) => refusals::MADE_NOT_FINITE,\n            0 | 1 => refusals::TOO_FEW,\n",
            "            0 | 1 => refusals::TOO_FEW,\n            _ if self.radius <= 0.0 => refusals::NO_RADIUS,\n            _ if !finite(&coeffs) => refusals::MADE_NOT_FINITE,\n",
            1,
        )],
    ),
    (
        "12 is 1",
        "as for a list",
        &[(
            C,
            "            _ if !finite(&coeffs) => refusals::MADE_NOT_FINITE,\n",
            "            _ if !finite(&coeffs) => refusals::NOT_FINITE,\n",
            1,
        )],
    ),
    (
        "12 is not asked",
        "what overflows is answered",
        &[(C, "            _ if !finite(&coeffs) => refusals::MADE_NOT_FINITE,\n", "", 1)],
    ),
    (
        "a ball that stands is answered",
        "2 is not asked",
        &[(
            C,
            "            0 | 1 => refusals::TOO_FEW,\n",
            "            0 => refusals::TOO_FEW,\n",
            1,
        )],
    ),
    (
        "a straight path is refused",
        "trimmed length 3 too",
        &[(
            C,
            "            0 | 1 => refusals::TOO_FEW,\n",
            "            0..=3 => refusals::TOO_FEW,\n",
            1,
        )],
    ),
    (
        "places, speeds, bends",
        "x and y in turn",
        &[(
            C,
            "pub fn new([confusion, x0, x1, x2, y0, y1, y2, cx, cy, radius]: [f64; 10])",
            "pub fn new([confusion, x0, y0, x1, y1, x2, y2, cx, cy, radius]: [f64; 10])",
            1,
        )],
    ),
    (
        "along before across",
        "y before x",
        &[(
            C,
            "pub fn new([confusion, x0, x1, x2, y0, y1, y2, cx, cy, radius]: [f64; 10])",
            "pub fn new([confusion, y0, y1, y2, x0, x1, x2, cx, cy, radius]: [f64; 10])",
            1,
        )],
    ),
    (
        "R before the centre",
        "the circle's numbers in another order",
        &[(
            C,
            "pub fn new([confusion, x0, x1, x2, y0, y1, y2, cx, cy, radius]: [f64; 10])",
            "pub fn new([confusion, x0, x1, x2, y0, y1, y2, radius, cx, cy]: [f64; 10])",
            1,
        )],
    ),
    (
        "cy before cx",
        "the circle's centre is exchanged",
        &[(
            C,
            "pub fn new([confusion, x0, x1, x2, y0, y1, y2, cx, cy, radius]: [f64; 10])",
            "pub fn new([confusion, x0, x1, x2, y0, y1, y2, cy, cx, radius]: [f64; 10])",
            1,
        )],
    ),
    (
        "the circle first",
        "before the path",
        &[(
            C,
            "pub fn new([confusion, x0, x1, x2, y0, y1, y2, cx, cy, radius]: [f64; 10])",
            "pub fn new([confusion, cx, cy, radius, x0, x1, x2, y0, y1, y2]: [f64; 10])",
            1,
        )],
    ),
    (
        "confusion last",
        "behind R",
        &[(
            C,
            "pub fn new([confusion, x0, x1, x2, y0, y1, y2, cx, cy, radius]: [f64; 10])",
            "pub fn new([x0, x1, x2, y0, y1, y2, cx, cy, radius, confusion]: [f64; 10])",
            1,
        )],
    ),
    (
        "bends first",
        "the highest power first",
        &[(
            C,
            "pub fn new([confusion, x0, x1, x2, y0, y1, y2, cx, cy, radius]: [f64; 10])",
            "pub fn new([confusion, x2, x1, x0, y2, y1, y0, cx, cy, radius]: [f64; 10])",
            1,
        )],
    ),
    (
        "the mark CP",
        "in place of PC",
        &[(F, "Kind::Contact => \"PC\",", "Kind::Contact => \"CP\",", 1)],
    ),
];
