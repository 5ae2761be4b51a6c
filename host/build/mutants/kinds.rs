//! Mistakes in the kinds of roots: in the yes replies that a copy of the reference build counts,
//! and in copies of the host's own kind.rs and lister.rs.
use crate::patches::Variant;

const P: &str = "poly.rs";
const K: &str = "kind.rs";
const N: &str = "lister.rs";

/// Where a chain takes an item in.
const TAKEN: &str = "yes += 1 + items[k].2;";

pub const ALL: &[Variant] = &[
    (
        "flat for a pair",
        "a pair's yes does not count",
        &[(
            P,
            "if touches_at(y) { 2 } else { 0 }, 1);",
            "if touches_at(y) { 2 } else { 0 }, 0);",
            1,
        )],
    ),
    ("flat for a link", "a link's yes does not count", &[(P, TAKEN, "yes += items[k].2;", 1)]),
    (
        "flat for a link of two double roots",
        "its yes counts beside a simple root alone",
        &[(P, TAKEN, "yes += u32::from(items[k].1 < 2 || items[k - 1].1 < 2) + items[k].2;", 1)],
    ),
    ("the first item's kind", "linked ones do not change it", &[(P, TAKEN, "", 1)]),
    (
        "the last item's kind",
        "linked ones before do not count",
        &[(P, TAKEN, "yes = items[k].2;", 1)],
    ),
    (
        "brush for a link replied no",
        "or for none",
        &[(
            P,
            "            let Some(y) = link else {\n",
            "            let Some(y) = link else {\n                yes += 1;\n",
            1,
        )],
    ),
    (
        "brush for a pair replied no",
        "of the root after it",
        &[(
            P,
            "mut yes) = items[k];",
            "mut yes) = items[k];\n        yes += items[..k].last().map_or(0, |it| it.2 * u32::from(it.1 == 0));",
            1,
        )],
    ),
    (
        "a yes that formed the root before",
        "counts for the next one too",
        &[(
            P,
            "mut yes) = items[k];",
            "mut yes) = items[k];\n        yes += items[..k].last().map_or(0, |it| it.2 * u32::from(it.1 > 0));",
            1,
        )],
    ),
    (
        "a yes for all roots",
        "one pair replied yes makes them brushes",
        &[(
            P,
            "RealRoot { yes, ..r }",
            "RealRoot { yes: yes + items.iter().map(|it| it.1 * it.2).sum::<u32>(), ..r }",
            1,
        )],
    ),
    (
        "crossing for multiplicity 2",
        "`1 | 2`",
        &[(K, "(1, _) => Kind::Crossing", "(1 | 2, _) => Kind::Crossing", 1)],
    ),
    (
        "flat for multiplicity 1",
        "no crossing",
        &[(K, "(1, _) => Kind::Crossing", "(1, _) => Kind::Flat", 1)],
    ),
    (
        "crossing for an even multiplicity",
        "`m % 2 == 0`",
        &[(K, "(1, _) => Kind::Crossing", "(m, _) if m % 2 == 0 => Kind::Crossing", 1)],
    ),
    (
        "crossing for an odd multiplicity",
        "`m % 2 == 1`",
        &[(K, "(1, _) => Kind::Crossing", "(m, _) if m % 2 == 1 => Kind::Crossing", 1)],
    ),
    ("no brush", "flat for each", &[(K, "(_, true) => Kind::Brush", "(_, true) => Kind::Flat", 1)]),
    (
        "no flat root",
        "brush for each",
        &[(K, "(_, false) => Kind::Flat", "(_, false) => Kind::Brush", 1)],
    ),
    (
        "brushes of multiplicity 2 alone",
        "flat above",
        &[(
            K,
            "(_, true) => Kind::Brush,\n            (_, false)",
            "(2, true) => Kind::Brush,\n            (_, _)",
            1,
        )],
    ),
    (
        "c and f exchanged",
        "in the lines",
        &[
            (K, "Kind::Crossing => 'c'", "Kind::Crossing => 'f'", 1),
            (K, "Kind::Flat => 'f'", "Kind::Flat => 'c'", 1),
        ],
    ),
    (
        "b and f exchanged",
        "in the lines",
        &[
            (K, "Kind::Brush => 'b'", "Kind::Brush => 'f'", 1),
            (K, "Kind::Flat => 'f'", "Kind::Flat => 'b'", 1),
        ],
    ),
    (
        "the kind before the multiplicity",
        "the two are exchanged",
        &[(N, "write!(f, \" {m} {}\", kind.letter())", "write!(f, \" {} {m}\", kind.letter())", 1)],
    ),
    (
        "no blank before the kind",
        "as in 1c",
        &[(N, "write!(f, \" {m} {}\", kind.letter())", "write!(f, \" {m}{}\", kind.letter())", 1)],
    ),
    (
        "kinds in words",
        "in place of letters",
        &[(N, "write!(f, \" {m} {}\", kind.letter())", "write!(f, \" {m} {}\", kind.word())", 1)],
    ),
    (
        "the last root's kind alone",
        "one letter for the line",
        &[(
            N,
            "listed.map_or(Ok(()), |(m, kind)| write!(f, \" {m} {}\", kind.letter()))\n        })",
            "listed.map_or(Ok(()), |(m, _)| write!(f, \" {m}\"))\n        })?;\n        \
             self.roots().last().and_then(|r| r.1).map_or(Ok(()), |(_, kind)| write!(f, \" {}\", kind.letter()))",
            1,
        )],
    ),
    (
        "a contact's kinds by multiplicity",
        "as of a plain list",
        &[(
            N,
            "Answer::List(solver.touching(&coeffs, contact.confusion, &touches))",
            "let roots = solver.touching(&coeffs, contact.confusion, &touches);\n                \
             Answer::List(roots.iter().map(|r| Root::new(r.value, r.multiplicity)).collect())",
            1,
        )],
    ),
];
