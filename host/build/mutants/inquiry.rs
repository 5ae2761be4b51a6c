//! Mistakes in the inquiry, operator by operator.
use crate::patches::Variant;

const P: &str = "poly.rs";

pub const ALL: &[Variant] = &[
    (
        "asked in the scaled variable",
        "y in place of x",
        &[(P, ".is_some_and(|r| touches(r.value))", ".is_some_and(|_| touches(y))", 1)],
    ),
    (
        "a place beyond the range touches",
        "where x is not finite",
        &[(P, ".is_some_and(|r| touches(r.value))", ".is_none_or(|r| touches(r.value))", 1)],
    ),
    (
        "a place beyond the range is asked about",
        "where x is not finite",
        &[(
            P,
            "poly.unscaled(y, 1).is_some_and(|r| touches(r.value))",
            "touches(ldexp(y, poly.e))",
            1,
        )],
    ),
    (
        "one pair counts as two",
        "`pairs.len >= 1`",
        &[(P, "if pairs.len == 2 && pairs.half[1]", "if pairs.len >= 1 && pairs.half[1]", 1)],
    ),
    (
        "the wider pair first",
        "`half[1] > half[0]`",
        &[(P, "pairs.half[1] < pairs.half[0]", "pairs.half[1] > pairs.half[0]", 1)],
    ),
    (
        "a reach of any length",
        "half does not bound it",
        &[(P, ".fold(pairs.half[k], |r, it|", ".fold(f64::INFINITY, |r, it|", 1)],
    ),
    (
        "a reach by the roots alone",
        "the pair before does not bound it",
        &[(P, "        let reach = items[..n]\n", "        let reach = items[..roots.len]\n", 1)],
    ),
    (
        "a reach by the last item",
        "the smallest is not taken",
        &[(
            P,
            "crate::truth::methods::min(r, 0.5 * (it.0 - m).abs())",
            "(0.0 * r + 0.5 * (it.0 - m).abs())",
            1,
        )],
    ),
    (
        "a reach without abs",
        "the distances with their signs",
        &[(
            P,
            "crate::truth::methods::min(r, 0.5 * (it.0 - m).abs())",
            "crate::truth::methods::min(r, 0.5 * (it.0 - m))",
            1,
        )],
    ),
    (
        "a pair sought above its middle",
        "from m up",
        &[(
            P,
            "poly.extremum(m, m - reach, m + reach, tol)",
            "poly.extremum(m, m, m + reach, tol)",
            1,
        )],
    ),
    (
        "a pair sought below its middle",
        "from m down",
        &[(
            P,
            "poly.extremum(m, m - reach, m + reach, tol)",
            "poly.extremum(m, m - reach, m, tol)",
            1,
        )],
    ),
    (
        "a pair apart from one item",
        "any in place of all",
        &[(
            P,
            "            .all(|it| (it.0 - y).abs() > tol",
            "            .any(|it| (it.0 - y).abs() > tol",
            1,
        )],
    ),
    (
        "a pair always kept",
        "items near it are not looked at",
        &[(
            P,
            "            .all(|it| (it.0 - y).abs() > tol * (poly.unit + y.abs()))",
            "            .all(|_| true)",
            1,
        )],
    ),
    (
        "a pair apart from the roots",
        "the pair before is not looked at",
        &[(
            P,
            "        if items[..n]\n            .iter()\n            .all(",
            "        if items[..roots.len]\n            .iter()\n            .all(",
            1,
        )],
    ),
    (
        "a pair apart by the distance's sign",
        "without abs",
        &[(
            P,
            "(it.0 - y).abs() > tol * (poly.unit + y.abs())",
            "(it.0 - y) > tol * (poly.unit + y.abs())",
            1,
        )],
    ),
    (
        "a pair apart by 1 + |y|",
        "1 in place of the unit",
        &[(
            P,
            "(it.0 - y).abs() > tol * (poly.unit + y.abs())",
            "(it.0 - y).abs() > tol * (1.0 + y.abs())",
            1,
        )],
    ),
    (
        "a pair apart by the item's size",
        "|it| in place of |y|",
        &[(
            P,
            "(it.0 - y).abs() > tol * (poly.unit + y.abs())",
            "(it.0 - y).abs() > tol * (poly.unit + it.0.abs())",
            1,
        )],
    ),
    (
        "a pair apart by y's sign",
        "unit + y",
        &[(
            P,
            "(it.0 - y).abs() > tol * (poly.unit + y.abs())",
            "(it.0 - y).abs() > tol * (poly.unit + y)",
            1,
        )],
    ),
    (
        "a pair apart by the band",
        "with the noise",
        &[(
            P,
            "(it.0 - y).abs() > tol * (poly.unit + y.abs())",
            "(it.0 - y).abs() > poly.band(y, tol)",
            1,
        )],
    ),
    (
        "half the distance to a pair",
        "half in place of the distance",
        &[(
            P,
            "(it.0 - y).abs() > tol * (poly.unit + y.abs())",
            "0.5 * (it.0 - y).abs() > tol * (poly.unit + y.abs())",
            1,
        )],
    ),
    (
        "a pair is asked before items near it",
        "the question first",
        &[(
            P,
            "        if items[..n]\n            .iter()\n            .all(|it| (it.0 - y).abs() > tol * (poly.unit + y.abs()))\n        {\n            \
             items[n] = (y, if touches_at(y) { 2 } else { 0 }, 1);",
            "        let yes = touches_at(y);\n        if items[..n]\n            .iter()\n            \
             .all(|it| (it.0 - y).abs() > tol * (poly.unit + y.abs()))\n        {\n            items[n] = (y, if yes { 2 } else { 0 }, 1);",
            1,
        )],
    ),
    (
        "a touching pair counts once",
        "1 in place of 2",
        &[(P, "if touches_at(y) { 2 } else { 0 }", "if touches_at(y) { 1 } else { 0 }", 1)],
    ),
    (
        "replies exchanged for pairs",
        "no in place of yes",
        &[(P, "if touches_at(y) { 2 } else { 0 }", "if touches_at(y) { 0 } else { 2 }", 1)],
    ),
    (
        "items in falling order",
        "the largest first",
        &[(
            P,
            "items.sort_by(|a, b| a.0.total_cmp(&b.0));",
            "items.sort_by(|a, b| b.0.total_cmp(&a.0));",
            1,
        )],
    ),
    (
        "items not sorted",
        "pairs after the roots",
        &[(P, "        items.sort_by(|a, b| a.0.total_cmp(&b.0));\n", "", 1)],
    ),
    (
        "items of equal place in the other order",
        "ties are exchanged among the items",
        &[(
            P,
            "        items.sort_by(|a, b| a.0.total_cmp(&b.0));\n",
            "        items.reverse();\n        items.sort_by(|a, b| a.0.total_cmp(&b.0));\n",
            1,
        )],
    ),
    (
        "-0 and +0 are ties among items",
        "`partial_cmp`",
        &[(
            P,
            "items.sort_by(|a, b| a.0.total_cmp(&b.0));",
            "items.sort_by(|a, b| a.0.partial_cmp(&b.0).unwrap_or(std::cmp::Ordering::Equal));",
            1,
        )],
    ),
    (
        "separators are listed",
        "multiplicity 0 begins a chain",
        &[(
            P,
            "        if mult == 0 {\n            k += 1;\n            continue;\n        }\n",
            "",
            1,
        )],
    ),
    (
        "a first double root does not touch",
        "a chain begins with no touching point",
        &[(P, "(u32::from(mult >= 2), first)", "(0, first)", 1)],
    ),
    (
        "a first simple root touches",
        "`mult >= 1`",
        &[(P, "(u32::from(mult >= 2), first)", "(u32::from(mult >= 1), first)", 1)],
    ),
    (
        "a first triple root touches",
        "`mult >= 3`",
        &[(P, "(u32::from(mult >= 2), first)", "(u32::from(mult >= 3), first)", 1)],
    ),
    (
        "a linked triple root touches",
        "`items[k].1 >= 3`",
        &[(P, "1 + u32::from(items[k].1 >= 2)", "1 + u32::from(items[k].1 >= 3)", 1)],
    ),
    (
        "a linked simple root touches",
        "`items[k].1 >= 1`",
        &[(P, "1 + u32::from(items[k].1 >= 2)", "1 + u32::from(items[k].1 >= 1)", 1)],
    ),
    (
        "links do not touch",
        "a link adds no touching point",
        &[(
            P,
            "touching += 1 + u32::from(items[k].1 >= 2);",
            "touching += u32::from(items[k].1 >= 2);",
            1,
        )],
    ),
    (
        "links across separators",
        "`items[k + 1].1 >= 0`",
        &[(P, "while k + 1 < n && items[k + 1].1 > 0 {", "while k + 1 < n {", 1)],
    ),
    (
        "links to double roots alone",
        "`items[k + 1].1 > 1`",
        &[(
            P,
            "while k + 1 < n && items[k + 1].1 > 0 {",
            "while k + 1 < n && items[k + 1].1 > 1 {",
            1,
        )],
    ),
    (
        "links from the first item",
        "lo is the chain's first place",
        &[(
            P,
            "let (lo, hi) = (items[k].0, items[k + 1].0);",
            "let (lo, hi) = (first, items[k + 1].0);",
            1,
        )],
    ),
    (
        "links sought from the lower end",
        "lo in place of the middle",
        &[(P, ".extremum(0.5 * (lo + hi), lo, hi, tol)", ".extremum(lo, lo, hi, tol)", 1)],
    ),
    (
        "links sought from the upper end",
        "hi in place of the middle",
        &[(P, ".extremum(0.5 * (lo + hi), lo, hi, tol)", ".extremum(hi, lo, hi, tol)", 1)],
    ),
    (
        "the link's middle by two halves",
        "lo / 2 + hi / 2",
        &[(
            P,
            ".extremum(0.5 * (lo + hi), lo, hi, tol)",
            ".extremum(0.5 * lo + 0.5 * hi, lo, hi, tol)",
            1,
        )],
    ),
    (
        "a link at the lower root",
        "`lo <= y`",
        &[(P, "lo < y && y < hi && touches_at(y)", "lo <= y && y < hi && touches_at(y)", 1)],
    ),
    (
        "a link at the upper root",
        "`y <= hi`",
        &[(P, "lo < y && y < hi && touches_at(y)", "lo < y && y <= hi && touches_at(y)", 1)],
    ),
    (
        "links without a question",
        "every critical point between links",
        &[(P, "lo < y && y < hi && touches_at(y)", "lo < y && y < hi", 1)],
    ),
    (
        "a chain's first multiplicity",
        "linked ones do not add up",
        &[(P, "            mult += items[k].1;\n", "", 1)],
    ),
    ("a link's place is its first item", "at stays", &[(P, "            at = y;\n", "", 1)]),
    (
        "a link's place is its last item",
        "the item in place of the critical point",
        &[(P, "            at = y;\n", "            at = items[k].0;\n", 1)],
    ),
    (
        "two touching points at the last link",
        "`1 | 2`",
        &[(P, "            1 => at,\n", "            1 | 2 => at,\n", 1)],
    ),
    (
        "one touching point at the middle",
        "the midpoint from 1 on",
        &[(P, "            1 => at,\n", "", 1)],
    ),
    (
        "the midpoint of the first and the link",
        "first and at",
        &[(P, "_ => 0.5 * (first + items[k].0),", "_ => 0.5 * (first + at),", 1)],
    ),
    (
        "the midpoint by two halves",
        "first / 2 + last / 2",
        &[(P, "_ => 0.5 * (first + items[k].0),", "_ => 0.5 * first + 0.5 * items[k].0,", 1)],
    ),
    (
        "a chain's last item",
        "in place of the midpoint",
        &[(P, "_ => 0.5 * (first + items[k].0),", "_ => items[k].0,", 1)],
    ),
];
