//! Mistakes in the closing total, in a copy of the host's own lister.rs.
use crate::patches::Variant;

const N: &str = "lister.rs";

pub const ALL: &[Variant] = &[
    (
        "refused lines do not count",
        "answered ones alone",
        &[(
            N,
            "total.records += 1;",
            "total.records += usize::from(!matches!(answer, Answer::Refused(_)));",
            1,
        )],
    ),
    (
        "quadratics do not count",
        "as their places do not",
        &[(
            N,
            "total.records += 1;",
            "total.records += usize::from(!matches!(answer, Answer::Quadratic(_)));",
            1,
        )],
    ),
    (
        "lines without a mark do not count",
        "`--` is no record",
        &[(
            N,
            "let total = Total::of(lines.iter().map(",
            "let total = Total::of(lines.iter().filter(|line| line.kind.is_some()).map(",
            1,
        )],
    ),
    (
        "lines without a root do not count",
        "the lines that list one alone",
        &[(N, "total.records += 1;", "total.records += usize::from(!times.is_empty());", 1)],
    ),
    (
        "a quadratic's places count",
        "each once",
        &[(
            N,
            "filter_map(|(_, listed)| listed);\n            let times",
            "map(|(_, listed)| listed.unwrap_or((1, kind::Kind::Crossing)));\n            let times",
            1,
        )],
    ),
    (
        "a refused record counts as a root",
        "its number as one",
        &[(
            N,
            "total.roots += times.len();",
            "total.roots += times.len().max(usize::from(matches!(answer, Answer::Refused(_))));",
            1,
        )],
    ),
    (
        "roots by their multiplicity",
        "the sum in place of the number",
        &[(
            N,
            "total.roots += times.len();",
            "total.roots += times.iter().sum::<u64>() as usize;",
            1,
        )],
    ),
    (
        "multiplicities that count once",
        "the number in place of the sum",
        &[(
            N,
            "total.multiplicities += times.iter().sum::<u64>();",
            "total.multiplicities += times.len() as u64;",
            1,
        )],
    ),
    (
        "a double root counts once",
        "multiplicities above 2 as they are",
        &[(
            N,
            "total.multiplicities += times.iter().sum::<u64>();",
            "total.multiplicities += times.iter().map(|m| if *m == 2 { 1 } else { *m }).sum::<u64>();",
            1,
        )],
    ),
    (
        "the largest multiplicity of a line",
        "in place of the sum",
        &[(
            N,
            "total.multiplicities += times.iter().sum::<u64>();",
            "total.multiplicities += times.iter().max().unwrap_or(&0);",
            1,
        )],
    ),
    (
        "a crank's roots do not count",
        "since questions are replied no",
        &[(
            N,
            "total.roots += times.len();",
            "total.roots += if matches!(answer, Answer::Crank(..)) { 0 } else { times.len() };",
            1,
        )],
    ),
    (
        "brushes do not count",
        "crossings and flat roots alone",
        &[(
            N,
            "filter_map(|(_, listed)| listed);\n            let times",
            "filter_map(|(_, listed)| listed.filter(|l| l.1 != kind::Kind::Brush));\n            let times",
            1,
        )],
    ),
    (
        "flat roots do not count",
        "what the tolerance joins",
        &[(
            N,
            "filter_map(|(_, listed)| listed);\n            let times",
            "filter_map(|(_, listed)| listed.filter(|l| l.1 != kind::Kind::Flat));\n            let times",
            1,
        )],
    ),
    (
        "the roots of the last record alone",
        "`=` in place of `+=`",
        &[(N, "total.roots += times.len();", "total.roots = times.len();", 1)],
    ),
    (
        "the total first",
        "before the lines",
        &[(N, "format!(\"{text}{total}\\n\")", "format!(\"{total}\\n{text}\")", 1)],
    ),
    (
        "the total before the last line",
        "which it counts",
        &[(
            N,
            "    format!(\"{text}{total}\\n\").into_bytes()\n",
            "    match text.trim_end().rsplit_once('\\n') {\n        Some((before, last)) => format!(\"{before}\\n{total}\\n{last}\\n\").into_bytes(),\n        None => format!(\"{text}{total}\\n\").into_bytes(),\n    }\n",
            1,
        )],
    ),
    (
        "the total without the last record",
        "counted before it is listed",
        &[(
            N,
            "let total = Total::of(lines.iter().map(",
            "let total = Total::of(lines[..lines.len().max(1) - 1].iter().map(",
            1,
        )],
    ),
    (
        "no total of an empty file",
        "it prints nothing",
        &[(
            N,
            "    format!(\"{text}{total}\\n\").into_bytes()\n",
            "    if lines.is_empty() {\n        return Vec::new();\n    }\n    format!(\"{text}{total}\\n\").into_bytes()\n",
            1,
        )],
    ),
    (
        "no total of a long file",
        "its line alone",
        &[(
            N,
            "    format!(\"{text}{total}\\n\").into_bytes()\n",
            "    if bytes.len() > 65_536 {\n        return text.into_bytes();\n    }\n    format!(\"{text}{total}\\n\").into_bytes()\n",
            1,
        )],
    ),
    (
        "a long file has no line",
        "0 in place of 1",
        &[(
            N,
            "let total = Total::of(lines.iter().map(",
            "let total = Total::of(lines.iter().filter(|line| line.number > 0).map(",
            1,
        )],
    ),
    (
        "no total where reading ends",
        "behind 6, 7 and 8",
        &[(
            N,
            "    format!(\"{text}{total}\\n\").into_bytes()\n",
            "    if items(bytes).last().is_some_and(|item| item.record.is_err()) {\n        return text.into_bytes();\n    }\n    format!(\"{text}{total}\\n\").into_bytes()\n",
            1,
        )],
    ),
    (
        "roots before records",
        "the first two numbers are exchanged",
        &[(
            N,
            "self.records, self.roots, self.multiplicities",
            "self.roots, self.records, self.multiplicities",
            1,
        )],
    ),
    (
        "multiplicities before roots",
        "the last two numbers are exchanged",
        &[(
            N,
            "self.records, self.roots, self.multiplicities",
            "self.records, self.multiplicities, self.roots",
            1,
        )],
    ),
    (
        "the total without multiplicities",
        "two numbers",
        &[(
            N,
            "write!(f, \"T {} {} {}\", self.records, self.roots, self.multiplicities)",
            "write!(f, \"T {} {}\", self.records, self.roots)",
            1,
        )],
    ),
    ("no mark of the total", "three numbers alone", &[(N, "\"T {} {} {}\"", "\"{} {} {}\"", 1)]),
];
