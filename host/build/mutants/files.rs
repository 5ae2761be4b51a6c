//! Mistakes in the hall file: its records, its refusals and its lines, in copies of the host's own
//! format.rs and lister.rs.
use crate::patches::Variant;

const F: &str = "hall_file.rs";
const N: &str = "lister.rs";

pub const ALL: &[Variant] = &[
    (
        "65,536 bytes are too many",
        "`>=` in the test of the length",
        &[(F, "if bytes.len() > MOST_BYTES {", "if bytes.len() >= MOST_BYTES {", 1)],
    ),
    (
        "65,537 bytes are read",
        "one byte more",
        &[(F, "if bytes.len() > MOST_BYTES {", "if bytes.len() > MOST_BYTES + 1 {", 1)],
    ),
    (
        "a long file has line 1",
        "1 in place of 0",
        &[(F, "number: 0, at: 0", "number: 1, at: 0", 1)],
    ),
    (
        "records from 0",
        "the first has the number 0",
        &[(F, "number: all.len() + 1,", "number: all.len(),", 1)],
    ),
    (
        "reading goes on behind a refused mark",
        "two bytes on",
        &[(
            F,
            "map_or(bytes.len() - at, Record::size)",
            "map_or(2.min(bytes.len() - at), Record::size)",
            1,
        )],
    ),
    (
        "a cut mark is unknown",
        "6 in place of 7",
        &[(
            F,
            "return (None, Err(refusals::CUT));",
            "return (None, Err(refusals::UNKNOWN_MARK));",
            1,
        )],
    ),
    (
        "an unknown mark is cut",
        "7 in place of 6",
        &[(
            F,
            "None => (None, Err(refusals::UNKNOWN_MARK)),",
            "None => (None, Err(refusals::CUT)),",
            1,
        )],
    ),
    (
        "marks in lower case",
        "`pl` is a mark too",
        &[(
            F,
            "kind.mark().as_bytes() == mark",
            "kind.mark().as_bytes().eq_ignore_ascii_case(mark)",
            1,
        )],
    ),
    (
        "a mark by its first letter",
        "the second is not looked at",
        &[(F, "kind.mark().as_bytes() == mark", "kind.mark().as_bytes()[0] == mark[0]", 1)],
    ),
    (
        "33 coefficients are read",
        "`> 33`",
        &[(F, "if usize::from(count) > MOST_COEFFICIENTS {", "if usize::from(count) > 33 {", 1)],
    ),
    (
        "32 coefficients are too many",
        "`>=` in the test of the count",
        &[(
            F,
            "if usize::from(count) > MOST_COEFFICIENTS {",
            "if usize::from(count) >= MOST_COEFFICIENTS {",
            1,
        )],
    ),
    (
        "cut before too many",
        "7 is asked before 8",
        &[(
            F,
            "if usize::from(count) > MOST_COEFFICIENTS {",
            "if rest.len() < 8 * (1 + usize::from(count)) {\n                return Err(refusals::CUT);\n            }\n            \
             if usize::from(count) > MOST_COEFFICIENTS {",
            1,
        )],
    ),
    (
        "too many is cut",
        "7 in place of 8",
        &[(F, "return Err(refusals::COUNT_TOO_LARGE);", "return Err(refusals::CUT);", 1)],
    ),
    (
        "the tolerance behind the coefficients",
        "the last number of a list",
        &[(
            F,
            "            let (tolerance, rest) = double(rest)?;\n            Ok(Record::List { tolerance, coeffs: doubles(rest, count.into())? })",
            "            let mut coeffs = doubles(rest, usize::from(count) + 1)?;\n            let tolerance = coeffs.pop().ok_or(refusals::CUT)?;\n            \
             Ok(Record::List { tolerance, coeffs })",
            1,
        )],
    ),
    (
        "angular before confusion",
        "the first two numbers of a quadratic are exchanged",
        &[(
            F,
            "let [confusion, angular, a, b, c] = array(bytes)?;",
            "let [angular, confusion, a, b, c] = array(bytes)?;",
            1,
        )],
    ),
    (
        "c first",
        "the numbers of a quadratic ascend",
        &[(
            F,
            "let [confusion, angular, a, b, c] = array(bytes)?;",
            "let [confusion, angular, c, b, a] = array(bytes)?;",
            1,
        )],
    ),
    (
        "the tolerances last",
        "confusion and angular behind a, b, c",
        &[(
            F,
            "let [confusion, angular, a, b, c] = array(bytes)?;",
            "let [a, b, c, confusion, angular] = array(bytes)?;",
            1,
        )],
    ),
    (
        "e first",
        "the constant of a crank before the others",
        &[(
            F,
            "let [confusion, a2, b2, c1, d1, e] = array(bytes)?;",
            "let [confusion, e, a2, b2, c1, d1] = array(bytes)?;",
            1,
        )],
    ),
    (
        "confusion behind the terms",
        "the last number of a crank",
        &[(
            F,
            "let [confusion, a2, b2, c1, d1, e] = array(bytes)?;",
            "let [a2, b2, c1, d1, e, confusion] = array(bytes)?;",
            1,
        )],
    ),
    (
        "the highest byte first",
        "numbers in the other order of bytes",
        &[(F, "f64::from_le_bytes(*front)", "f64::from_be_bytes(*front)", 1)],
    ),
    (
        "a cut number is 0",
        "fewer bytes than the record needs are filled up",
        &[(
            F,
            "let (front, rest) = bytes.split_first_chunk().ok_or(refusals::CUT)?;",
            "let (front, rest) = bytes.split_first_chunk().unwrap_or((&[0; 8], &[]));",
            1,
        )],
    ),
    (
        "constants are answered",
        "trimmed length 1 is not refused",
        &[(
            N,
            "        0 | 1 => refusals::TOO_FEW,\n        2..=5 => 0,",
            "        0 => refusals::TOO_FEW,\n        1..=5 => 0,",
            1,
        )],
    ),
    (
        "lines are refused in files",
        "trimmed length 2 is refused with 2",
        &[(
            N,
            "        0 | 1 => refusals::TOO_FEW,\n        2..=5 => 0,",
            "        0..=2 => refusals::TOO_FEW,\n        3..=5 => 0,",
            1,
        )],
    ),
    (
        "quintics are answered",
        "trimmed length 6 is not refused",
        &[(
            N,
            "        2..=5 => 0,\n        _ => refusals::TOO_MANY,",
            "        2..=6 => 0,\n        _ => refusals::TOO_MANY,",
            1,
        )],
    ),
    (
        "a zero list before what is not finite",
        "2 is asked before 1",
        &[(
            N,
            "        _ if !finite(coeffs) => refusals::NOT_FINITE,\n        0 | 1 => refusals::TOO_FEW,",
            "        0 | 1 => refusals::TOO_FEW,\n        _ if !finite(coeffs) => refusals::NOT_FINITE,",
            1,
        )],
    ),
    (
        "a long list before what is not finite",
        "3 is asked before 1",
        &[(
            N,
            "        _ if !finite(coeffs) => refusals::NOT_FINITE,\n        0 | 1 => refusals::TOO_FEW,\n        2..=5 => 0,\n        _ => refusals::TOO_MANY,",
            "        6.. => refusals::TOO_MANY,\n        _ if !finite(coeffs) => refusals::NOT_FINITE,\n        0 | 1 => refusals::TOO_FEW,\n        _ => 0,",
            1,
        )],
    ),
    (
        "-0 is no zero",
        "trailing zeros are +0 alone",
        &[(N, "rposition(|c| *c != 0.0)", "rposition(|c| c.to_bits() != 0)", 1)],
    ),
    (
        "a quadratic that is not finite is answered",
        "1 is not asked",
        &[(
            N,
            "            if !finite(abc) {\n                return Answer::Refused(refusals::NOT_FINITE);\n            }\n",
            "",
            1,
        )],
    ),
    (
        "confusion that is not finite is refused",
        "tolerances count among the numbers",
        &[(
            N,
            "            if !finite(abc) {",
            "            if !finite(abc) || !confusion.is_finite() {",
            1,
        )],
    ),
    (
        "places that are not finite are printed",
        "5 is not asked of a quadratic",
        &[(
            N,
            "match finite(&solution.places()) {",
            "match finite(&solution.places()) || !finite(abc) || true {",
            1,
        )],
    ),
    (
        "a quadratic's 5 is 1",
        "1 in place of 5",
        &[(
            N,
            "false => Answer::Refused(refusals::ANSWER_NOT_FINITE),",
            "false => Answer::Refused(refusals::NOT_FINITE),",
            1,
        )],
    ),
    (
        "a crank that is not finite is solved",
        "1 is not asked",
        &[(
            N,
            "            if !finite(terms) {\n                return Answer::Refused(refusals::NOT_FINITE);\n            }\n",
            "",
            1,
        )],
    ),
    (
        "a crank's quartic that is not finite is refused with 1",
        "1 in place of 5",
        &[(
            N,
            "_ if !finite(&quartic) => Answer::Refused(refusals::ANSWER_NOT_FINITE),",
            "_ if !finite(&quartic) => Answer::Refused(refusals::NOT_FINITE),",
            1,
        )],
    ),
    (
        "a constant crank is answered",
        "2 is not asked",
        &[(N, "                0 | 1 => Answer::Refused(refusals::TOO_FEW),\n", "", 1)],
    ),
    (
        "a crank's 2 before 5",
        "the length is asked first",
        &[(
            N,
            "                _ if !finite(&quartic) => Answer::Refused(refusals::ANSWER_NOT_FINITE),\n                0 | 1 => Answer::Refused(refusals::TOO_FEW),",
            "                0 | 1 => Answer::Refused(refusals::TOO_FEW),\n                _ if !finite(&quartic) => Answer::Refused(refusals::ANSWER_NOT_FINITE),",
            1,
        )],
    ),
    (
        "digits in lower case",
        "a to f",
        &[(N, "write!(f, \" {:016X}\", bits(x))", "write!(f, \" {:016x}\", bits(x))", 1)],
    ),
    (
        "digits without zeros in front",
        "as many as there are",
        &[(N, "write!(f, \" {:016X}\", bits(x))", "write!(f, \" {:X}\", bits(x))", 1)],
    ),
    (
        "multiplicities before places",
        "the two are exchanged",
        &[(
            N,
            "            write!(f, \" {:016X}\", bits(x))?;\n            listed.map_or(Ok(()), |(m, kind)| write!(f, \" {m} {}\", kind.letter()))",
            "            listed.map_or(Ok(()), |(m, kind)| write!(f, \" {m} {}\", kind.letter()))?;\n            write!(f, \" {:016X}\", bits(x))",
            1,
        )],
    ),
    (
        "simple roots without a multiplicity",
        "1 is not printed",
        &[(
            N,
            "|(m, kind)| write!(f, \" {m} {}\", kind.letter())",
            "|(m, kind)| write!(f, \"{} {}\", if m > 1 { format!(\" {m}\") } else { String::new() }, kind.letter())",
            1,
        )],
    ),
    (
        "k behind the count",
        "the two are exchanged",
        &[(N, "write!(f, \"ok {k} {}\", roots.len())", "write!(f, \"ok {} {k}\", roots.len())", 1)],
    ),
    (
        "k from 1",
        "1 to 8",
        &[(
            N,
            "write!(f, \"ok {k} {}\", roots.len())",
            "write!(f, \"ok {} {}\", k + 1, roots.len())",
            1,
        )],
    ),
    (
        "without a count",
        "a list's roots follow `ok`",
        &[(N, "write!(f, \"ok {}\", roots.len())", "write!(f, \"ok\")", 1)],
    ),
    (
        "the sum of the multiplicities",
        "in place of the number of roots",
        &[(
            N,
            "write!(f, \"ok {}\", roots.len())",
            "write!(f, \"ok {}\", roots.iter().map(|r| r.multiplicity).sum::<u32>())",
            1,
        )],
    ),
    (
        "one and linear exchanged",
        "the words of one place",
        &[(
            N,
            "Solution::One(_) => \"one\",\n            Solution::Linear(_) => \"linear\",",
            "Solution::One(_) => \"linear\",\n            Solution::Linear(_) => \"one\",",
            1,
        )],
    ),
    (
        "degenerate and empty exchanged",
        "the words of no place",
        &[(
            N,
            "Solution::Degenerate => \"degenerate\",\n            Solution::Empty => \"empty\",",
            "Solution::Degenerate => \"empty\",\n            Solution::Empty => \"degenerate\",",
            1,
        )],
    ),
    (
        "a linear place is not printed",
        "the word alone",
        &[(
            N,
            "Solution::One(x) | Solution::Linear(x) => vec![x],\n            Solution::Degenerate | Solution::Empty => vec![],",
            "Solution::One(x) => vec![x],\n            Solution::Linear(_) | Solution::Degenerate | Solution::Empty => vec![],",
            1,
        )],
    ),
    (
        "the mark of a cut record",
        "prints as `--` too",
        &[(
            N,
            "let mark = self.kind.map_or(\"--\", Kind::mark);",
            "let mark = self.kind.filter(|_| !matches!(self.answer, Answer::Refused(refusals::CUT))).map_or(\"--\", Kind::mark);",
            1,
        )],
    ),
    (
        "the mark before the number",
        "the two are exchanged",
        &[(
            N,
            "write!(f, \"{} {mark} {}\", self.number, self.answer)",
            "write!(f, \"{mark} {} {}\", self.number, self.answer)",
            1,
        )],
    ),
    (
        "lines end with two bytes",
        "a carriage return too",
        &[(N, "format!(\"{line}\\n\")", "format!(\"{line}\\r\\n\")", 1)],
    ),
];
