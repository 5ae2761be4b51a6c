//! Mistakes in the records of formulas: their bytes and their answers, in copies of the host's own
//! hall_file.rs and lister.rs.
use crate::patches::Variant;

const F: &str = "hall_file.rs";
const N: &str = "lister.rs";

/// A record behind its mark.
const READ: &str = "            let (tolerance, rest) = double(rest)?;\n            \
                    let text = rest.get(..length.into()).ok_or(refusals::CUT)?;\n";

/// The list of its coefficients.
const LISTED: &str = "Ok(coeffs) => listed(&coeffs, *tolerance, solver),";

pub const ALL: &[Variant] = &[
    (
        "the mark XT",
        "in place of TX",
        &[(F, "Kind::Formula => \"TX\",", "Kind::Formula => \"XT\",", 1)],
    ),
    (
        "the tolerance behind the text",
        "the last eight bytes",
        &[(
            F,
            READ,
            "            let text = rest.get(..length.into()).ok_or(refusals::CUT)?;\n            \
             let (tolerance, _) = double(&rest[length.into()..])?;\n",
            1,
        )],
    ),
    (
        "the tolerance before the length",
        "right behind the mark",
        &[(
            F,
            "            let (&length, rest) = bytes.split_first().ok_or(refusals::CUT)?;\n            let (tolerance, rest) = double(rest)?;\n",
            "            let (tolerance, rest) = double(bytes)?;\n            let (&length, rest) = rest.split_first().ok_or(refusals::CUT)?;\n",
            1,
        )],
    ),
    (
        "no tolerance",
        "2^-30 for all",
        &[(
            F,
            READ,
            "            let tolerance = 1.0 / (1u64 << 30) as f64;\n            \
             let text = rest.get(..length.into()).ok_or(refusals::CUT)?;\n",
            1,
        )],
    ),
    (
        "the length of what follows",
        "the tolerance's bytes count too",
        &[(
            F,
            "let text = rest.get(..length.into())",
            "let text = rest.get(..usize::from(length).saturating_sub(8))",
            1,
        )],
    ),
    (
        "a length of one less",
        "0 means one byte",
        &[(
            F,
            "let text = rest.get(..length.into())",
            "let text = rest.get(..usize::from(length) + 1)",
            1,
        )],
    ),
    (
        "a length of seven bits",
        "up to 127",
        &[(
            F,
            "let text = rest.get(..length.into())",
            "let text = rest.get(..usize::from(length & 127))",
            1,
        )],
    ),
    (
        "more than 32 letters",
        "are refused with 8",
        &[(
            F,
            READ,
            "            if usize::from(length) > MOST_COEFFICIENTS {\n                return Err(refusals::COUNT_TOO_LARGE);\n            }\n            \
             let (tolerance, rest) = double(rest)?;\n            \
             let text = rest.get(..length.into()).ok_or(refusals::CUT)?;\n",
            1,
        )],
    ),
    (
        "no letters",
        "are refused with 8",
        &[(
            F,
            READ,
            "            if length == 0 {\n                return Err(refusals::COUNT_TOO_LARGE);\n            }\n            \
             let (tolerance, rest) = double(rest)?;\n            \
             let text = rest.get(..length.into()).ok_or(refusals::CUT)?;\n",
            1,
        )],
    ),
    (
        "a cut text",
        "is read as far as it goes",
        &[(
            F,
            "let text = rest.get(..length.into()).ok_or(refusals::CUT)?;",
            "let text = &rest[..rest.len().min(length.into())];",
            1,
        )],
    ),
    (
        "a cut text is no sum",
        "13 in place of 7",
        &[(
            F,
            "let text = rest.get(..length.into()).ok_or(refusals::CUT)?;",
            "let text = rest.get(..length.into()).ok_or(refusals::NOT_A_SUM)?;",
            1,
        )],
    ),
    (
        "no length is 0",
        "a mark alone is a record",
        &[(
            F,
            "            let (&length, rest) = bytes.split_first().ok_or(refusals::CUT)?;\n            let (tolerance, rest) = double(rest)?;\n            let text",
            "            let (&length, rest) = bytes.split_first().unwrap_or((&0, &[0; 8]));\n            let (tolerance, rest) = double(rest)?;\n            let text",
            1,
        )],
    ),
    (
        "a refused text ends the file",
        "as a cut record does",
        &[(
            F,
            "        let size = record.as_ref().map_or(bytes.len() - at, Record::size);\n",
            "        let refused = matches!(&record, Ok(Record::Formula { text, .. }) if super::formula::expanded(text).is_err());\n        \
             let size = record.as_ref().ok().filter(|_| !refused).map_or(bytes.len() - at, Record::size);\n",
            1,
        )],
    ),
    (
        "2^-30 for every formula",
        "in place of its tolerance",
        &[(N, LISTED, "Ok(coeffs) => listed(&coeffs, 1.0 / (1u64 << 30) as f64, solver),", 1)],
    ),
    (
        "tolerance 0 for formulas",
        "since they are exact",
        &[(N, LISTED, "Ok(coeffs) => listed(&coeffs, 0.0, solver),", 1)],
    ),
    (
        "the size of the tolerance",
        "|tolerance|",
        &[(N, LISTED, "Ok(coeffs) => listed(&coeffs, tolerance.abs(), solver),", 1)],
    ),
    (
        "constants are answered as formulas",
        "with no root",
        &[(
            N,
            LISTED,
            "Ok(coeffs) if coeffs.len() < 2 => Answer::List(vec![]),\n            Ok(coeffs) => listed(&coeffs, *tolerance, solver),",
            1,
        )],
    ),
    (
        "the zero polynomial has root 0",
        "in place of 2",
        &[(
            N,
            LISTED,
            "Ok(coeffs) if coeffs.is_empty() => Answer::List(vec![Root::new(0.0, 1)]),\n            Ok(coeffs) => listed(&coeffs, *tolerance, solver),",
            1,
        )],
    ),
    (
        "questions of formulas replied yes",
        "`real_roots_touching`",
        &[(
            N,
            LISTED,
            "Ok(coeffs) if refusal(&coeffs) == 0 => Answer::List(solver.touching(&coeffs, *tolerance, &|_| true)),\n            \
             Ok(coeffs) => listed(&coeffs, *tolerance, solver),",
            1,
        )],
    ),
    (
        "the degree before the roots",
        "as k of a crank",
        &[(
            N,
            LISTED,
            "Ok(coeffs) => match listed(&coeffs, *tolerance, solver) {\n                \
             Answer::List(roots) => Answer::Crank(coeffs.len() - 1, roots),\n                \
             refused => refused,\n            },",
            1,
        )],
    ),
    (
        "a formula's refusal is 13",
        "whatever it is",
        &[(
            N,
            "Err(fault) => Answer::Refused(fault.refusal()),",
            "Err(_) => Answer::Refused(refusals::NOT_A_SUM),",
            1,
        )],
    ),
];
