//! Mistakes in reading formulas, in a copy of the host's own formula.rs.
use crate::patches::Variant;

const T: &str = "formula.rs";

/// Where a bracket ends.
const CLOSED: &str =
    "if !self.takes(b')') {\n                    return self.stuck();\n                }";

/// Where a factor has its power.
const POWER: &str = "Ok(Part { bytes, form: Form::Power(Box::new(base), digit - b'0') })";

pub const ALL: &[Variant] = &[
    (
        "what stands behind a sum",
        "is not looked at",
        &[(T, "if self.at == self.text.len() { Ok(sum) } else { self.stuck() }", "Ok(sum)", 1)],
    ),
    (
        "a bracket too many",
        "behind the sum",
        &[(
            T,
            "let sum = self.sum()?;\n",
            "let sum = self.sum()?;\n        while self.takes(b')') {}\n",
            1,
        )],
    ),
    (
        "a bracket is missing",
        "at the end of the text",
        &[(
            T,
            CLOSED,
            "if !self.takes(b')') && self.next().is_some() {\n                    return self.stuck();\n                }",
            1,
        )],
    ),
    (
        "square brackets",
        "close round ones",
        &[(
            T,
            CLOSED,
            "if !self.takes(b')') && !self.takes(b']') {\n                    return self.stuck();\n                }",
            1,
        )],
    ),
    (
        "an empty bracket",
        "is 0",
        &[(
            T,
            "let inner = self.sum()?;",
            "let start = self.at;\n                let inner = if self.next() == Some(b')') { \
             Part { bytes: start..start, form: Form::Number(0) } } else { self.sum()? };",
            1,
        )],
    ),
    (
        "the empty text is 0",
        "in place of 13",
        &[(
            T,
            "let sum = self.sum()?;\n",
            "if self.text.is_empty() {\n            \
             return Ok(Part { bytes: 0..0, form: Form::Number(0) });\n        }\n        \
             let sum = self.sum()?;\n",
            1,
        )],
    ),
    (
        "a leading minus",
        "at the start of the text",
        &[(
            T,
            "let sum = self.sum()?;\n",
            "let minus = self.takes(b'-');\n        let sum = self.sum()?;\n        \
             let zero = Part { bytes: 0..0, form: Form::Number(0) };\n        \
             let sum = if minus { join(zero, Operator::Minus, sum) } else { sum };\n",
            1,
        )],
    ),
    (
        "a leading plus",
        "at the start of the text",
        &[(
            T,
            "let sum = self.sum()?;\n",
            "self.takes(b'+');\n        let sum = self.sum()?;\n",
            1,
        )],
    ),
    (
        "a sign in a bracket",
        "before its first term",
        &[(
            T,
            "let inner = self.sum()?;",
            "let minus = self.takes(b'-');\n                let inner = self.sum()?;\n                \
             let zero = Part { bytes: 0..0, form: Form::Number(0) };\n                \
             let inner = if minus { join(zero, Operator::Minus, inner) } else { inner };",
            1,
        )],
    ),
    (
        "signs of factors",
        "as in 2*-t",
        &[(
            T,
            "let start = self.at;\n",
            "let start = self.at;\n        if start > 0 && self.takes(b'-') {\n            \
             let zero = Part { bytes: 0..0, form: Form::Number(0) };\n            \
             return Ok(join(zero, Operator::Minus, self.base()?));\n        }\n",
            1,
        )],
    ),
    (
        "blanks are passed over",
        "before each factor",
        &[(
            T,
            "let base = self.base()?;\n",
            "while self.takes(b' ') {}\n        let base = self.base()?;\n",
            1,
        )],
    ),
    (
        "blanks at the end",
        "are passed over",
        &[(
            T,
            "let sum = self.sum()?;\n",
            "let sum = self.sum()?;\n        while self.takes(b' ') {}\n",
            1,
        )],
    ),
    (
        "a line end behind the text",
        "is passed over",
        &[(
            T,
            "let sum = self.sum()?;\n",
            "let sum = self.sum()?;\n        self.takes(b'\\n');\n",
            1,
        )],
    ),
    ("T is t", "capital letters too", &[(T, "Some(b't') => {", "Some(b't' | b'T') => {", 1)]),
    ("x is t", "as of lists", &[(T, "Some(b't') => {", "Some(b't' | b'x') => {", 1)]),
    (
        "seven bits of each byte",
        "what is above 127 is a letter",
        &[(
            T,
            "self.text.get(self.at).copied()",
            "self.text.get(self.at).map(|byte| byte & 127)",
            1,
        )],
    ),
    (
        "a text ends at 0",
        "the byte, as in C",
        &[(
            T,
            "if self.at == self.text.len() { Ok(sum) }",
            "if self.at == self.text.len() || self.next() == Some(0) { Ok(sum) }",
            1,
        )],
    ),
    (
        "ten digits",
        "of a number",
        &[(T, "rest.iter().take(MOST_DIGITS)", "rest.iter().take(MOST_DIGITS + 1)", 1)],
    ),
    (
        "eight digits",
        "of a number",
        &[(T, "rest.iter().take(MOST_DIGITS)", "rest.iter().take(MOST_DIGITS - 1)", 1)],
    ),
    (
        "nine digits behind zeros",
        "zeros in front do not count",
        &[(
            T,
            "let rest = &self.text[self.at..];\n",
            "while self.next() == Some(b'0') && self.text.get(self.at + 1).is_some_and(u8::is_ascii_digit) {\n            \
             self.at += 1;\n        }\n        let rest = &self.text[self.at..];\n",
            1,
        )],
    ),
    (
        "zeros in front are refused",
        "as in 07",
        &[(
            T,
            "Some(b'0'..=b'9') => Form::Number(self.number()),",
            "Some(b'0') if self.text.get(self.at + 1).is_some_and(u8::is_ascii_digit) => return self.stuck(),\n            \
             Some(b'0'..=b'9') => Form::Number(self.number()),",
            1,
        )],
    ),
    (
        "zeros in front make it octal",
        "010 is 8",
        &[(
            T,
            "        let (count, number) = digits\n            .fold((0, 0), |(n, so_far), digit| (n + 1, 10 * so_far + i128::from(digit - b'0')));\n",
            "        let ten = if rest[0] == b'0' { 8 } else { 10 };\n        let (count, number) = digits\n            \
             .fold((0, 0), |(n, so_far), digit| (n + 1, ten * so_far + i128::from(digit - b'0')));\n",
            1,
        )],
    ),
    (
        "numbers by the last digit",
        "the others are taken and forgotten",
        &[(T, "10 * so_far + i128::from(digit - b'0')", "i128::from(digit - b'0')", 1)],
    ),
    (
        "numbers as 4-byte floats",
        "24 digits of two",
        &[(
            T,
            "        self.at += count;\n        number\n",
            "        self.at += count;\n        number as f32 as i128\n",
            1,
        )],
    ),
    (
        "two digits of a power",
        "as in t^12",
        &[(
            T,
            "                let bytes = base.bytes.start..self.at;\n                Ok(Part",
            "                let digit = match self.next() {\n                    \
             Some(second @ b'0'..=b'9') => { self.at += 1; 10 * (digit - b'0') + second }\n                    \
             _ => digit,\n                };\n                \
             let bytes = base.bytes.start..self.at;\n                Ok(Part",
            1,
        )],
    ),
    (
        "a power of a power",
        "t^2^2 is (t^2)^2",
        &[(
            T,
            POWER,
            "let mut part = Part { bytes, form: Form::Power(Box::new(base), digit - b'0') };\n                \
             while self.takes(b'^') {\n                    \
             let Some(digit @ b'0'..=b'9') = self.next() else { return self.stuck() };\n                    \
             self.at += 1;\n                    \
             part = Part { bytes: part.bytes.start..self.at, form: Form::Power(Box::new(part), digit - b'0') };\n                \
             }\n                Ok(part)",
            1,
        )],
    ),
    (
        "no power of a number",
        "2^3 is no sum",
        &[(
            T,
            "if !self.takes(b'^') {",
            "if matches!(base.form, Form::Number(_)) || !self.takes(b'^') {",
            1,
        )],
    ),
    (
        "no power of a bracket",
        "(t)^3 is no sum",
        &[(
            T,
            "if !self.takes(b'^') {",
            "if matches!(base.form, Form::Bracket(_)) || !self.takes(b'^') {",
            1,
        )],
    ),
    (
        "powers up to 8",
        "9 is no power",
        &[(T, "Some(digit @ b'0'..=b'9') => {", "Some(digit @ b'0'..=b'8') => {", 1)],
    ),
    (
        "powers from 1",
        "0 is no power",
        &[(T, "Some(digit @ b'0'..=b'9') => {", "Some(digit @ b'1'..=b'9') => {", 1)],
    ),
    (
        "powers up to 4",
        "5 and more are no sum",
        &[(T, "Some(digit @ b'0'..=b'9') => {", "Some(digit @ b'0'..=b'4') => {", 1)],
    ),
    (
        "a power without its digit",
        "t^ is t",
        &[(
            T,
            "                Ok(Part { bytes, form: Form::Power(Box::new(base), digit - b'0') })\n            }\n            _ => self.stuck(),\n",
            "                Ok(Part { bytes, form: Form::Power(Box::new(base), digit - b'0') })\n            }\n            _ => Ok(base),\n",
            1,
        )],
    ),
    (
        "products without a star",
        "2t is 2*t",
        &[(
            T,
            "while self.takes(b'*') {",
            "while self.takes(b'*') || self.next() == Some(b't') {",
            1,
        )],
    ),
    (
        "brackets side by side",
        "are multiplied",
        &[(
            T,
            "while self.takes(b'*') {",
            "while self.takes(b'*') || self.next() == Some(b'(') {",
            1,
        )],
    ),
    (
        "two stars",
        "are one",
        &[(
            T,
            "while self.takes(b'*') {\n",
            "while self.takes(b'*') {\n            self.takes(b'*');\n",
            1,
        )],
    ),
    (
        "a star at the end",
        "is passed over",
        &[(
            T,
            "while self.takes(b'*') {\n",
            "while self.takes(b'*') {\n            if self.next().is_none() {\n                break;\n            }\n",
            1,
        )],
    ),
    (
        "one product",
        "of two factors at most",
        &[(T, "while self.takes(b'*') {", "if self.takes(b'*') {", 1)],
    ),
    (
        "sums from the right",
        "a-b-c is a-(b-c)",
        &[(
            T,
            "left = join(left, operator, self.term()?);\n",
            "return Ok(join(left, operator, self.sum()?));\n",
            1,
        )],
    ),
    (
        "products from the right",
        "a*b*c is a*(b*c)",
        &[(
            T,
            "left = join(left, Operator::Times, self.factor()?);\n",
            "return Ok(join(left, Operator::Times, self.term()?));\n",
            1,
        )],
    ),
    (
        "sums before products",
        "a*b+c is a*(b+c)",
        &[
            (T, "let mut left = self.term()?;", "let mut left = self.factor()?;", 1),
            (
                T,
                "left = join(left, operator, self.term()?);",
                "left = join(left, operator, self.factor()?);",
                1,
            ),
            (
                T,
                "        let mut left = self.factor()?;\n        while self.takes(b'*') {\n            left = join(left, Operator::Times, self.factor()?);",
                "        let mut left = self.sum()?;\n        while self.takes(b'*') {\n            left = join(left, Operator::Times, self.sum()?);",
                1,
            ),
            (T, "let sum = self.sum()?;", "let sum = self.term()?;", 1),
            (T, "let inner = self.sum()?;", "let inner = self.term()?;", 1),
        ],
    ),
    (
        "plus and minus in turns",
        "all sums before all differences",
        &[(
            T,
            "left = join(left, operator, self.term()?);\n",
            "let mut right = self.term()?;\n            \
             while operator == Operator::Minus && self.takes(b'+') {\n                \
             right = join(right, Operator::Plus, self.term()?);\n            }\n            \
             left = join(left, operator, right);\n",
            1,
        )],
    ),
    (
        "13 behind the others",
        "what stands before is expanded first",
        &[(
            T,
            "    Reader { text, at: 0 }.whole()?.expanded()\n",
            "    let read = Reader { text, at: 0 }.whole();\n    \
             if let Err(Fault::NotASum { at }) = read {\n        \
             if let Ok(before) = (Reader { text: &text[..at], at: 0 }.whole()) {\n            \
             before.expanded()?;\n        }\n    }\n    read?.expanded()\n",
            1,
        )],
    ),
];
