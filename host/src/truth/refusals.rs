//! The refusals of document 01, 'What each operation refuses', by name, and in words for people.
use crate::people::number::shortest;
use crate::people::slider;
use crate::truth::contact;
use crate::truth::formula::{self, Fault};
use crate::truth::hall_file::{Item, Kind, Record};

/// 'some coefficient not finite, wherever it stands'; 'one of a, b, c'; 'one of the five'.
pub const NOT_FINITE: u8 = 1;

/// 'trimmed length 0 or 1'.
pub const TOO_FEW: u8 = 2;

/// 'trimmed length above 5'.
pub const TOO_MANY: u8 = 3;

/// 'nothing is being asked'.
pub const NOTHING_ASKED: u8 = 4;

/// 'a number in the Rust's answer is not finite'; 'a quartic coefficient not finite'.
pub const ANSWER_NOT_FINITE: u8 = 5;

/// 'unknown mark'.
pub const UNKNOWN_MARK: u8 = 6;

/// 'bytes end inside the mark', 'no count byte', 'fewer bytes than the record needs'.
pub const CUT: u8 = 7;

/// 'count above 32'.
pub const COUNT_TOO_LARGE: u8 = 8;

/// 'over 65,536 bytes'.
pub const FILE_TOO_LONG: u8 = 9;

/// 'a number of the record is not finite', of a contact by document 02.
pub const RECORD_NOT_FINITE: u8 = 10;

/// 'R is not above 0'.
pub const NO_RADIUS: u8 = 11;

/// 'a coefficient made is not finite'.
pub const MADE_NOT_FINITE: u8 = 12;

/// 'the text is not a sum', of a formula by document 02.
pub const NOT_A_SUM: u8 = 13;

/// 'some part of it has degree above 4 after zero terms are dropped'.
pub const DEGREE_TOO_HIGH: u8 = 14;

/// 'some coefficient of a part is above 2^53 in size'.
pub const COEFFICIENT_TOO_LARGE: u8 = 15;

/// A refusal in words; of a 6, 7 or 8 with the byte at which its record starts.
pub fn in_words(bytes: &[u8], item: &Item, number: u8) -> String {
    let at = item.at;
    let rest = bytes.get(at..).unwrap_or_default();
    match (number, item.kind) {
        (NOT_FINITE, _) => "a number is not finite".to_string(),
        (TOO_FEW, Some(Kind::Formula)) => of_formula(item),
        (TOO_FEW, kind) => format!("no equation: {}", too_few(kind)),
        (TOO_MANY, _) => "the degree is above 4".to_string(),
        (ANSWER_NOT_FINITE, Some(Kind::Crank)) => {
            "a coefficient of the quartic in u is not finite".to_string()
        }
        (ANSWER_NOT_FINITE, _) => "a place of the answer is not finite".to_string(),
        (UNKNOWN_MARK, _) => {
            let mark = rest[..2.min(rest.len())].escape_ascii();
            format!("byte {at}: unknown mark `{mark}`{}", text_hint(bytes))
        }
        (CUT, None) => format!("byte {at}: the file ends inside a mark"),
        (CUT, Some(kind)) => format!(
            "byte {at}: the file ends inside this {}, {} bytes of it are there{}",
            kind.word(),
            rest.len(),
            needed(kind, rest).map(|n| format!(" of {n}")).unwrap_or_default()
        ),
        (COUNT_TOO_LARGE, _) => {
            let count = rest.get(2).copied().unwrap_or_default();
            format!("byte {at}: a list with count {count}, and at most 32 is allowed")
        }
        (FILE_TOO_LONG, _) => format!("the file has {} bytes, more than 65,536", bytes.len()),
        (RECORD_NOT_FINITE..=MADE_NOT_FINITE, _) => of_contact(item, number),
        (NOT_A_SUM..=COEFFICIENT_TOO_LARGE, _) => of_formula(item),
        (n, _) => format!("no refusal has the number {n}"),
    }
}

fn too_few(kind: Option<Kind>) -> &'static str {
    match kind {
        Some(Kind::Crank) => "the quartic in u is a constant at most",
        Some(Kind::Contact) => "the ball stands still, or moves too little to tell",
        _ => "once trailing zeros are dropped, a constant at most is left",
    }
}

/// What is wrong with the numbers of a contact.
fn of_contact(item: &Item, number: u8) -> String {
    let Ok(Record::Contact(contact)) = &item.record else {
        return "no contact".to_string();
    };
    match number {
        RECORD_NOT_FINITE => not_finite(&contact::NAMES, &contact.numbers()),
        NO_RADIUS => format!("the radius R is {}, not above 0", shortest(contact.radius)),
        _ => {
            let which = not_finite(&["c0", "c1", "c2", "c3", "c4"], &contact.coefficients());
            format!("of its equation c0 + c1 t + .. + c4 t^4 = 0, {which}")
        }
    }
}

/// What is wrong with the text of a formula.
fn of_formula(item: &Item) -> String {
    let Ok(Record::Formula { text, .. }) = &item.record else {
        return "no formula".to_string();
    };
    match formula::expanded(text) {
        Ok(coeffs) => {
            let constant = coeffs.first().copied().unwrap_or(0);
            format!("no equation: the formula comes to {constant}, whatever t is")
        }
        Err(fault) => at_fault(text, &fault),
    }
}

/// Where a text went wrong, and why.
fn at_fault(text: &[u8], fault: &Fault) -> String {
    match fault {
        Fault::NotASum { .. } if text.is_empty() => "no sum: the text is empty".to_string(),
        Fault::NotASum { at } => match text.get(*at) {
            Some(byte) => format!("no sum: {} cannot be character {}", named(*byte), at + 1),
            None => format!("no sum: it ends too early, behind character {at}"),
        },
        Fault::Degree { part, degree } => {
            format!(
                "{} comes to degree {degree}, and a part has at most 4",
                quoted(&text[part.clone()])
            )
        }
        Fault::Size { part, coefficient, power } => {
            let of = match power {
                0 => String::new(),
                1 => " t".to_string(),
                _ => format!(" t^{power}"),
            };
            format!(
                "{} comes to {coefficient}{of}, and a coefficient is at most 2^53 in size",
                quoted(&text[part.clone()])
            )
        }
    }
}

/// A byte of a text.
fn named(byte: u8) -> String {
    match byte {
        b' ' => "a blank".to_string(),
        0x21..=0x7E => format!("`{}`", byte as char),
        _ => format!("the byte {byte}"),
    }
}

/// A part of a text; of a long one both ends.
fn quoted(part: &[u8]) -> String {
    let part = part.escape_ascii().to_string();
    match part.len() {
        0..=40 => format!("`{part}`"),
        n => format!("`{} .. {}`", &part[..18], &part[n - 18..]),
    }
}

/// Which of these numbers are not.
fn not_finite(names: &[&str], numbers: &[f64]) -> String {
    let those = names.iter().zip(numbers).filter(|(_, x)| !x.is_finite());
    let those: Vec<&str> = those.map(|(name, _)| *name).collect();
    let verb = if those.len() == 1 { "is" } else { "are" };
    format!("{} {verb} not finite", those.join(", "))
}

/// A hint where a file begins like lines of text, be it with a byte order mark or capital letters.
fn text_hint(bytes: &[u8]) -> &'static str {
    let text = bytes.strip_prefix(b"\xEF\xBB\xBF").unwrap_or(bytes).trim_ascii_start();
    let word = text.split(|b| b.is_ascii_whitespace()).next().unwrap_or(text);
    let words = Kind::ALL.map(Kind::word);
    let is = |known: &&str| known.as_bytes().eq_ignore_ascii_case(word);
    match text.starts_with(b"#") || words.iter().chain([&slider::WORD]).any(is) {
        true => "; for lines of text, `hall make` makes a hall file",
        false => "",
    }
}

/// How many bytes a record that starts like this has; none where its count is not there.
fn needed(kind: Kind, rest: &[u8]) -> Option<usize> {
    match kind {
        Kind::List => rest.get(2).map(|count| 11 + 8 * usize::from(*count)),
        Kind::Quadratic => Some(42),
        Kind::Crank => Some(50),
        Kind::Contact => Some(82),
        Kind::Formula => rest.get(2).map(|length| 11 + usize::from(*length)),
    }
}

#[cfg(test)]
mod tests {
    use super::*;
    use crate::people::text::read;
    use crate::truth::hall_file::{file, items};

    fn said(bytes: &[u8]) -> Vec<String> {
        let told = |item: &Item| Some(in_words(bytes, item, item.record.as_ref().err().copied()?));
        items(bytes).iter().filter_map(told).collect()
    }

    #[test]
    fn refusals_name_their_byte() {
        let empty = b"PL\0\0\0\0\0\0\0\0\0";
        let with = |tail: &[u8]| said(&[&empty[..], tail].concat());
        assert_eq!(with(b"XX"), ["byte 11: unknown mark `XX`"]);
        assert_eq!(with(b"\xFF\nab"), ["byte 11: unknown mark `\\xff\\n`"]);
        let hint = "; for lines of text, `hall make` makes a hall file";
        assert_eq!(said(b"list 1 2"), [format!("byte 0: unknown mark `li`{hint}")]);
        assert_eq!(said(b"listen"), ["byte 0: unknown mark `li`"]);
        for text in [&b"\xEF\xBB\xBFquad\t1 2"[..], b"Slider 1 3 3", b"\r\n# lanes", b"CRANK\n"] {
            assert!(said(text)[0].ends_with(hint), "{:?}", text.escape_ascii());
        }
        assert_eq!(with(b"P"), ["byte 11: the file ends inside a mark"]);
        assert_eq!(
            with(b"PL"),
            ["byte 11: the file ends inside this list, 2 bytes of it are there"]
        );
        assert_eq!(
            with(b"PL\x02abc"),
            ["byte 11: the file ends inside this list, 6 bytes of it are there of 27"]
        );
        assert_eq!(
            with(b"QDabc"),
            ["byte 11: the file ends inside this quad, 5 bytes of it are there of 42"]
        );
        assert_eq!(
            with(b"PCabc"),
            ["byte 11: the file ends inside this contact, 5 bytes of it are there of 82"]
        );
        assert_eq!(
            with(b"TX\x0Dabc"),
            ["byte 11: the file ends inside this formula, 6 bytes of it are there of 24"]
        );
        assert_eq!(
            with(b"TX"),
            ["byte 11: the file ends inside this formula, 2 bytes of it are there"]
        );
        assert_eq!(with(b"PL\x21"), ["byte 11: a list with count 33, and at most 32 is allowed"]);
        assert_eq!(said(&[0; 65_537]), ["the file has 65537 bytes, more than 65,536"]);
    }

    #[test]
    fn refusals_of_contacts() {
        for (line, number, words) in [
            ("nan 0 1 0 0 0 0 3 0 1", 10, "confusion is not finite"),
            ("0 0 inf 0 0 0 0 3 0 -inf", 10, "x1, R are not finite"),
            ("0 0 1 0 0 0 0 3 0 -0.5", 11, "the radius R is -0.5, not above 0"),
            (
                "0 0 1 0 0 0 0 3 0 1e200",
                12,
                "of its equation c0 + c1 t + .. + c4 t^4 = 0, c0 is not finite",
            ),
            (
                "0 0 0 1e200 0 0 0 -1e200 0 1",
                12,
                "of its equation c0 + c1 t + .. + c4 t^4 = 0, c0, c2, c4 are not finite",
            ),
            ("0 0 0 0 0 0 0 3 0 1", 2, "no equation: the ball stands still, or moves too little"),
        ] {
            let bytes = file(&read(format!("contact {line}").as_bytes()).unwrap());
            let item = &items(&bytes)[0];
            let Ok(Record::Contact(contact)) = &item.record else { panic!("{line}") };
            let told = in_words(&bytes, item, number);
            assert_eq!((contact.refusal(), told.starts_with(words)), (number, true), "{told}");
        }
    }

    #[test]
    fn refusals_of_formulas() {
        let long = [&b"t"[..], &b"+t"[..].repeat(30), b"*t^4"].concat();
        let most = "and a coefficient is at most 2^53 in size";
        for (text, number, words) in [
            (&b""[..], 13, "no sum: the text is empty"),
            (b"t^12", 13, "no sum: `2` cannot be character 4"),
            (b"t - 1", 13, "no sum: a blank cannot be character 2"),
            (b"t\xC2\xB2", 13, "no sum: the byte 194 cannot be character 2"),
            (b"(t-2", 13, "no sum: it ends too early, behind character 4"),
            (b"1+t^4*t", 14, "`t^4*t` comes to degree 5, and a part has at most 4"),
            (&long, 14, "`t*t^4` comes to degree 5, and a part has at most 4"),
            (
                b"2+(10000*t)^9",
                15,
                &format!("`(10000*t)^9` comes to 10000000000000000 t^4, {most}"),
            ),
            (
                b"90071992*100000000+54740993+1",
                15,
                &format!("`90071992*100000000+54740993` comes to 9007199254740993, {most}"),
            ),
            (b"(t-t)*t", 2, "no equation: the formula comes to 0, whatever t is"),
            (b"2-9", 2, "no equation: the formula comes to -7, whatever t is"),
        ] {
            let bytes = file(&[Record::Formula { tolerance: 0.5, text: text.to_vec() }]);
            assert_eq!(in_words(&bytes, &items(&bytes)[0], number), words);
        }
        let part = [&b"(t"[..], &b"+t".repeat(20)[..], b")^5"].concat();
        assert_eq!(quoted(&part), "`(t+t+t+t+t+t+t+t+t .. t+t+t+t+t+t+t+t)^5`");
    }
}
