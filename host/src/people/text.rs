//! Records as lines of text: `list TOL c0 c1 ..`, `quad CONFUSION ANGULAR a b c`,
//! `crank CONFUSION a2 b2 c1 d1 e`, `contact CONFUSION x0 x1 x2 y0 y1 y2 cx cy R`,
//! `formula TOL TEXT`, and `slider R L X` for the crank of these lengths; '#' starts a comment.
//! Capital letters count as small ones, but not in a formula's text.
use crate::people::mistyped::{is_sum, told};
use crate::people::number::{character, number, word};
use crate::people::{marked, slider};
use crate::truth::contact::Contact;
use crate::truth::formula::{self, expanded};
use crate::truth::hall_file::{Kind, MOST_BYTES, MOST_COEFFICIENTS, Record};
use std::fmt;

/// Why a text makes no file.
#[derive(Clone, Debug, PartialEq, Eq)]
pub struct TextError {
    /// From 1 on.
    pub line: usize,
    /// The word at fault.
    pub word: String,
    pub why: String,
    /// Rows with the text of a formula, and a mark under the character at fault.
    pub marked: String,
}

impl fmt::Display for TextError {
    fn fmt(&self, f: &mut fmt::Formatter) -> fmt::Result {
        let TextError { line, word, why, marked } = self;
        match marked.trim_end() {
            "" => write!(f, "line {line}: `{word}`: {why}"),
            marked => write!(f, "line {line}: {why}\n{marked}"),
        }
    }
}

/// A word at fault, why, and the marked rows.
type Fault = (String, String, String);

fn fault<T>(word: &str, why: impl Into<String>) -> Result<T, Fault> {
    Err((word.to_string(), why.into(), String::new()))
}

/// The records of a text, or its first fault.
pub fn read(text: &[u8]) -> Result<Vec<Record>, TextError> {
    let (mut records, mut size) = (Vec::new(), 0);
    let text = without_mark(text)?;
    for (i, line) in text.split(|b| *b == b'\n').enumerate() {
        let told = |(word, why, marked)| TextError { line: i + 1, word, why, marked };
        let line = without_comment(line).map_err(told)?;
        let Some(record) = record(line).map_err(told)? else {
            continue;
        };
        size += record.size();
        if size > MOST_BYTES {
            let most = "a hall file has at most 65,536";
            let why = format!("with this record the file has {size} bytes, and {most}");
            return fault(first_word(line).0, why).map_err(told);
        }
        records.push(record);
    }
    Ok(records)
}

/// The text without the byte order mark that some editors put before it.
fn without_mark(text: &[u8]) -> Result<&[u8], TextError> {
    if let [0xFF, 0xFE, ..] | [0xFE, 0xFF, ..] = text {
        let word = text[..2].escape_ascii().to_string();
        let why = "the text is UTF-16: save it as UTF-8".to_string();
        return Err(TextError { line: 1, word, why, marked: String::new() });
    }
    Ok(text.strip_prefix(b"\xEF\xBB\xBF").unwrap_or(text))
}

/// A line up to its comment.
fn without_comment(line: &[u8]) -> Result<&str, Fault> {
    let kept = line.split(|b| *b == b'#').next().unwrap_or(line);
    std::str::from_utf8(kept).or_else(|_| fault(String::from_utf8_lossy(kept).trim(), "not UTF-8"))
}

/// The first word, and what stands behind it.
fn first_word(line: &str) -> (&str, &str) {
    let line = line.trim();
    let (word, rest) = line.split_once(char::is_whitespace).unwrap_or((line, ""));
    (word, rest.trim_start())
}

/// The record of a line; none where it has no words.
fn record(line: &str) -> Result<Option<Record>, Fault> {
    let words: Vec<&str> = line.split_whitespace().collect();
    let Some((first, rest)) = words.split_first() else {
        return Ok(None);
    };
    let name = first.to_ascii_lowercase();
    let kind = Kind::ALL.into_iter().find(|kind| kind.word() == name);
    if kind.is_none() && name != slider::WORD {
        let odd = first.chars().find(|c| !c.is_ascii_graphic());
        let odd = odd.map(|c| format!(" ({})", character(c))).unwrap_or_default();
        let known = Kind::ALL.map(Kind::word).join(", ");
        let known = format!("a line begins with {known} or {}", slider::WORD);
        return fault(first, format!("no kind of record: {known}{odd}"));
    }
    let numbers = || {
        let numbers = rest.iter().map(|word| number(word).or_else(|why| fault(word, why)));
        numbers.collect::<Result<Vec<f64>, Fault>>()
    };
    match kind {
        Some(Kind::List) => list(&words, numbers()?),
        Some(Kind::Quadratic) => {
            let form = "quad CONFUSION ANGULAR a b c";
            let [confusion, angular, a, b, c] = exactly(&words, &numbers()?, form)?;
            Ok(Record::Quadratic { confusion, angular, abc: [a, b, c] })
        }
        Some(Kind::Crank) => {
            let form = "crank CONFUSION a2 b2 c1 d1 e";
            let [confusion, a2, b2, c1, d1, e] = exactly(&words, &numbers()?, form)?;
            Ok(Record::Crank { confusion, terms: [a2, b2, c1, d1, e] })
        }
        Some(Kind::Contact) => {
            let form = "contact CONFUSION x0 x1 x2 y0 y1 y2 cx cy R";
            Ok(Record::Contact(Contact::new(exactly(&words, &numbers()?, form)?)))
        }
        Some(Kind::Formula) => formula(line),
        None => crank_of_slider(&words, &numbers()?),
    }
    .map(Some)
}

/// The crank of a slider-crank: three numbers, four with Y, five with the confusion before them.
fn crank_of_slider(words: &[&str], numbers: &[f64]) -> Result<Record, Fault> {
    let (confusion, lengths) = match *numbers {
        [r, l, x] => (slider::CONFUSION, [r, l, x, 0.0]),
        [r, l, x, y] => (slider::CONFUSION, [r, l, x, y]),
        _ => {
            let [confusion, r, l, x, y] = exactly(words, numbers, slider::FORM)?;
            (confusion, [r, l, x, y])
        }
    };
    let behind = &words[1 + usize::from(numbers.len() == 5)..];
    for (i, (length, word)) in lengths.iter().zip(behind).enumerate() {
        match (length.is_finite(), i) {
            (false, _) => return fault(word, format!("no length: {}", slider::FORM)),
            (true, 0 | 1) if *length <= 0.0 => {
                return fault(word, format!("the lengths R and L are above 0: {}", slider::FORM));
            }
            _ => {}
        }
    }
    let terms = slider::terms(lengths);
    let gone = |of: f64, term: f64| of != 0.0 && term == 0.0;
    match terms.iter().all(|x| x.is_finite()) {
        true if gone(lengths[2], terms[2]) || gone(lengths[3], terms[3]) => {
            fault(words[0], "a number of its equation is below the smallest double")
        }
        true => Ok(Record::Crank { confusion, terms }),
        false => fault(words[0], "a number of its equation is beyond the largest double"),
    }
}

const FORMULA: &str = "formula TOL TEXT, and TOL is usually 2^-30";

/// What stands behind the tolerance is the text.
fn formula(line: &str) -> Result<Record, Fault> {
    let (name, rest) = first_word(line);
    let (typed, text) = first_word(rest);
    let missing = |word, place| fault(word, format!("the {place} it: {FORMULA}"));
    let tolerance = match number(typed) {
        _ if typed.is_empty() => missing(name, "tolerance is missing behind"),
        Err(_) if like_text(typed) => missing(typed, "tolerance is missing before"),
        Ok(_) if text.is_empty() => missing(typed, "text is missing behind"),
        tolerance => tolerance.or_else(|why| fault(typed, why)),
    }?;
    let bytes = text.strip_prefix("0x").or(text.strip_prefix("0X"));
    let text = match bytes {
        Some(digits) if digits.bytes().next().is_none_or(|b| b.is_ascii_hexdigit()) => {
            by_bytes(text, digits)?
        }
        _ => sum(text)?,
    };
    Ok(Record::Formula { tolerance, text })
}

/// Whether a word that is no number looks like a formula.
fn like_text(word: &str) -> bool {
    word.contains(['t', 'T', '(']) || word.contains(['x', 'X']) && !word.starts_with('0')
}

/// A text of any bytes, each of them two digits.
fn by_bytes(text: &str, digits: &str) -> Result<Vec<u8>, Fault> {
    if digits.len() % 2 > 0 || !digits.bytes().all(|b| b.is_ascii_hexdigit()) {
        return fault(text, "no bytes: behind 0x each has two hexadecimal digits");
    }
    let value = |digit: u8| char::from(digit).to_digit(16).unwrap_or(0) as u8;
    let bytes = digits.as_bytes().chunks(2).map(|byte| 16 * value(byte[0]) + value(byte[1]));
    match digits.len() / 2 {
        ..=formula::MOST_BYTES => Ok(bytes.collect()),
        n => fault(text, too_long(n)),
    }
}

fn too_long(n: usize) -> String {
    format!("a formula has at most {} characters, and here are {n}", formula::MOST_BYTES)
}

/// A text as it is typed, where it is a sum.
fn sum(text: &str) -> Result<Vec<u8>, Fault> {
    let bytes = text.as_bytes();
    // no bracket is deeper than a record's text is long
    let front = &bytes[..bytes.len().min(formula::MOST_BYTES)];
    let longer = bytes.len() > front.len();
    let (at, why) = match expanded(front) {
        Err(formula::Fault::NotASum { at }) if at < front.len() || !longer => {
            (at, format!("no formula: {}", told(bytes, at)))
        }
        _ if longer => (front.len(), too_long(text.chars().count())),
        _ => return Ok(bytes.to_vec()),
    };
    let seen: String = text.chars().take(formula::MOST_BYTES + 1).collect();
    let behind = if seen.len() < bytes.len() { ".." } else { "" };
    let rows = marked::rows("    ", seen.as_bytes(), behind, Some(at..at + 1));
    Err((text.to_string(), why, rows))
}

fn list(words: &[&str], numbers: Vec<f64>) -> Result<Record, Fault> {
    let Some((&tolerance, coeffs)) = numbers.split_first() else {
        return fault(words[0], "the tolerance is missing behind it: list TOL c0 c1 ..");
    };
    if let Some(word) = words.get(2 + MOST_COEFFICIENTS) {
        let (n, most) = (coeffs.len(), MOST_COEFFICIENTS);
        return fault(word, format!("a list has at most {most} coefficients, and here are {n}"));
    }
    Ok(Record::List { tolerance, coeffs: coeffs.to_vec() })
}

/// The numbers, which must be N.
fn exactly<const N: usize>(words: &[&str], numbers: &[f64], form: &str) -> Result<[f64; N], Fault> {
    match words.get(N + 1) {
        Some(word) => fault(word, format!("one number too many: {form}")),
        None => numbers.try_into().or_else(|_| {
            let last = words.last().copied().unwrap_or_default();
            fault(last, format!("a number is missing behind it: {form}"))
        }),
    }
}

/// The line that reads back as this record.
pub fn line(record: &Record) -> String {
    let numbers = record.numbers().into_iter().map(word);
    let text = match record {
        Record::Formula { text, .. } if is_sum(text) => {
            Some(String::from_utf8_lossy(text).into_owned())
        }
        Record::Formula { text, .. } => {
            Some(text.iter().fold("0x".to_string(), |all, byte| format!("{all}{byte:02X}")))
        }
        _ => None,
    };
    let words: Vec<String> =
        [record.kind().word().to_string()].into_iter().chain(numbers).chain(text).collect();
    words.join(" ")
}
