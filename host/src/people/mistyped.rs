//! Where a formula went wrong, and what to type instead where it is no sum.
use crate::people::number::named;
use crate::truth::formula::{Fault, expanded};
use std::ops::Range;

const OPERAND: &str = "a number, `t` or a bracket is missing";
const DIGIT: &str = "a power is one digit, 0 to 9";
const FRONT: &str = "no sign stands in front";
const WHOLE: &str = "numbers are whole: write `3*t-4` for `1.5*t-2`";
const LETTERS: &str = "a formula has digits, `t` and `+-*^()` alone";

pub fn is_sum(text: &[u8]) -> bool {
    !matches!(expanded(text), Err(Fault::NotASum { .. }))
}

/// The bytes at fault; behind the text where it ends too early.
pub fn part(fault: &Fault) -> Range<usize> {
    match fault {
        Fault::NotASum { at } => *at..at + 1,
        Fault::Degree { part, .. } | Fault::Size { part, .. } => part.clone(),
    }
}

/// What stands at the place where no sum goes on, and what to type instead.
pub fn told(text: &[u8], at: usize) -> String {
    let hint = hint(text, at);
    match text.get(at) {
        None => format!("it ends too early: {hint}"),
        Some(b' ') => format!("a blank: {hint}"),
        Some(b'\t') => format!("a tab: {hint}"),
        Some(byte) if byte.is_ascii() => format!("{}: {hint}", named(char::from(*byte))),
        // the hint names it
        Some(_) => hint,
    }
}

/// What to type instead; what is not ASCII is named. All before the place begins a sum.
pub fn hint(text: &[u8], at: usize) -> String {
    let before = &text[..at];
    match text.get(at) {
        None => missing(before),
        Some(c) if b"t0123456789+-*^()".contains(c) => misplaced(before, char::from(*c)),
        Some(_) => match text[at..].utf8_chunks().next().map(|rest| rest.valid().chars().next()) {
            Some(Some(c)) if c.is_ascii() => foreign(before, c),
            Some(Some(c)) => format!("{}: {}", named(c), foreign(before, c)),
            _ => LETTERS.to_string(),
        },
    }
}

/// At the end of a text.
fn missing(before: &[u8]) -> String {
    match (last(before), open(before)) {
        (None, _) => OPERAND.to_string(),
        (Some('^'), _) => "behind `^` a digit is missing".to_string(),
        (Some(c @ ('(' | '+' | '-' | '*')), _) => format!("behind `{c}` {OPERAND}"),
        (_, Some(i)) => format!("`)` is missing for the bracket at character {}", i + 1),
        (_, None) => LETTERS.to_string(),
    }
}

/// A character of formulas where none such stands.
fn misplaced(before: &[u8], c: char) -> String {
    let text = match (last(before), c) {
        (Some('^'), '^') => "one `^` is enough",
        (Some('^'), _) => DIGIT,
        (_, ')') if open(before).is_none() => "no bracket is open: leave it out",
        (Some('('), ')') => "nothing stands in the brackets",
        (None | Some('('), '-') => return format!("{FRONT}: write `0-t` for `-t`"),
        (Some('*'), '-') => return format!("{FRONT}: write `*(0-t)` for `*-t`"),
        (None | Some('(' | '*'), '+') => return format!("{FRONT}: leave it out"),
        (Some('*'), '*') => "write `t^2` for `t**2`",
        (Some(sign @ ('+' | '-')), '+' | '-') => {
            let one = if sign == c { '+' } else { '-' };
            return format!("write `{one}` for `{sign}{c}`");
        }
        (None | Some('(' | '+' | '-' | '*'), _) => return format!("before it {OPERAND}"),
        (_, '^') => "a power has no power: write `(t^2)^2` for `t^2^2`",
        (Some('0'..='9'), '0'..='9') => match before {
            [.., b'^', _] => DIGIT,
            _ => "a number has at most nine digits",
        },
        (Some(base), '0'..='9') => return format!("write `{base}*{c}` or `{base}^{c}`"),
        _ => return format!("write `{}*{c}`", factor(before)),
    };
    text.to_string()
}

/// A character that stands in no formula.
fn foreign(before: &[u8], c: char) -> String {
    let times = match last(before) {
        Some('0'..='9' | 't' | ')') => ", and `*` stands before it",
        _ => "",
    };
    let text = match c {
        'T' => return format!("the letter is a small `t`{times}"),
        'e' | 'E' if matches!(last(before), Some('0'..='9')) => {
            "numbers are whole: write `1000` for `1e3`"
        }
        '.' | ',' | '\u{BC}'..='\u{BE}' | '\u{2150}'..='\u{215E}' => WHOLE,
        '/' | ':' | '÷' | '\u{2044}' | '\u{2215}' => {
            "there is no division: write `t-4` for `t/2-2`"
        }
        '=' => "the formula is what is 0: leave out `=0`, write `t-4` for `t=4`",
        '[' | '{' => "brackets are round: write `(`",
        ']' | '}' => "brackets are round: write `)`",
        '\u{2010}'..='\u{2015}' | '\u{2212}' | '\u{FE63}' | '\u{FF0D}' => "the minus sign is `-`",
        '×' | '·' | '\u{2022}' | '\u{2217}' | '\u{2219}' | '\u{22C5}' => "write `*`",
        '"' | '\'' | '`' | '_' | '\u{2018}'..='\u{201F}' => "leave it out",
        '\u{200B}'..='\u{200D}' | '\u{2060}' | '\u{FEFF}' => "leave it out: it is not even seen",
        c if c.is_whitespace() => "there are no blanks in a formula: leave it out",
        c => {
            return match "⁰¹²³⁴⁵⁶⁷⁸⁹".chars().position(|raised| raised == c) {
                Some(power) => format!("write `^{power}`"),
                None if c.is_alphabetic() => format!("the one letter is `t`{times}"),
                None => LETTERS.to_string(),
            };
        }
    };
    text.to_string()
}

fn last(before: &[u8]) -> Option<char> {
    before.last().copied().map(char::from)
}

/// Where the last bracket is that is still open.
fn open(before: &[u8]) -> Option<usize> {
    let mut open = Vec::new();
    for (i, c) in before.iter().enumerate() {
        match c {
            b'(' => open.push(i),
            b')' => drop(open.pop()),
            _ => {}
        }
    }
    open.pop()
}

/// The end of the factor with which a text ends: a number, `t` or `)`, and its power.
fn factor(before: &[u8]) -> String {
    let base = if let [base @ .., b'^', _] = before { base } else { before };
    let digits = base.iter().rev().take_while(|c| c.is_ascii_digit()).count();
    String::from_utf8_lossy(&before[base.len() - digits.max(1)..]).into_owned()
}
