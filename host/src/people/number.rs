//! Numbers as people type them, and words that read back as the same double.
use crate::truth::exact;

const FORMS: &str = "no number: a number is a decimal, 1/2, 2^k, 10^k, inf, -inf, nan, or 0x and 16 \
                     hexadecimal digits";

/// The double that a word stands for, or why there is none. Capital letters count as small ones.
pub fn number(word: &str) -> Result<f64, String> {
    if let Some(c) = word.chars().find(|c| !(c.is_ascii_alphanumeric() || ".+-^/".contains(*c))) {
        return Err(format!("no number: {}", character(c)));
    }
    let word = word.to_ascii_lowercase();
    if let Some(digits) = word.strip_prefix("0x") {
        return by_bits(digits);
    }
    if word == "nan" {
        return Ok(f64::NAN);
    }
    let (sign, size) = match word.as_bytes().first() {
        Some(b'-') => (-1.0, &word[1..]),
        Some(b'+') => (1.0, &word[1..]),
        _ => (1.0, &word[..]),
    };
    Ok(sign * without_sign(size)?)
}

fn without_sign(size: &str) -> Result<f64, String> {
    if size == "inf" {
        return Ok(f64::INFINITY);
    }
    match (size.split_once('^'), size.split_once('/')) {
        (Some(("2", power)), _) => power_of_two(power),
        (Some(("10", power)), _) if is_whole(power) => decimal(&format!("1e{power}")),
        (Some(_), _) => Err("no number: a power is 2^k or 10^k, for a whole k".to_string()),
        (None, Some((above, below))) => fraction(above, below),
        (None, None) => decimal(size),
    }
}

/// Names a character that stands in no number, and says what to type where that is known.
pub fn character(c: char) -> String {
    let hint = match c {
        ',' => ": a decimal has a point, and numbers stand apart by spaces",
        '\u{2010}'..='\u{2015}' | '\u{2212}' | '\u{FE63}' | '\u{FF0D}' => ": the minus sign is `-`",
        '\u{BC}'..='\u{BE}' | '\u{2150}'..='\u{215E}' | '\u{2044}' => ": write a fraction as 1/2",
        '\u{B2}' | '\u{B3}' | '\u{B9}' | '\u{2070}'..='\u{207F}' => ": write a power as 10^-9",
        '\u{221E}' => ": write inf",
        '\u{FEFF}' => ": a byte order mark stands at the start of a text alone",
        '\'' | '_' => ": the digits of a number stand together",
        '*' | '\u{D7}' | '\u{B7}' => ": write 3e-9 for three times 10^-9",
        _ => " stands in no number",
    };
    named(c) + hint
}

/// A character; its number too where that is not ASCII, and alone where it is not seen.
pub fn named(c: char) -> String {
    match c {
        '\u{21}'..='\u{7E}' => format!("`{c}`"),
        c if c == ' ' || c.escape_debug().len() > 1 => format!("U+{:04X}", c as u32),
        c => format!("`{c}` (U+{:04X})", c as u32),
    }
}

fn by_bits(digits: &str) -> Result<f64, String> {
    let whole = digits.len() == 16 && digits.bytes().all(|b| b.is_ascii_hexdigit());
    match u64::from_str_radix(digits, 16) {
        Ok(bits) if whole => Ok(f64::from_bits(bits)),
        _ => Err("no bits of a double: those are 0x and 16 hexadecimal digits".to_string()),
    }
}

fn is_digits(text: &str) -> bool {
    !text.is_empty() && text.bytes().all(|b| b.is_ascii_digit())
}

fn is_whole(text: &str) -> bool {
    is_digits(text.strip_prefix(['-', '+']).unwrap_or(text))
}

fn power_of_two(power: &str) -> Result<f64, String> {
    if !is_whole(power) {
        return Err(FORMS.to_string());
    }
    match power.parse::<i32>() {
        Ok(k @ -1074..=1023) => Ok(exact::nearest(1, k)),
        _ => Err("no double: the power of two must be from -1074 to 1023".to_string()),
    }
}

/// Up to 2^53 whole numbers are doubles, so that their quotient is rounded once.
fn fraction(above: &str, below: &str) -> Result<f64, String> {
    let whole = |text: &str| text.parse::<u64>().ok().filter(|n| *n <= 1 << 53);
    match (whole(above), whole(below)) {
        _ if !(is_digits(above) && is_digits(below)) => {
            Err("no number: a fraction is of two whole numbers, as 1/2 or -3/4".to_string())
        }
        (_, Some(0)) => Err("no number: a fraction over 0".to_string()),
        (Some(above), Some(below)) => Ok(above as f64 / below as f64),
        _ => Err("no double: the numbers of a fraction are at most 2^53".to_string()),
    }
}

/// The double nearest to a decimal without a sign.
fn decimal(size: &str) -> Result<f64, String> {
    let plain = size.bytes().all(|b| b.is_ascii_digit() || b".e+-".contains(&b));
    let digits = size.split('e').next().unwrap_or(size);
    let zero = !digits.bytes().any(|b| matches!(b, b'1'..=b'9'));
    match size.parse::<f64>() {
        Ok(x) if plain && !size.starts_with(['+', '-']) => match x {
            _ if x.is_infinite() => {
                Err("beyond the largest double: write inf where that is meant".to_string())
            }
            0.0 if !zero => {
                Err("below the smallest double: write 0 where that is meant".to_string())
            }
            _ => Ok(x),
        },
        _ => Err(FORMS.to_string()),
    }
}

/// The shortest decimal that reads back as x; a NaN is `nan`.
pub fn shortest(x: f64) -> String {
    if x.is_nan() {
        return "nan".to_string();
    }
    let text = format!("{x:?}");
    text.strip_suffix(".0").map(str::to_string).unwrap_or(text)
}

/// A longer number is written with a power of ten, where that is shorter.
const LONG: usize = 9;

/// x to so many digits, or the shortest decimal where that would be beyond the largest double.
pub fn rounded(x: f64, digits: usize) -> String {
    let near = format!("{:.*e}", digits - 1, x).parse::<f64>();
    let near = near.ok().filter(|y| y.is_finite()).unwrap_or(x) + 0.0;
    let (plain, power) = (shortest(near), format!("{near:e}"));
    if plain.len() > LONG && power.len() < plain.len() { power } else { plain }
}

/// A word that reads back as the same bits: a power of two, the shortest decimal, or bits.
pub fn word(x: f64) -> String {
    let size = x.abs();
    let power = exact::exponent(x);
    let sign = if x.is_sign_negative() { "-" } else { "" };
    match number(&format!("2^{power}")) {
        Ok(y) if y == size && power.abs() > 9 => format!("{sign}2^{power}"),
        _ if x.is_nan() && x.to_bits() != f64::NAN.to_bits() => format!("0x{:016X}", x.to_bits()),
        _ => shortest(x),
    }
}

#[cfg(test)]
mod tests {
    use super::*;
    use crate::inputs::random::Random;

    #[test]
    fn numbers() {
        let known = [
            ("1", 1.0),
            ("-1.5", -1.5),
            ("+2", 2.0),
            ("0.1", 0.1),
            (".5", 0.5),
            ("5.", 5.0),
            ("1e-3", 0.001),
            ("1E+3", 1000.0),
            ("-0", -0.0),
            ("0e-400", 0.0),
            ("2^-30", 1.0 / (1u64 << 30) as f64),
            ("-2^3", -8.0),
            ("+2^+3", 8.0),
            ("2^-1074", f64::from_bits(1)),
            ("2^1023", f64::from_bits(0x7FE0 << 48)),
            ("10^-9", 1e-9),
            ("-10^+3", -1000.0),
            ("10^0", 1.0),
            ("1/2", 0.5),
            ("-1/3", -1.0 / 3.0),
            ("0/5", 0.0),
            ("9007199254740992/3", 9007199254740992.0 / 3.0),
            ("inf", f64::INFINITY),
            ("-inf", f64::NEG_INFINITY),
            ("-INF", f64::NEG_INFINITY),
            ("nan", f64::NAN),
            ("NaN", f64::NAN),
            ("0x3FF0000000000000", 1.0),
            ("0X3ff0000000000000", 1.0),
            ("0xfff0000000000001", f64::from_bits(0xFFF0_0000_0000_0001)),
            ("3e-324", f64::from_bits(1)),
            ("179769313486231580793728971405301e276", f64::MAX),
        ];
        for (word, x) in known {
            assert_eq!(number(word).map(f64::to_bits), Ok(x.to_bits()), "{word}");
        }
    }

    #[test]
    fn no_numbers() {
        let words = "- + x 1e e5 . --1 +-1 -+1 -nan infinity 2^ 2^x 2^1024 2^-1075 2^--1 2^99999999999 \
                     3^2 10^ 10^x 10^0.5 10^400 10^-400 1/ /2 1/0 1/2/3 0.5/2 1/-2 9007199254740993/1 \
                     99999999999999999999/1 0x 0x1 0x3FF00000000000000 0x3FF000000000000G \
                     0x+3FF00000000000 -0x0 1e400 1e-400 -2e-324";
        for word in words.split(' ').chain([""]) {
            assert!(number(word).is_err(), "{word}");
        }
    }

    #[test]
    fn characters_are_named() {
        let known = [
            ("1,5", "`,`: a decimal has a point"),
            ("\u{2212}1", "`\u{2212}` (U+2212): the minus sign is `-`"),
            ("\u{2013}1", "`\u{2013}` (U+2013): the minus sign is `-`"),
            ("½", "`½` (U+00BD): write a fraction as 1/2"),
            ("10⁻⁹", "`⁻` (U+207B): write a power as 10^-9"),
            ("∞", "`∞` (U+221E): write inf"),
            ("1_000", "`_`: the digits of a number stand together"),
            ("3*10^-9", "`*`: write 3e-9"),
            ("5°", "`°` (U+00B0) stands in no number"),
            ("\u{FEFF}1", "U+FEFF: a byte order mark"),
            ("1\0", "U+0000 stands in no number"),
            ("1\u{200B}", "U+200B stands in no number"),
        ];
        for (word, why) in known {
            let said = number(word).unwrap_err();
            assert!(said.starts_with(&format!("no number: {why}")), "{word}: {said}");
        }
    }

    #[test]
    fn words_read_back() {
        let mut r = Random::new(3);
        for _ in 0..200_000 {
            let x = r.any();
            assert_eq!(number(&word(x)).map(f64::to_bits), Ok(x.to_bits()), "{}", word(x));
            if !x.is_nan() {
                assert_eq!(number(&shortest(x)).map(f64::to_bits), Ok(x.to_bits()));
            }
        }
        let shown = [1.0, -0.0, 0.1, 1e300, -2.5, 1.0 / (1u64 << 30) as f64].map(word);
        assert_eq!(shown, ["1", "-0", "0.1", "1e300", "-2.5", "2^-30"]);
    }
}
