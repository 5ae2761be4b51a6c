//! A formula of document 02, 'Formulas as mechanics write them': its text to a tree, and the tree to
//! the coefficients of its polynomial, exact over whole numbers.
use crate::truth::refusals;
use std::ops::Range;

/// A record's text has at most so many bytes.
pub const MOST_BYTES: usize = 255;

/// A part of a higher degree is refused.
const MOST_DEGREE: usize = 4;

/// A part with a coefficient of a larger size is refused.
const MOST_SIZE: u128 = 1 << 53;

/// A whole number has at most so many digits.
const MOST_DIGITS: usize = 9;

/// Why a text has no polynomial.
#[derive(Clone, Debug, PartialEq, Eq)]
pub enum Fault {
    /// No sum begins with the bytes up to this one; where the text ends too early, its length.
    NotASum { at: usize },
    /// These bytes are a part of this degree.
    Degree { part: Range<usize>, degree: usize },
    /// These bytes are a part with this coefficient, of several that are too large the one with the
    /// lowest power.
    Size { part: Range<usize>, coefficient: i128, power: usize },
}

impl Fault {
    pub fn refusal(&self) -> u8 {
        match self {
            Fault::NotASum { .. } => refusals::NOT_A_SUM,
            Fault::Degree { .. } => refusals::DEGREE_TOO_HIGH,
            Fault::Size { .. } => refusals::COEFFICIENT_TOO_LARGE,
        }
    }
}

/// What joins two parts.
#[derive(Clone, Copy, Debug, PartialEq, Eq)]
enum Operator {
    Plus,
    Minus,
    Times,
}

/// A part, and the bytes that it has.
#[derive(Clone, Debug)]
struct Part {
    bytes: Range<usize>,
    form: Form,
}

#[derive(Clone, Debug)]
enum Form {
    Number(i128),
    T,
    Bracket(Box<Part>),
    Power(Box<Part>, u8),
    Join(Box<Part>, Operator, Box<Part>),
}

/// Reads from the front on; every byte is looked at before it is taken.
struct Reader<'a> {
    text: &'a [u8],
    at: usize,
}

impl Reader<'_> {
    fn next(&self) -> Option<u8> {
        self.text.get(self.at).copied()
    }

    fn takes(&mut self, byte: u8) -> bool {
        let there = self.next() == Some(byte);
        self.at += usize::from(there);
        there
    }

    fn stuck<T>(&self) -> Result<T, Fault> {
        Err(Fault::NotASum { at: self.at })
    }

    fn whole(&mut self) -> Result<Part, Fault> {
        let sum = self.sum()?;
        if self.at == self.text.len() { Ok(sum) } else { self.stuck() }
    }

    fn sum(&mut self) -> Result<Part, Fault> {
        let mut left = self.term()?;
        loop {
            let operator = match self.next() {
                Some(b'+') => Operator::Plus,
                Some(b'-') => Operator::Minus,
                _ => return Ok(left),
            };
            self.at += 1;
            left = join(left, operator, self.term()?);
        }
    }

    fn term(&mut self) -> Result<Part, Fault> {
        let mut left = self.factor()?;
        while self.takes(b'*') {
            left = join(left, Operator::Times, self.factor()?);
        }
        Ok(left)
    }

    fn factor(&mut self) -> Result<Part, Fault> {
        let base = self.base()?;
        if !self.takes(b'^') {
            return Ok(base);
        }
        match self.next() {
            Some(digit @ b'0'..=b'9') => {
                self.at += 1;
                let bytes = base.bytes.start..self.at;
                Ok(Part { bytes, form: Form::Power(Box::new(base), digit - b'0') })
            }
            _ => self.stuck(),
        }
    }

    fn base(&mut self) -> Result<Part, Fault> {
        let start = self.at;
        let form = match self.next() {
            Some(b'0'..=b'9') => Form::Number(self.number()),
            Some(b't') => {
                self.at += 1;
                Form::T
            }
            Some(b'(') => {
                self.at += 1;
                let inner = self.sum()?;
                if !self.takes(b')') {
                    return self.stuck();
                }
                Form::Bracket(Box::new(inner))
            }
            _ => return self.stuck(),
        };
        Ok(Part { bytes: start..self.at, form })
    }

    fn number(&mut self) -> i128 {
        let rest = &self.text[self.at..];
        let digits = rest.iter().take(MOST_DIGITS).take_while(|byte| byte.is_ascii_digit());
        let (count, number) = digits
            .fold((0, 0), |(n, so_far), digit| (n + 1, 10 * so_far + i128::from(digit - b'0')));
        self.at += count;
        number
    }
}

fn join(left: Part, operator: Operator, right: Part) -> Part {
    let bytes = left.bytes.start..right.bytes.end;
    Part { bytes, form: Form::Join(Box::new(left), operator, Box::new(right)) }
}

/// Coefficients, ascending, the last one not 0.
type Polynomial = Vec<i128>;

impl Part {
    fn expanded(&self) -> Result<Polynomial, Fault> {
        match &self.form {
            Form::Number(n) => self.allowed(vec![*n]),
            Form::T => self.allowed(vec![0, 1]),
            Form::Bracket(inner) => self.allowed(inner.expanded()?),
            Form::Power(base, power) => {
                let base = base.expanded()?;
                (0..*power).try_fold(vec![1], |so_far, _| self.allowed(product(&so_far, &base)))
            }
            Form::Join(left, operator, right) => {
                let (left, right) = (left.expanded()?, right.expanded()?);
                self.allowed(match operator {
                    Operator::Plus => sum(&left, &right, 1),
                    Operator::Minus => sum(&left, &right, -1),
                    Operator::Times => product(&left, &right),
                })
            }
        }
    }

    /// Without zeros at its end, where it meets the limits.
    fn allowed(&self, mut coeffs: Polynomial) -> Result<Polynomial, Fault> {
        while coeffs.last() == Some(&0) {
            coeffs.pop();
        }
        let part = self.bytes.clone();
        if coeffs.len() > MOST_DEGREE + 1 {
            return Err(Fault::Degree { part, degree: coeffs.len() - 1 });
        }
        match coeffs.iter().position(|c| c.unsigned_abs() > MOST_SIZE) {
            Some(power) => Err(Fault::Size { part, coefficient: coeffs[power], power }),
            None => Ok(coeffs),
        }
    }
}

/// a + sign b.
fn sum(a: &[i128], b: &[i128], sign: i128) -> Polynomial {
    let at = |coeffs: &[i128], i| coeffs.get(i).copied().unwrap_or(0);
    (0..a.len().max(b.len())).map(|i| at(a, i) + sign * at(b, i)).collect()
}

/// Of two parts that meet the limits a coefficient has a size of at most 5 * 2^106.
fn product(a: &[i128], b: &[i128]) -> Polynomial {
    let mut all = vec![0; a.len() + b.len()];
    for (i, x) in a.iter().enumerate() {
        for (j, y) in b.iter().enumerate() {
            all[i + j] += x * y;
        }
    }
    all
}

/// The coefficients of a text, ascending, the last one not 0.
pub fn expanded(text: &[u8]) -> Result<Vec<i128>, Fault> {
    Reader { text, at: 0 }.whole()?.expanded()
}

/// The same as doubles, a zero being +0.
pub fn coefficients(text: &[u8]) -> Result<Vec<f64>, Fault> {
    Ok(expanded(text)?.into_iter().map(|c| c as f64).collect())
}

#[cfg(test)]
mod tests {
    use super::*;
    use crate::inputs::formulas::{KINDS, short_texts, text};
    use crate::inputs::random::Random;

    /// The grammar as document 02 says it, over every way to divide a text.
    fn is_sum(text: &[u8]) -> bool {
        is_term(text) || joined(text, b"+-", is_sum, is_term)
    }

    fn is_term(text: &[u8]) -> bool {
        is_factor(text) || joined(text, b"*", is_term, is_factor)
    }

    fn joined(text: &[u8], by: &[u8], left: fn(&[u8]) -> bool, right: fn(&[u8]) -> bool) -> bool {
        let split = |i: usize| by.contains(&text[i]) && left(&text[..i]) && right(&text[i + 1..]);
        (0..text.len()).any(split)
    }

    fn is_factor(text: &[u8]) -> bool {
        is_base(text) || matches!(text, [base @ .., b'^', b'0'..=b'9'] if is_base(base))
    }

    fn is_base(text: &[u8]) -> bool {
        match text {
            b"t" => true,
            [b'(', inner @ .., b')'] => is_sum(inner),
            _ => (1..=9).contains(&text.len()) && text.iter().all(u8::is_ascii_digit),
        }
    }

    /// Whether some sum begins so: a digit may be missing, and brackets may be open.
    fn begins_a_sum(text: &[u8]) -> bool {
        let ends = |close: usize| {
            [&b""[..], b"1"].iter().any(|one| is_sum(&[text, one, &vec![b')'; close]].concat()))
        };
        (0..=text.len()).any(ends)
    }

    #[test]
    fn sums_are_those_of_the_grammar() {
        let (mut all, mut sums) = (0, 0);
        for text in short_texts(6) {
            all += 1;
            let read = Reader { text: &text, at: 0 }.whole();
            let shown = || text.escape_ascii().to_string();
            match read {
                Ok(part) => {
                    sums += 1;
                    assert!(is_sum(&text), "{}", shown());
                    assert_eq!(part.bytes, 0..text.len(), "{}", shown());
                }
                Err(Fault::NotASum { at }) => {
                    assert!(!is_sum(&text), "{}", shown());
                    assert!(begins_a_sum(&text[..at]), "{} {at}", shown());
                    let no_more = at == text.len() || !begins_a_sum(&text[..=at]);
                    assert!(no_more, "{} {at}", shown());
                }
                Err(fault) => panic!("{} {fault:?}", shown()),
            }
        }
        assert_eq!((all, sums), (299_593, 383));
    }

    const PRIME: i128 = (1 << 61) - 1;

    /// The value at x modulo that prime.
    fn value(part: &Part, x: i128) -> i128 {
        let all = match &part.form {
            Form::Number(n) => *n,
            Form::T => x,
            Form::Bracket(inner) => value(inner, x),
            Form::Power(base, power) => {
                let base = value(base, x);
                (0..*power).fold(1, |so_far, _| so_far * base % PRIME)
            }
            Form::Join(left, Operator::Plus, right) => value(left, x) + value(right, x),
            Form::Join(left, Operator::Minus, right) => value(left, x) - value(right, x),
            Form::Join(left, Operator::Times, right) => value(left, x) * value(right, x),
        };
        all.rem_euclid(PRIME)
    }

    #[test]
    fn coefficients_have_the_values_of_the_text() {
        let (mut r, mut made, mut answered) = (Random::new(13), Vec::new(), 0);
        for n in 0..120_000 {
            text(&mut r, n % KINDS.len(), &mut made);
            let Ok(part) = Reader { text: &made, at: 0 }.whole() else { continue };
            let Ok(coeffs) = part.expanded() else { continue };
            answered += 1;
            let x = i128::from(r.below(PRIME as u64));
            let by_coeffs = coeffs.iter().rev().fold(0, |sum, c| (sum * x + c).rem_euclid(PRIME));
            assert_eq!(by_coeffs, value(&part, x), "{}", made.escape_ascii());
            assert_ne!(coeffs.last(), Some(&0));
        }
        assert!(answered > 60_000, "{answered}");
    }

    #[test]
    fn places_where_no_sum_goes_on() {
        for (text, at) in [
            (&b""[..], 0),
            (b"t^12", 3),
            (b"t^2^2", 3),
            (b"t^t", 2),
            (b"t^", 2),
            (b"2t", 1),
            (b"t(", 1),
            (b"t)", 1),
            (b"(t-2", 4),
            (b"()", 1),
            (b"-t", 0),
            (b"(-t)", 1),
            (b"+t", 0),
            (b"t--1", 2),
            (b"T", 0),
            (b"t +1", 1),
            (b"\xC3\xA9", 0),
            (b"t*", 2),
            (b"1234567890", 9),
            (b"0123456789*t", 9),
        ] {
            let told = expanded(text);
            assert_eq!(told, Err(Fault::NotASum { at }), "{}", text.escape_ascii());
        }
        assert_eq!(expanded(&[b'('; 255]), Err(Fault::NotASum { at: 255 }));
    }

    #[test]
    fn refusals_in_order() {
        let degree = |part, degree| Err(Fault::Degree { part, degree });
        let size = |part, coefficient, power| Err(Fault::Size { part, coefficient, power });
        for (text, wanted) in [
            (&b"(t-2)^2*(t+1)"[..], Ok(vec![4, 0, -3, 1])),
            (b"t^0", Ok(vec![1])),
            (b"0^0", Ok(vec![1])),
            (b"0*t^4*t", Ok(vec![])),
            (b"(t-t)^9*t^4", Ok(vec![])),
            (b"9-7-1", Ok(vec![1])),
            (b"000000007", Ok(vec![7])),
            (b"(t^5)^0", degree(1..4, 5)),
            (b"0*t^5", degree(2..5, 5)),
            (b"t^5-t^5", degree(0..3, 5)),
            (b"t^4*t-t^4*t", degree(0..5, 5)),
            (b"1+t*t*t^3*2", degree(2..9, 5)),
            (b"(1000*t)^9", degree(0..10, 5)),
            (b"(10000*t)^9", size(0..11, 10i128.pow(16), 4)),
            (b"(999999999*t^4+1)*(999999999*t^4+1)", degree(0..35, 8)),
            (b"94906267^2", size(0..10, 94906267i128.pow(2), 0)),
            (b"94906265^2", Ok(vec![94906265i128.pow(2)])),
            (b"90071992*100000000+54740992", Ok(vec![1 << 53])),
            (b"90071992*100000000+54740993", size(0..27, (1 << 53) + 1, 0)),
            (b"0-90071992*100000000-54740992", Ok(vec![-(1 << 53)])),
            (b"0-90071992*100000000-54740993", size(0..29, -(1 << 53) - 1, 0)),
        ] {
            assert_eq!(expanded(text), wanted, "{}", text.escape_ascii());
        }
        // what is no sum at its end is none, whatever stands before
        assert_eq!(expanded(b"t^5+99999999^9)"), Err(Fault::NotASum { at: 14 }));
    }

    #[test]
    fn zeros_are_positive() {
        let bits = |text: &[u8]| coefficients(text).unwrap().iter().map(|c| c.to_bits()).max();
        assert_eq!(bits(b"t^2-t-t^2+2*t"), Some(1.0f64.to_bits()));
        assert_eq!(bits(b"(0-1)*0*t+t"), Some(1.0f64.to_bits()));
        assert_eq!(coefficients(b"0-t").unwrap(), [0.0, -1.0]);
    }

    #[test]
    fn deep_brackets() {
        let within = |open: usize, close: usize| {
            [&vec![b'('; open][..], b"t", &vec![b')'; close][..]].concat()
        };
        assert_eq!(expanded(&within(127, 127)), Ok(vec![0, 1]));
        assert_eq!(expanded(&within(127, 126)), Err(Fault::NotASum { at: 254 }));
        assert_eq!(expanded(&within(126, 128)), Err(Fault::NotASum { at: 253 }));
    }
}
