//! The question of a record, as people write it.
use crate::people::marked;
use crate::people::mistyped::is_sum;
use crate::people::number::{shortest, word};
use crate::truth::contact::Contact;
use crate::truth::formula;
use crate::truth::hall_file::Record;

/// The equation, its highest power first.
pub fn equation(record: &Record) -> String {
    let sum = match record {
        Record::List { coeffs, .. } => polynomial(coeffs, "x"),
        Record::Quadratic { abc: [a, b, c], .. } => polynomial(&[*c, *b, *a], "x"),
        Record::Crank { terms, .. } => {
            let names = ["cos 2t", "sin 2t", "cos t", "sin t", ""].map(str::to_string);
            sum(terms.iter().copied().zip(names))
        }
        Record::Contact(contact) => return from_centre(contact),
        Record::Formula { text, .. } => return marked::row(text) + behind(text),
    };
    format!("{sum} = 0")
}

/// What stands behind a formula's text; one that is no sum is no side of an equation.
pub fn behind(text: &[u8]) -> &'static str {
    if is_sum(text) { " = 0" } else { "" }
}

/// The equation of a formula, multiplied out; none where it has no polynomial, or is no formula.
pub fn expanded(record: &Record) -> Option<String> {
    let Record::Formula { text, .. } = record else {
        return None;
    };
    let coeffs = formula::coefficients(text).ok()?;
    Some(format!("{} = 0", polynomial(&coeffs, "t")))
}

/// The ball's distance from the circle's centre is the radius.
fn from_centre(contact: &Contact) -> String {
    let [x, y] = [contact.x, contact.y].map(|path| polynomial(&path, "t"));
    let [cx, cy] = contact.centre.map(shortest);
    format!("|({x}, {y}) - ({cx}, {cy})| = {}", shortest(contact.radius))
}

/// The tolerances, each behind its name.
pub fn tolerances(record: &Record) -> String {
    match record {
        Record::List { tolerance, .. } | Record::Formula { tolerance, .. } => {
            format!("tol {}", word(*tolerance))
        }
        Record::Quadratic { confusion, angular, .. } => {
            format!("confusion {}, angular {}", word(*confusion), word(*angular))
        }
        Record::Crank { confusion, .. } | Record::Contact(Contact { confusion, .. }) => {
            format!("confusion {}", word(*confusion))
        }
    }
}

/// With these coefficients, ascending, in the variable of this name.
pub fn polynomial(coeffs: &[f64], name: &str) -> String {
    let power = |i: usize| match i {
        0 => String::new(),
        1 => name.to_string(),
        i => format!("{name}^{i}"),
    };
    sum(coeffs.iter().enumerate().rev().map(|(i, a)| (*a, power(i))))
}

/// Numbers times names; what is 0 is left out.
fn sum(terms: impl Iterator<Item = (f64, String)>) -> String {
    let mut text = String::new();
    for (factor, name) in terms.filter(|term| term.0 != 0.0) {
        let below = factor.is_sign_negative() && !factor.is_nan();
        text += match (text.is_empty(), below) {
            (true, false) => "",
            (true, true) => "-",
            (false, false) => " + ",
            (false, true) => " - ",
        };
        text += &match (factor.abs(), &name[..]) {
            (size, "") => shortest(size),
            (1.0, name) => name.to_string(),
            (size, name) => format!("{} {name}", shortest(size)),
        };
    }
    if text.is_empty() { "0".to_string() } else { text }
}

#[cfg(test)]
mod tests {
    use super::*;
    use crate::people::text::read;

    #[test]
    fn questions() {
        let known = [
            ("list 2^-30 2 -3 1", "tol 2^-30", "x^2 - 3 x + 2 = 0"),
            ("list 1e-7 -1 0 0 -1 -2.5 0", "tol 1e-7", "-2.5 x^4 - x^3 - 1 = 0"),
            ("list 1 0 -0", "tol 1", "0 = 0"),
            ("list 1 5", "tol 1", "5 = 0"),
            ("list 1 nan -inf 1e300", "tol 1", "1e300 x^2 - inf x + nan = 0"),
            ("quad 1 2 1 -3 2", "confusion 1, angular 2", "x^2 - 3 x + 2 = 0"),
            (
                "crank 1 1 2 -3 -1 0.5",
                "confusion 1",
                "cos 2t + 2 sin 2t - 3 cos t - sin t + 0.5 = 0",
            ),
            ("crank 1 0 0 1 0 0", "confusion 1", "cos t = 0"),
            ("crank 1 0 0 0 0 1", "confusion 1", "1 = 0"),
            ("formula 1 (t-2)^2", "tol 1", "(t-2)^2 = 0"),
            ("formula 1 t^5", "tol 1", "t^5 = 0"),
            ("formula 1 0x743D30", "tol 1", "t=0"),
            ("formula 1 0x74FF", "tol 1", "t\\xff"),
            (
                "contact 1 4 0 0 -10 2 -1 1 0 5",
                "confusion 1",
                "|(4, -t^2 + 2 t - 10) - (1, 0)| = 5",
            ),
        ];
        for (line, names, text) in known {
            let record = &read(line.as_bytes()).unwrap()[0];
            assert_eq!((tolerances(record), equation(record)), (names.into(), text.into()));
        }
        let expanded = |line: &str| expanded(&read(line.as_bytes()).unwrap()[0]);
        assert_eq!(expanded("formula 1 (t-2)^2*(0-t)"), Some("-t^3 + 4 t^2 - 4 t = 0".into()));
        assert_eq!(expanded("formula 1 0*t^4*t"), Some("0 = 0".into()));
        assert_eq!(expanded("formula 1 9^9*t"), Some("387420489 t = 0".into()));
        for line in ["formula 1 t^5", "formula 1 0x", "list 1 1 1"] {
            assert_eq!(expanded(line), None, "{line}");
        }
    }
}
