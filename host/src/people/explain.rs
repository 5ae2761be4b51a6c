//! Why listed roots are doubtful, in words, with the numbers.
use crate::compare::bits;
use crate::people::doubt::{Look, Point, REACH, SHARE, Value};
use crate::people::number::{rounded, shortest};
use crate::people::question::polynomial;
use crate::people::show::{Place, Shown};
use crate::people::table::{EMPTY, front, refused, wrapped};
use crate::truth::big::Big;
use crate::truth::hall_file::Kind;
use std::cmp::Ordering;

/// About m * 2^k, for numbers of any size.
#[derive(Clone, Copy)]
struct About {
    m: f64,
    k: i64,
}

impl About {
    /// n units of 2^unit.
    fn new(n: &Big, unit: i64) -> About {
        let behind = n.size().saturating_sub(64);
        About { m: n.shr(behind).low() as f64, k: unit + behind as i64 }
    }

    fn over(self, other: About) -> About {
        About { m: self.m / other.m, k: self.k - other.k }
    }

    /// To three digits.
    fn text(self) -> String {
        if self.m == 0.0 {
            return "0".to_string();
        }
        let log = self.m.log10() + self.k as f64 * 2f64.log10();
        if log.abs() < 300.0 {
            let half = self.k as i32 / 2;
            let x = self.m * 2f64.powi(half) * 2f64.powi(self.k as i32 - half);
            return three_digits(x);
        }
        let digits = format!("{:.2e}", 10f64.powf(log - log.floor()));
        let (digits, carried) = digits.split_once('e').unwrap_or((&digits, "0"));
        format!("{digits}e{}", log.floor() as i64 + carried.parse::<i64>().unwrap_or(0))
    }
}

/// |p|, and what part of its terms' sizes it is.
fn sizes(value: &Value) -> String {
    let [size, terms] = [value.size(), value.terms()].map(|n| About::new(&n, value.unit));
    let limit = About { m: 1.0, k: -(SHARE as i64) };
    let [part, size, terms, limit] = [size.over(terms), size, terms, limit].map(About::text);
    format!(
        "|p| is {size} and the sum of its terms' sizes {terms}: {part} of that is left, and \
         2^-{SHARE} is {limit}"
    )
}

/// The records with a doubtful root, and the one at which reading ends with a refusal.
pub fn doubtful(all: &[Shown]) -> String {
    if all.is_empty() {
        return EMPTY.to_string();
    }
    let told = all.iter().filter(|shown| shown.doubtful() || shown.item.record.is_err());
    let text: String = told.map(record).collect();
    let roots = || all.iter().flat_map(|shown| &shown.roots);
    let (listed, marked) = (roots().count(), roots().filter(|root| root.doubtful).count());
    let refusals = all.iter().filter(|shown| shown.refusal.is_some()).count();
    let counts = format!("records: {}, refused: {refusals}, ", all.len());
    text + &counts + &end(listed, marked)
}

/// One record, whatever it is.
pub fn named(shown: &Shown) -> String {
    let marked = shown.roots.iter().filter(|root| root.doubtful).count();
    match shown.refusal {
        Some(_) => record(shown),
        None => record(shown) + &end(shown.roots.len(), marked),
    }
}

/// How many roots are listed and how many are doubtful; and then the reasons.
fn end(listed: usize, marked: usize) -> String {
    match marked {
        0 => format!("roots: {listed}, none of them doubtful\n"),
        n => format!("roots: {listed}, doubtful: {n}\n") + &REASONS.map(wrapped).concat(),
    }
}

/// Why a root is doubtful, what that means, and what to do about it.
const REASONS: [&str; 3] = [
    "Why: where a root counts once, p goes through 0 from one side to the other, so within 2 \
     doubles of it p is 0 or has both signs. Where it counts more often p may only touch 0, but at \
     most 2^-47 of the sum of its terms' sizes is left of it. At a doubtful place that is not so.",
    "What it means: no root is there, or one further off than rounding puts it; or, where the \
     place counts more than once, it stands for roots that lie apart and that the tolerance joins. \
     The list is the one that the original program, geomcore's Rust, gives, and is kept bit for \
     bit: docs/DIFFERENCES.md, 'Wrong and kept', says for which equations it is wrong.",
    "What to do: set no crank and score no pin contact by a doubtful place. Such a list may lack \
     roots too: its other places are roots, but do not go by their number. Where the sizes of the \
     coefficients are far apart, put 0 for one that is there by rounding alone, or take a unit of \
     length in which the roots are about 1; where a doubtful place counts more than once, take a \
     smaller tolerance. Then list again.",
];

fn record(shown: &Shown) -> String {
    let text = front(shown);
    if let Some(refused) = refused(shown) {
        return text + &wrapped(&refused);
    }
    let roots = shown.roots.iter().map(|place| root(shown, place));
    text + &wrapped(&meant(shown)) + &roots.collect::<String>()
}

/// What p is.
fn meant(shown: &Shown) -> String {
    let name = match shown.item.kind {
        Some(Kind::Crank) => "u",
        Some(Kind::Contact | Kind::Formula) => "t",
        _ => "x",
    };
    let p = polynomial(&shown.coeffs, name);
    match shown.question == format!("{p} = 0") {
        true => "  p is the left side, computed without rounding".to_string(),
        false => format!("  p is {p}, computed without rounding: the places are those of p = 0"),
    }
}

fn root(shown: &Shown, root: &Place) -> String {
    let look = Look::at(&shown.coeffs, root.place, root.multiplicity);
    // what counts once is a crossing
    let times = match (root.multiplicity, root.listed) {
        (1, _) => "once".to_string(),
        (n, false) => format!("{n} times"),
        (n, true) => format!("{n} times, {}", root.kind.word()),
    };
    let (place, bits) = (shortest(root.place), bits(root.place));
    let front = format!("  {place} ({bits:016X}), {times}: ");
    if let (Some(ball), false) = (&root.ball, root.doubtful) {
        return wrapped(&format!("{front}a contact, D - R is {}", shortest(ball.beyond)));
    }
    match (look.doubtful(), look.multiple()) {
        (false, _) => wrapped(&(front + "a root, " + &trusted(&look))),
        (true, false) => wrapped(&(front + "doubtful")) + &no_crossing(&shown.coeffs, root, &look),
        (true, true) => wrapped(&(front + "doubtful")) + &no_touch(shown, root, &look),
    }
}

fn trusted(look: &Look) -> String {
    match (look.here().sign(), look.multiple()) {
        (Ordering::Equal, _) => "p is 0 there".to_string(),
        (_, false) => format!("p reaches 0 within {REACH} doubles of it"),
        (_, true) => sizes(look.here()),
    }
}

/// Of a root that counts once: the points that were looked at, and how far the sign is the same.
fn no_crossing(coeffs: &[f64], root: &Place, look: &Look) -> String {
    let (side, sign) = match look.here().sign() {
        Ordering::Less => ("below", "-"),
        _ => ("above", ""),
    };
    let mut text = format!("    p is {side} 0 at the place and {REACH} doubles to either side:\n");
    for (point, value) in &look.seen {
        let (place, bits) = match point.double() {
            Some(x) => (shortest(x), format!("{:016X}", bits(x))),
            None => ("beyond the largest double".to_string(), String::new()),
        };
        let size = About::new(&value.size(), value.unit).text();
        text += &format!("      {place:25} {bits:16}  p = {sign}{size}\n");
    }
    let (sizes, further) = (sizes(look.here()), further(coeffs, root.place));
    text + &wrapped(&format!("    At the place {sizes}. {further}."))
}

/// So many doubles are about a thousandth of a place.
const FURTHER: i64 = 1 << 42;

/// The first of 4, 8, 16 .. doubles from x within which p changes its sign.
fn further(coeffs: &[f64], x: f64) -> String {
    let sign = |steps| Look::sign(coeffs, Point::beside(x, steps));
    let here = sign(0);
    let changes = |steps: &i64| sign(*steps) != here || sign(-steps) != here;
    let found = (2..).map(|k| 1 << k).take_while(|steps| *steps <= FURTHER).find(changes);
    let steps = found.unwrap_or(FURTHER);
    let inward = Point::beside(x, if x > 0.0 { -steps } else { steps }).double();
    let off = three_digits((inward.unwrap_or(x) - x).abs());
    match found {
        Some(_) => format!("Further off p does change sign, within {steps} doubles, or {off}"),
        None => format!("Nor does p change sign further off, within {off}"),
    }
}

fn three_digits(x: f64) -> String {
    rounded(x, 3)
}

/// Of a root that counts more than once: what is left of p, and how far apart roots are joined.
fn no_touch(shown: &Shown, root: &Place, look: &Look) -> String {
    let tolerance = shown.item.record.as_ref().map_or(f64::NAN, |record| record.numbers()[0]);
    let band = tolerance * (1.0 + root.place.abs());
    let (sizes, band) = (sizes(look.here()), three_digits(band));
    wrapped(&format!(
        "    At the place {sizes}. The tolerance joins roots within {band} of their middle."
    ))
}

#[cfg(test)]
mod tests {
    use super::*;

    #[test]
    fn numbers_of_any_size() {
        let text = |n: u64, k| About::new(&Big::from(n), k).text();
        let known = [
            (0, 5, "0"),
            (1, 0, "1"),
            (3, -1, "1.5"),
            (1, -47, "7.11e-15"),
            (9_999, 0, "10000"),
            (1, 990, "1.05e298"),
            (1, 1000, "1.07e301"),
            (1, -1074, "4.94e-324"),
            (1, 4000, "1.32e1204"),
            (1, -4000, "7.59e-1205"),
        ];
        for (n, k, wanted) in known {
            assert_eq!(text(n, k), wanted, "{n} * 2^{k}");
        }
        assert_eq!(About::new(&Big::power_of_two(9000), -8999).text(), "2");
        let part = About::new(&Big::from(1u64), 900).over(About::new(&Big::from(3u64), 900));
        assert_eq!(part.text(), "0.333");
    }

    /// The reasons name the two numbers of the test.
    #[test]
    fn reasons() {
        assert!(REASONS[0].contains(&format!("within {REACH} doubles")));
        assert!(REASONS[0].contains(&format!("2^-{SHARE} of the sum")));
    }
}
