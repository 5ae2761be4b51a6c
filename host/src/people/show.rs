//! A listing, with what people want to see beside it.
use crate::people::doubt::Look;
use crate::people::{mistyped, question};
use crate::truth::formula::{self, Fault};
use crate::truth::hall_file::{Item, Kind, MOST_LISTED, Record, items};
use crate::truth::kind;
use crate::truth::lister::{Answer, Line, Listed, Solution, Total};
use crate::truth::listing::lines;
use crate::truth::refusals::in_words;
use std::cmp::Ordering;

/// How a lister is called: the bytes of a file, and a buffer for the listing; its whole length comes
/// back, and what the buffer cannot hold is left out.
pub type ListFile = fn(&[u8], &mut [u8]) -> u64;

/// The whole listing that a lister writes.
pub fn whole_listing(bytes: &[u8], list_file: ListFile) -> Vec<u8> {
    let mut out = vec![0; MOST_LISTED];
    let len = list_file(bytes, &mut out) as usize;
    if len > out.len() {
        out.resize(len, 0);
        list_file(bytes, &mut out);
    }
    out.truncate(len);
    out
}

/// What a file holds, and the lister's lines; an error where these are not a line for each record
/// and their total.
pub fn answered(bytes: &[u8], list_file: ListFile) -> Result<Vec<(Item, Line)>, String> {
    of_records(bytes, lines(&whole_listing(bytes, list_file))?)
}

/// What a file holds, each with its line; an error where the lines are not those of its records.
pub fn of_records(bytes: &[u8], lines: Vec<Line>) -> Result<Vec<(Item, Line)>, String> {
    let items = items(bytes);
    let same = |(item, line): (&Item, &Line)| item.number == line.number && item.kind == line.kind;
    if items.len() != lines.len() || !items.iter().zip(&lines).all(same) {
        let (n, m) = (lines.len(), items.len());
        return Err(format!("the {n} lines of the listing are not those of the {m} records"));
    }
    Ok(items.into_iter().zip(lines).collect())
}

/// A record and its answer, for people.
pub struct Shown {
    pub item: Item,
    pub kind: &'static str,
    /// The question, and its tolerances; nothing where there is no whole record.
    pub question: String,
    pub tolerances: String,
    /// The equation of a formula that is answered, multiplied out.
    pub expanded: String,
    /// Where a formula went wrong.
    pub fault: Option<Fault>,
    /// What the answer is, without its places.
    pub answer: String,
    /// Its number, and the reason in words.
    pub refusal: Option<(u8, String)>,
    /// How many square systems were solved for it, where that is to be shown.
    pub systems: Option<u32>,
    /// The coefficients, ascending, of the polynomial whose roots are listed; empty for a refusal.
    pub coeffs: Vec<f64>,
    /// Those of a crank in the order of their angles.
    pub roots: Vec<Place>,
}

impl Shown {
    /// Whether one of its roots is.
    pub fn doubtful(&self) -> bool {
        self.roots.iter().any(|root| root.doubtful)
    }
}

/// A place of an answer.
pub struct Place {
    pub place: f64,
    /// How often it counts.
    pub multiplicity: u32,
    pub kind: kind::Kind,
    /// Whether the listing says both: not of a quadratic.
    pub listed: bool,
    /// t of a crank's root, in degrees.
    pub angle: Option<f64>,
    /// Of a contact.
    pub ball: Option<Ball>,
    pub doubtful: bool,
}

/// Where a ball is.
pub struct Ball {
    pub at: [f64; 2],
    /// D - R: its distance from the circle, below 0 inside.
    pub beyond: f64,
}

/// All records of a file, and the total; an error where the listing is not that of the file.
pub fn shown(bytes: &[u8], list_file: ListFile) -> Result<(Vec<Shown>, Total), String> {
    let all = answered(bytes, list_file)?;
    let total = Total::of(all.iter().map(|(_, line)| &line.answer));
    let shown = all.into_iter().map(|(item, line)| shown_record(bytes, item, &line));
    Ok((shown.collect(), total))
}

fn shown_record(bytes: &[u8], item: Item, line: &Line) -> Shown {
    let fault = match &item.record {
        Ok(Record::Formula { text, .. }) => formula::expanded(text).err(),
        _ => None,
    };
    let refusal = match line.answer {
        Answer::Refused(number) => Some((number, why(bytes, &item, number, &fault))),
        _ => None,
    };
    let expanded = item.record.as_ref().ok().filter(|_| refusal.is_none());
    let text = |of: fn(&Record) -> String| item.record.as_ref().map(of).unwrap_or_default();
    let coeffs = item.record.as_ref().map(|record| equation(record, &line.answer));
    let coeffs = coeffs.unwrap_or_default();
    Shown {
        kind: line.kind.map_or("--", Kind::word),
        question: text(question::equation),
        tolerances: text(question::tolerances),
        expanded: expanded.and_then(question::expanded).unwrap_or_default(),
        fault,
        answer: heading(line),
        refusal,
        systems: None,
        roots: places(&item, &coeffs, &line.answer),
        coeffs,
        item,
    }
}

/// A refusal in words, and what to type for a text that is no sum.
fn why(bytes: &[u8], item: &Item, number: u8, fault: &Option<Fault>) -> String {
    let words = in_words(bytes, item, number);
    match (&item.record, fault) {
        (Ok(Record::Formula { text, .. }), Some(Fault::NotASum { at })) => {
            format!("{words}: {}", mistyped::hint(text, *at))
        }
        _ => words,
    }
}

fn places(item: &Item, coeffs: &[f64], answer: &Answer) -> Vec<Place> {
    let contact = match &item.record {
        Ok(Record::Contact(contact)) => Some(contact),
        _ => None,
    };
    let place = |(place, listed): Listed| {
        let angle = match answer {
            Answer::Crank(k, _) => Some(degrees(*k, place)),
            _ => None,
        };
        let (multiplicity, kind) = listed.unwrap_or_else(|| unlisted(answer));
        let ball = contact.map(|c| Ball { at: c.ball(place), beyond: c.beyond(place) });
        // a ball within confusion of the circle is a contact by the customer's word
        let touches = contact.is_some_and(|c| c.touches(place));
        let doubtful = !touches && Look::at(coeffs, place, multiplicity).doubtful();
        Place { place, multiplicity, kind, listed: listed.is_some(), angle, ball, doubtful }
    };
    let mut all: Vec<Place> = answer.roots().into_iter().map(place).collect();
    all.sort_by(|a, b| a.angle.partial_cmp(&b.angle).unwrap_or(Ordering::Equal));
    all
}

/// How often a place of a quadratic counts, and the kind that this makes it.
fn unlisted(answer: &Answer) -> (u32, kind::Kind) {
    let multiplicity = if let Answer::Quadratic(Solution::One(_)) = answer { 2 } else { 1 };
    (multiplicity, kind::Kind::of(multiplicity, false))
}

/// What an answer is, without its places; nothing for a refusal.
fn heading(line: &Line) -> String {
    let word = if line.kind == Some(Kind::Contact) { "contact" } else { "root" };
    let count = |n: usize| match n {
        1 => format!("1 {word}"),
        n => format!("{n} {word}s"),
    };
    match &line.answer {
        Answer::Refused(_) => String::new(),
        Answer::List(roots) => count(roots.len()),
        Answer::Crank(k, roots) => format!("k {k}, {}", count(roots.len())),
        Answer::Quadratic(solution) => solution.word().to_string(),
    }
}

/// t = k * 45 + 2 * atan u of a crank's root, from 0 on and below 360, as it prints to nine
/// decimals.
fn degrees(k: usize, u: f64) -> f64 {
    let t = (k as f64 * 45.0 + 2.0 * u.atan().to_degrees()).rem_euclid(360.0);
    if nine_decimals(t) == "360" { 0.0 } else { t }
}

/// Rounded to nine decimals, without zeros at the end.
pub fn nine_decimals(x: f64) -> String {
    let text = format!("{x:.9}");
    text.trim_end_matches('0').trim_end_matches('.').to_string()
}

/// The coefficients, ascending, of the equation whose roots an answer lists.
fn equation(record: &Record, answer: &Answer) -> Vec<f64> {
    match (record, answer) {
        (_, Answer::Refused(_)) => vec![],
        (Record::List { coeffs, .. }, _) => coeffs.clone(),
        (Record::Quadratic { abc: [_, b, c], .. }, Answer::Quadratic(Solution::Linear(_))) => {
            vec![*c, *b]
        }
        (Record::Quadratic { abc: [a, b, c], .. }, _) => vec![*c, *b, *a],
        (Record::Crank { terms, .. }, Answer::Crank(k, _)) => quartic(*terms, *k).to_vec(),
        (Record::Crank { .. }, _) => vec![],
        (Record::Contact(contact), _) => contact.coefficients().to_vec(),
        (Record::Formula { text, .. }, _) => formula::coefficients(text).unwrap_or_default(),
    }
}

/// The quartic in u of a crank equation turned by k eighths, as `solve_trig` computes it.
pub fn quartic([a2, b2, c1, d1, e]: [f64; 5], k: usize) -> [f64; 5] {
    use std::f64::consts::FRAC_1_SQRT_2 as H;
    const COS: [f64; 8] = [1.0, H, 0.0, -H, -1.0, -H, 0.0, H];
    const SIN: [f64; 8] = [0.0, H, 1.0, H, 0.0, -H, -1.0, -H];
    let (cos1, sin1) = (COS[k % 8], SIN[k % 8]);
    let (cos2, sin2) = (COS[2 * k % 8], SIN[2 * k % 8]);
    let (a2, b2) = (a2 * cos2 + b2 * sin2, b2 * cos2 - a2 * sin2);
    let (c1, d1) = (c1 * cos1 + d1 * sin1, d1 * cos1 - c1 * sin1);
    [a2 + c1 + e, 4.0 * b2 + 2.0 * d1, -6.0 * a2 + 2.0 * e, -4.0 * b2 + 2.0 * d1, a2 - c1 + e]
}

#[cfg(test)]
mod tests {
    use super::*;

    #[test]
    fn angles() {
        let shown = |k, u| nine_decimals(degrees(k, u));
        assert_eq!([shown(4, -1.0), shown(4, 1.0)], ["90", "270"]);
        assert_eq!(shown(1, 1.0 / 3f64.sqrt()), "105");
        assert_eq!([shown(0, -1.0), shown(7, 1.0), shown(7, 3.0)], ["270", "45", "98.130102354"]);
        // what prints as 360 is 0
        assert_eq!([shown(0, -1e-15), shown(0, -1e-300), shown(0, -0.0)], ["0", "0", "0"]);
        assert_eq!(shown(0, -1e-8), "359.999998854");
    }

    #[test]
    fn listings_that_do_not_fit_the_file() {
        fn lie(_: &[u8], out: &mut [u8]) -> u64 {
            let listing = b"1 PL ok 0\nT 1 0 0\n";
            out[..listing.len()].copy_from_slice(listing);
            listing.len() as u64
        }
        fn lie_of_nothing(_: &[u8], _: &mut [u8]) -> u64 {
            0
        }
        assert!(answered(b"PL\0\0\0\0\0\0\0\0\0", lie).is_ok());
        assert!(answered(b"", lie).is_err());
        assert!(answered(b"XX", lie).is_err());
        assert!(answered(b"", lie_of_nothing).is_err());
    }

    #[cfg(geomcore)]
    #[test]
    fn the_quartic_is_the_rusts() {
        use crate::compare::bits;
        use crate::truth::angle::Sine;
        use crate::truth::lister::{Reference, Solver};
        let mut r = crate::inputs::random::Random::new(5);
        for n in 0..90_000 {
            let terms = crate::inputs::quadratics::crank(&mut r, n % 9);
            let turned = Reference(Sine::OfExact).crank(terms, 0.0);
            assert_eq!(quartic(terms, turned.k).map(bits), turned.quartic.map(bits), "{terms:?}");
        }
    }
}
