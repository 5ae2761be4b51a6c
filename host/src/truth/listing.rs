//! The bytes of a listing back to its lines and its total.
use crate::truth::hall_file::Kind;
use crate::truth::kind::{self, Root};
use crate::truth::lister::{Answer, Line, Solution, Total};

/// The lines of the records in a listing that another lister wrote, or what is wrong with it.
pub fn lines(listing: &[u8]) -> Result<Vec<Line>, String> {
    let (lines, told) = lines_and_total(listing)?;
    let held = Total::of(lines.iter().map(|line| &line.answer));
    match told == held {
        true => Ok(lines),
        false => Err(format!("the listing ends with `{told}`, and its lines hold `{held}`")),
    }
}

/// The same with the total that it ends with, whatever that says.
pub fn lines_and_total(listing: &[u8]) -> Result<(Vec<Line>, Total), String> {
    let text = std::str::from_utf8(listing).map_err(|e| format!("the listing is no text: {e}"))?;
    let Some(text) = text.strip_suffix('\n') else {
        return Err(match text {
            "" => "the listing is empty: it has no total".to_string(),
            _ => "the listing's last line has no end".to_string(),
        });
    };
    let mut all: Vec<&str> = text.split('\n').collect();
    let last = all.pop().unwrap_or_default();
    let lines = all.into_iter().map(record_line).collect::<Result<Vec<Line>, String>>()?;
    match read_total(last) {
        Some(total) => Ok((lines, total)),
        None => Err(format!("the listing ends with `{last}`, which is no total")),
    }
}

/// The line of a record, or why there is none.
fn record_line(text: &str) -> Result<Line, String> {
    read_line(text).ok_or_else(|| match read_total(text) {
        Some(_) => format!("a total before the last line of the listing: `{text}`"),
        None => format!("no line of a listing: `{text}`"),
    })
}

/// A total that prints as this text.
fn read_total(text: &str) -> Option<Total> {
    let words: Vec<&str> = text.split(' ').collect();
    let ["T", records, roots, multiplicities] = words[..] else {
        return None;
    };
    let total = Total {
        records: records.parse().ok()?,
        roots: roots.parse().ok()?,
        multiplicities: multiplicities.parse().ok()?,
    };
    (total.to_string() == text).then_some(total)
}

/// A line that prints as this text.
fn read_line(text: &str) -> Option<Line> {
    let words: Vec<&str> = text.split(' ').collect();
    let [number, mark, ref rest @ ..] = words[..] else {
        return None;
    };
    let kind = Kind::of_mark(mark.as_bytes());
    let line = Line { number: number.parse().ok()?, kind, answer: read_answer(kind, rest)? };
    (line.to_string() == text).then_some(line)
}

fn read_answer(kind: Option<Kind>, words: &[&str]) -> Option<Answer> {
    match (kind, words) {
        (_, ["refused", n]) => Some(Answer::Refused(n.parse().ok()?)),
        (Some(Kind::List | Kind::Contact | Kind::Formula), ["ok", _, roots @ ..]) => {
            Some(Answer::List(read_roots(roots)?))
        }
        (Some(Kind::Crank), ["ok", k, _, roots @ ..]) => {
            Some(Answer::Crank(k.parse().ok()?, read_roots(roots)?))
        }
        (Some(Kind::Quadratic), [word, places @ ..]) => {
            let places = places.iter().map(|p| read_place(p)).collect::<Option<Vec<f64>>>()?;
            let solution = match (*word, &places[..]) {
                ("two", &[x, y]) => Solution::Two(x, y),
                ("one", &[x]) => Solution::One(x),
                ("linear", &[x]) => Solution::Linear(x),
                ("degenerate", []) => Solution::Degenerate,
                ("empty", []) => Solution::Empty,
                _ => return None,
            };
            Some(Answer::Quadratic(solution))
        }
        _ => None,
    }
}

fn read_place(word: &str) -> Option<f64> {
    u64::from_str_radix(word, 16).ok().map(f64::from_bits)
}

fn read_roots(words: &[&str]) -> Option<Vec<Root>> {
    let root = |words: &[&str]| match words {
        [place, times, letter] => Some(Root {
            value: read_place(place)?,
            multiplicity: times.parse().ok()?,
            kind: kind::Kind::of_letter(letter)?,
        }),
        _ => None,
    };
    words.chunks(3).map(root).collect()
}

#[cfg(test)]
mod tests {
    use super::*;

    const LINES: &str = "\
1 PL ok 2 3FF0000000000000 1 c 4000000000000000 1 c
2 PL refused 2
3 QD two 3FF0000000000000 4000000000000000
4 QD degenerate
5 TG ok 4 2 BFF0000000000000 1 c 3FF0000000000000 1 c
6 TG ok 7 0
7 PC ok 2 BFF0000000000000 2 b 3FF0000000000000 4 f
8 PC refused 11
9 TX ok 1 4000000000000000 2 f
10 TX refused 13
11 TX ok 0
12 -- refused 6
";

    fn refused(listing: &str) -> String {
        lines(listing.as_bytes()).expect_err(listing)
    }

    #[test]
    fn lines_read_back() {
        let read = lines(format!("{LINES}T 12 7 12\n").as_bytes()).unwrap();
        assert_eq!(read.iter().map(|line| format!("{line}\n")).collect::<String>(), LINES);
        assert_eq!(lines(b"T 0 0 0\n"), Ok(vec![]));
        assert_eq!(lines(b"0 -- refused 9\nT 1 0 0\n").map(|lines| lines.len()), Ok(1));
    }

    /// Each line adds its own; a quadratic's places and what is refused add the line alone.
    #[test]
    fn totals() {
        let read = lines(format!("{LINES}T 12 7 12\n").as_bytes()).unwrap();
        let own = |line: &Line| Total::of(std::iter::once(&line.answer)).to_string();
        let wanted = "T 1 2 2|T 1 0 0|T 1 0 0|T 1 0 0|T 1 2 2|T 1 0 0|T 1 2 6|T 1 0 0|T 1 1 2";
        let wanted = format!("{wanted}{}", "|T 1 0 0".repeat(3));
        assert_eq!(read.iter().map(own).collect::<Vec<_>>().join("|"), wanted);
    }

    #[test]
    fn lines_that_are_none() {
        let texts = [
            "",
            "1",
            "1 PL",
            "01 PL ok 0",
            "1 PL ok 1",
            "1 PL  ok 0",
            "1 PL ok 0\r",
            "1 PL ok 1 3ff0000000000000 1 c",
            "1 PL ok 1 3FF0000000000000",
            "1 PL ok 1 3FF0000000000000 1",
            "1 PL ok 1 3FF0000000000000 1 C",
            "1 PL ok 1 3FF0000000000000 1 cc",
            "1 PL ok 1 3FF0000000000000 c 1",
            "1 XX ok 0",
            "1 QD two 3FF0000000000000",
            "1 QD ok 0",
            "1 PL refused",
            "1 -- ok 0",
            "1 TG ok 0",
            "1 PC ok 4 0",
            "1 TX ok 4 0",
            "1 TX 13",
            "1 PL refused 300",
            "1 QD three",
        ];
        for text in texts {
            let why = format!("no line of a listing: `{text}`");
            assert_eq!(refused(&format!("{text}\nT 1 0 0\n")), why);
        }
        assert!(lines(b"\xFF\nT 1 0 0\n").unwrap_err().starts_with("the listing is no text: "));
    }

    /// The total stands last, once, as it is printed, and holds what the lines do.
    #[test]
    fn totals_that_are_none() {
        let line = "1 PL ok 1 3FF0000000000000 3 f\n";
        assert!(lines(format!("{line}T 1 1 3\n").as_bytes()).is_ok());
        for total in ["T 0 1 3", "T 2 1 3", "T 1 0 3", "T 1 3 3", "T 1 1 1", "T 1 1 4", "T 1 3 1"] {
            let why = format!("the listing ends with `{total}`, and its lines hold `T 1 1 3`");
            assert_eq!(refused(&format!("{line}{total}\n")), why);
        }
        let no_totals = [
            "",
            "T",
            "T ",
            "T 1 1",
            "T 1 1 3 ",
            " T 1 1 3",
            "T  1 1 3",
            "T 01 1 3",
            "T 1 1 03",
            "T +1 1 3",
            "T -1 1 3",
            "T 1 1 3 0",
            "T,1,1,3",
            "t 1 1 3",
            "T 1 1 3\r",
            "TT 1 1 3",
            "T 1 1 3.0",
            "T 0x1 1 3",
            "T 1 1 99999999999999999999",
            "2 T 1 1 3",
        ];
        for last in no_totals {
            let why = format!("the listing ends with `{last}`, which is no total");
            assert_eq!(refused(&format!("{line}{last}\n")), why);
        }
        assert_eq!(refused(""), "the listing is empty: it has no total");
        assert_eq!(
            refused(line),
            format!("the listing ends with `{}`, which is no total", &line[..30])
        );
        assert_eq!(refused("T 0 0 0"), "the listing's last line has no end");
        for early in [format!("T 1 1 3\n{line}"), format!("{line}T 1 1 3\nT 1 1 3\n")] {
            let why = "a total before the last line of the listing: `T 1 1 3`";
            assert_eq!(refused(&early), why);
        }
    }
}
