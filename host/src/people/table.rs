//! What `show` found, as a table in 100 columns, and as CSV.
use crate::compare::bits;
use crate::people::number::shortest;
use crate::people::show::{Ball, Place, Shown, nine_decimals};
use crate::people::{marked, mistyped, question};
use crate::truth::hall_file::Record;
use crate::truth::lister::Total;

/// No line is longer, but for a word that is.
pub const COLUMNS: usize = 100;

const HEAD: [&str; 6] = ["answer", "place", "bits", "times, kind", "t in degrees", "t in radians"];

/// What stands beside a root that exact arithmetic does not confirm.
pub const DOUBTFUL: &str = "doubtful";

const DOUBTS: &str =
    "doubtful: exact arithmetic does not confirm the place; `hall explain FILE` says why";

pub const EMPTY: &str = "no record: the file is empty\n";

type Cells = [String; HEAD.len()];

enum Row {
    Cells(Cells),
    Text(String),
    /// With their ends.
    Lines(String),
}

/// For each record its question, and then a row for each root, or one that says why there is none;
/// at the end the total.
pub fn table(all: &[Shown], total: Total, with_systems: bool) -> String {
    let mut text = match all {
        [] => EMPTY.to_string(),
        _ => laid_out(&all.iter().flat_map(rows).collect::<Vec<_>>()),
    };
    text += &wrapped(&in_all(all, total, with_systems));
    if all.iter().any(Shown::doubtful) {
        text += &wrapped(DOUBTS);
    }
    text
}

/// The total in words.
fn in_all(all: &[Shown], total: Total, with_systems: bool) -> String {
    let [records, roots] =
        [(total.records, "record"), (total.roots, "root")].map(|(n, w)| count(n, w));
    let times = match (total.roots, total.multiplicities) {
        (0, _) => String::new(),
        (1, 1) => ", which counts once".to_string(),
        (1, n) => format!(", which counts {n} times"),
        (_, n) => format!(", which together count {n} times"),
    };
    let unlisted = all.iter().flat_map(|shown| &shown.roots).any(|root| !root.listed);
    let beside = if unlisted { ", not counting the places of quads" } else { "" };
    let sum = || all.iter().filter_map(|shown| shown.systems).sum();
    let systems = if with_systems { format!("; {}", solved(sum())) } else { String::new() };
    format!("in all: {records}, {roots}{times}{beside}{systems}")
}

fn count(n: usize, word: &str) -> String {
    format!("{n} {word}{}", if n == 1 { "" } else { "s" })
}

fn solved(systems: u32) -> String {
    format!("{} solved", count(systems as usize, "system"))
}

/// The record's number and kind, its tolerances and its question, in lines; marks stand under what
/// is wrong with a formula.
pub fn front(shown: &Shown) -> String {
    let Shown { item, kind, question, tolerances, fault, .. } = shown;
    let number = item.number;
    match &item.record {
        Ok(Record::Formula { text, .. }) => {
            let front = format!("{number} {kind}, {tolerances}: ");
            marked::rows(&front, text, question::behind(text), fault.as_ref().map(mistyped::part))
        }
        Ok(_) => wrapped(&format!("{number} {kind}, {tolerances}: {question}")),
        Err(_) => wrapped(&format!("{number} {kind}")),
    }
}

fn rows(shown: &Shown) -> Vec<Row> {
    let systems = shown.systems.map(|systems| Row::Text(format!("  {}", solved(systems))));
    answer_rows(shown).into_iter().chain(systems).collect()
}

fn answer_rows(shown: &Shown) -> Vec<Row> {
    let mut all = vec![Row::Lines(front(shown))];
    if let Some(refused) = refused(shown) {
        all.push(Row::Text(refused));
        return all;
    }
    if !shown.expanded.is_empty() {
        all.push(Row::Text(format!("  expanded: {}", shown.expanded)));
    }
    let mut answer = shown.answer.clone();
    // its place in the column is the mark's then
    if shown.roots.first().is_none_or(|root| root.doubtful) {
        all.push(Row::Text(format!("  {}", std::mem::take(&mut answer))));
    }
    for root in &shown.roots {
        let front = match root.doubtful {
            true => DOUBTFUL.to_string(),
            false => std::mem::take(&mut answer),
        };
        all.push(Row::Cells(cells(front, root)));
        all.extend(root.ball.as_ref().map(|ball| Row::Text(at(ball))));
    }
    all
}

/// Where a ball is at a contact.
fn at(ball: &Ball) -> String {
    let [x, y, beyond] = numbers(ball);
    format!("    ball at x = {x}, y = {y}, D - R = {beyond}")
}

/// x, y and D - R.
fn numbers(Ball { at: [x, y], beyond }: &Ball) -> [String; 3] {
    [*x, *y, *beyond].map(shortest)
}

/// The line of a refusal.
pub fn refused(shown: &Shown) -> Option<String> {
    shown.refusal.as_ref().map(|(number, why)| format!("  refused {number}: {why}"))
}

fn cells(answer: String, root: &Place) -> Cells {
    let [place, bits, times, kind, degrees, radians] = columns(root);
    let counts = format!("{times} {kind}").trim().to_string();
    [answer, place, bits, counts, degrees, radians]
}

/// Place, bits, times, kind, degrees and radians of a root.
fn columns(root: &Place) -> [String; 6] {
    let angle = |of: fn(f64) -> f64| root.angle.map(|t| nine_decimals(of(t))).unwrap_or_default();
    let [times, kind] = match root.listed {
        true => [root.multiplicity.to_string(), root.kind.word().to_string()],
        false => Default::default(),
    };
    let bits = format!("{:016X}", bits(root.place));
    [shortest(root.place), bits, times, kind, angle(|t| t), angle(f64::to_radians)]
}

/// The rows under a head; a column with nothing in it is left out.
fn laid_out(rows: &[Row]) -> String {
    let cells = |row: &Row, i: usize| match row {
        Row::Cells(cells) => cells[i].chars().count(),
        Row::Text(_) | Row::Lines(_) => 0,
    };
    let widths: [usize; HEAD.len()] =
        std::array::from_fn(|i| match rows.iter().map(|row| cells(row, i)).max().unwrap_or(0) {
            0 => 0,
            width => width.max(HEAD[i].len()),
        });
    let joined = |cells: &Cells| {
        let shown = cells.iter().zip(widths).filter(|cell| cell.1 > 0);
        let padded = shown.map(|(cell, width)| format!("  {cell:width$}"));
        padded.collect::<String>().trim_end().to_string() + "\n"
    };
    let text = rows.iter().map(|row| match row {
        Row::Cells(cells) => joined(cells),
        Row::Text(text) => wrapped(text),
        Row::Lines(lines) => lines.clone(),
    });
    let head = joined(&HEAD.map(str::to_string));
    let head = if widths[0] > 0 { head } else { String::new() };
    head + &text.collect::<String>()
}

/// A line, and lines four columns in for what is behind the last column.
pub fn wrapped(text: &str) -> String {
    let (mut all, mut line) = (String::new(), String::new());
    for word in text.split_inclusive(' ') {
        let width = line.chars().count() + word.trim_end().chars().count();
        if width > COLUMNS && !line.trim().is_empty() {
            all += line.trim_end();
            all += "\n";
            line = "    ".to_string();
        }
        line += word;
    }
    all + line.trim_end() + "\n"
}

/// Lines, each of them wrapped; the last one has no end.
pub fn in_columns(text: &str) -> String {
    text.lines().map(wrapped).collect::<String>().trim_end().to_string()
}

const NAMES: &str = "record,byte,kind,tolerances,question,answer,refused,why,place,bits,times,\
                     root kind,degrees,radians,x,y,distance,doubt,expanded";

/// The same as comma-separated values: a line for each root, or one for a record without any.
pub fn csv(all: &[Shown], with_systems: bool) -> String {
    let names = if with_systems { format!("{NAMES},systems") } else { NAMES.to_string() };
    names + "\n" + &all.iter().map(csv_record).collect::<String>()
}

fn csv_record(shown: &Shown) -> String {
    let Shown { item, kind, question, tolerances, answer, refusal, roots, expanded, .. } = shown;
    let (number, why) = refusal.clone().map(|(n, why)| (n.to_string(), why)).unwrap_or_default();
    let place = [item.number, item.at].map(|n| n.to_string());
    let rest = [kind, &tolerances[..], question, answer, &number, &why].map(str::to_string);
    let front = [&place[..], &rest].concat();
    let line = |root: [String; 10]| {
        let systems = shown.systems.map(|systems| systems.to_string());
        let fields = [&front[..], &root, &[expanded.clone()], systems.as_slice()].concat();
        fields.iter().map(|field| quoted(field)).collect::<Vec<_>>().join(",") + "\n"
    };
    match &roots[..] {
        [] => line(Default::default()),
        roots => roots.iter().map(|root| line(csv_root(root))).collect(),
    }
}

/// What of a line belongs to one root.
fn csv_root(root: &Place) -> [String; 10] {
    let [place, bits, times, kind, degrees, radians] = columns(root);
    let mark = if root.doubtful { DOUBTFUL } else { "" }.to_string();
    let [x, y, beyond] = root.ball.as_ref().map(numbers).unwrap_or_default();
    [place, bits, times, kind, degrees, radians, x, y, beyond, mark]
}

/// A field; in quotes where it has to be.
pub fn quoted(field: &str) -> String {
    match field.contains([',', '"', '\n']) {
        true => format!("\"{}\"", field.replace('"', "\"\"")),
        false => field.to_string(),
    }
}

#[cfg(test)]
mod tests {
    use super::*;

    #[test]
    fn lines_are_wrapped() {
        assert_eq!(wrapped("  as it is"), "  as it is\n");
        let long = wrapped(&"word ".repeat(41));
        assert_eq!(long.lines().map(str::len).collect::<Vec<_>>(), [99, 98, 13]);
        let one = "w".repeat(150);
        assert_eq!(wrapped(&one), format!("{one}\n"));
        assert_eq!(wrapped(&format!("a {one} b")), format!("a\n    {one}\n    b\n"));
    }

    #[test]
    fn totals_in_words() {
        let told = |records, roots, multiplicities| {
            in_all(&[], Total { records, roots, multiplicities }, false)
        };
        assert_eq!(told(0, 0, 0), "in all: 0 records, 0 roots");
        assert_eq!(told(1, 0, 0), "in all: 1 record, 0 roots");
        assert_eq!(told(1, 1, 1), "in all: 1 record, 1 root, which counts once");
        assert_eq!(told(2, 1, 4), "in all: 2 records, 1 root, which counts 4 times");
        assert_eq!(told(1, 2, 2), "in all: 1 record, 2 roots, which together count 2 times");
        let none = in_all(&[], Total::default(), true);
        assert_eq!(none, "in all: 0 records, 0 roots; 0 systems solved");
        assert_eq!(
            [0, 1, 2].map(solved),
            ["0 systems", "1 system", "2 systems"].map(|n| n.to_string() + " solved")
        );
    }

    #[test]
    fn fields_are_quoted() {
        assert_eq!(quoted("x^2 - 1 = 0"), "x^2 - 1 = 0");
        assert_eq!(quoted("k 4, 2 roots"), "\"k 4, 2 roots\"");
        assert_eq!(quoted("mark `\"`"), "\"mark `\"\"`\"");
    }
}
