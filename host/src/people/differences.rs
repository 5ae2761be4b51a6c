//! Each record of a file by three: the port, the reference build and the untouched Rust.
use crate::compare::bits;
use crate::people::number::shortest;
use crate::people::progress::Progress;
use crate::people::show::{ListFile, of_records, whole_listing};
use crate::people::table::{quoted, wrapped};
use crate::people::{As, marked, question, text};
use crate::port;
use crate::truth::angle::Sine;
use crate::truth::hall_file::{Item, Kind};
use crate::truth::lister::{Answer, Line, Listed, Reference, Total, Untouched, line};
use crate::truth::listing::lines_and_total;
use crate::truth::systems::counted;

/// A record and its three answers; and how many square systems two of them took.
pub struct Compared {
    pub item: Item,
    pub port: Answer,
    pub reference: Answer,
    pub untouched: Answer,
    pub port_systems: u32,
    pub reference_systems: u32,
}

/// What is compared: a lister, and how many systems it solves for a record.
#[derive(Clone, Copy)]
pub struct Port {
    pub list_file: ListFile,
    pub systems: fn(&Item) -> u32,
}

pub const PORT: Port = Port { list_file: port::list_file, systems: port::systems::listed };

/// The total at the end of the three listings; that of the port as it is printed.
pub struct Totals {
    pub port: Total,
    pub reference: Total,
    pub untouched: Total,
}

/// All records of a file, and the totals; an error where the port's listing is not that of the file.
pub fn compared(bytes: &[u8], by: Port) -> Result<(Vec<Compared>, Totals), String> {
    let (lines, port) = lines_and_total(&whole_listing(bytes, by.list_file))?;
    let records = of_records(bytes, lines)?;
    let mut progress = Progress::new("records", records.len());
    let by_all = |(item, port): (Item, Line)| {
        progress.step();
        let (reference, reference_systems) =
            counted(|| line(&item, &Reference(Sine::OfExact)).answer);
        let untouched = line(&item, &Untouched).answer;
        let (port, port_systems) = (port.answer, (by.systems)(&item));
        Compared { item, port, reference, untouched, port_systems, reference_systems }
    };
    let all: Vec<Compared> = records.into_iter().map(by_all).collect();
    let reference = Total::of(all.iter().map(|c| &c.reference));
    let untouched = Total::of(all.iter().map(|c| &c.untouched));
    Ok((all, Totals { port, reference, untouched }))
}

/// How many doubles further on y lies; -0 and +0 are neighbours.
pub fn steps(x: f64, y: f64) -> u64 {
    let place = |x: f64| match bits(x) as i64 {
        n @ 0.. => n,
        n => -1 - (n & i64::MAX),
    };
    place(x).abs_diff(place(y))
}

/// An answer without its places.
fn front(answer: &Answer) -> String {
    match answer {
        Answer::Refused(n) => format!("refused {n}"),
        Answer::List(_) => "ok".to_string(),
        Answer::Quadratic(solution) => solution.word().to_string(),
        Answer::Crank(k, _) => format!("k {k}"),
    }
}

/// The places of an answer, a line for each: decimals, bits, how often it counts, and its kind.
fn places(answer: &Answer) -> String {
    let place = |(x, listed): Listed| {
        let times = listed.map(|(n, kind)| format!("  {n} {}", kind.letter())).unwrap_or_default();
        format!("    {:24}  {:016X}{times}\n", shortest(x), bits(x))
    };
    answer.roots().into_iter().map(place).collect()
}

/// In what an answer departs from another; none where both print alike.
pub fn departure(from: &Answer, other: &Answer) -> Option<String> {
    if from.to_string() == other.to_string() {
        return None;
    }
    let (here, there) = (from.roots(), other.roots());
    let (was, is) = (front(from), front(other));
    let other_multiplicity = |(a, b): (&Listed, &Listed)| a.1.unzip().0 != b.1.unzip().0;
    Some(match () {
        _ if was != is => format!("answer: {is} for {was}"),
        _ if here.len() != there.len() => format!("count: {} for {}", there.len(), here.len()),
        _ if here.iter().zip(&there).any(other_multiplicity) => "multiplicity".to_string(),
        _ if here.iter().zip(&there).any(|(a, b)| a.1 != b.1) => "kind".to_string(),
        _ => {
            let apart = here.iter().zip(&there).map(|(a, b)| steps(a.0, b.0).to_string());
            format!("bits, steps {}", apart.collect::<Vec<_>>().join(" "))
        }
    })
}

impl Compared {
    /// In what the port departs, in the answer or in the number of systems.
    fn port_departs(&self) -> Option<String> {
        let (port, reference) = (self.port_systems, self.reference_systems);
        let systems = (port != reference).then(|| format!("systems: {port} for {reference}"));
        departure(&self.reference, &self.port).or(systems)
    }

    pub fn port_differs(&self) -> bool {
        self.port_departs().is_some()
    }

    pub fn untouched_differs(&self) -> bool {
        departure(&self.reference, &self.untouched).is_some()
    }

    /// The record as a line of text, or what stands in its place.
    pub fn input(&self) -> String {
        match &self.item.record {
            Ok(record) => text::line(record),
            Err(number) => format!("refused {number}"),
        }
    }

    /// Which record it is.
    fn head(&self) -> String {
        let Compared { item, .. } = self;
        let front = format!("record {} at byte {}: ", item.number, item.at);
        match item.kind {
            // it may be one long word
            Some(Kind::Formula) => marked::rows(&front, self.input().as_bytes(), "", None),
            _ => wrapped(&(front + &self.input())),
        }
    }

    /// The lines that show how the three differ.
    pub fn text(&self) -> String {
        let Compared { item, port, reference, untouched, .. } = self;
        let mut all = self.head();
        if let Ok(record) = &item.record {
            let equation = question::expanded(record).unwrap_or_else(|| question::equation(record));
            all += &wrapped(&format!("  {equation}"));
        }
        all += &format!("  reference  {}\n{}", front(reference), places(reference));
        let others = [
            ("port", port, self.port_departs()),
            ("untouched", untouched, departure(reference, untouched)),
        ];
        for (name, answer, departs) in others {
            all += &match departs {
                None => format!("  {name:9}  the same\n"),
                Some(how) => format!("  {name:9}  {}  [{how}]\n{}", front(answer), places(answer)),
            };
        }
        all
    }

    /// The same as comma-separated values.
    pub fn csv(&self) -> String {
        let Compared { item, port, reference, untouched, .. } = self;
        let fields = [
            item.number.to_string(),
            item.at.to_string(),
            self.input(),
            reference.to_string(),
            port.to_string(),
            untouched.to_string(),
            self.port_departs().unwrap_or_default(),
            departure(reference, untouched).unwrap_or_default(),
        ];
        fields.map(|field| quoted(&field)).join(",") + "\n"
    }

    /// The untouched Rust's departure as a row of a table.
    pub fn row(&self) -> Option<String> {
        let how = departure(&self.reference, &self.untouched)?;
        let (input, untouched, reference) = (self.input(), &self.untouched, &self.reference);
        Some(format!("| {how} | {input} | {untouched} | {reference} |\n"))
    }
}

/// The head of the table of departures.
const HEAD: &str = "| departs in | input | untouched Rust | reference build |\n|---|---|---|---|\n";

const NAMES: &str = "record,byte,input,reference,port,untouched,port departs,untouched departs\n";

impl Totals {
    /// All three, and which are as that of the reference build.
    fn text(&self) -> String {
        let Totals { port, reference, untouched } = self;
        let told = |total: &Total| match total == reference {
            true => "the same".to_string(),
            false => total.to_string(),
        };
        let (port, untouched) = (told(port), told(untouched));
        wrapped(&format!(
            "total: reference build {reference}, port {port}, untouched Rust {untouched}"
        ))
    }
}

/// What a comparison found, for people.
pub struct Report {
    pub text: String,
    /// In how many records the port differs from the reference build, and whether in the total.
    pub records_differ: usize,
    pub total_differs: bool,
    pub summary: String,
}

impl Report {
    pub fn equal(&self) -> bool {
        self.records_differ == 0 && !self.total_differs
    }
}

/// The records that differ; as rows the untouched Rust's departures, as CSV all records.
pub fn report(bytes: &[u8], by: Port, how: As) -> Result<Report, String> {
    let (all, totals) = compared(bytes, by)?;
    let count = |is: fn(&Compared) -> bool| all.iter().filter(|c| is(c)).count();
    let text = match how {
        As::Rows => HEAD.to_string() + &all.iter().filter_map(Compared::row).collect::<String>(),
        As::Csv => NAMES.to_string() + &all.iter().map(Compared::csv).collect::<String>(),
        As::Text => {
            let differs = all.iter().filter(|c| c.port_differs() || c.untouched_differs());
            differs.map(Compared::text).collect()
        }
    };
    let (n, refused) = (all.len(), count(|c| matches!(c.reference, Answer::Refused(_))));
    let [port_differs, departures] =
        [Compared::port_differs, Compared::untouched_differs].map(count);
    let line = |name: &str, differ: usize| {
        format!("{name}: {} equal to the reference build, {differ} not", n - differ)
    };
    let summary = format!(
        "{n} records: {} answered, {refused} refused\n{}\n{}\n{}",
        n - refused,
        line("port", port_differs),
        line("untouched Rust", departures),
        totals.text().trim_end()
    );
    let total_differs = totals.port != totals.reference;
    Ok(Report { text, records_differ: port_differs, total_differs, summary })
}

#[cfg(test)]
mod tests {
    use super::*;
    use crate::inputs::leaves::step;
    use crate::people::text::read;
    use crate::truth::kind::Root;
    use crate::truth::lister::listing;

    #[test]
    fn steps_between_doubles() {
        assert_eq!(steps(1.0, 1.0), 0);
        assert_eq!(steps(1.0, step(1.0, 7)), 7);
        assert_eq!(steps(step(-1.0, 3), -1.0), 3);
        assert_eq!(steps(-0.0, 0.0), 1);
        assert_eq!(steps(-f64::from_bits(1), f64::from_bits(1)), 3);
        assert_eq!(steps(f64::NEG_INFINITY, f64::INFINITY), 0xFFE0_0000_0000_0001);
    }

    fn honest(bytes: &[u8], out: &mut [u8]) -> u64 {
        let listing = listing(bytes, &Reference(Sine::OfExact));
        let kept = listing.len().min(out.len());
        out[..kept].copy_from_slice(&listing[..kept]);
        listing.len() as u64
    }

    /// The same, with another last digit of a simple root at 2 that ends its line.
    fn lying(bytes: &[u8], out: &mut [u8]) -> u64 {
        let len = honest(bytes, out) as usize;
        let text = String::from_utf8_lossy(&out[..len]);
        let text = text.replace("4000000000000000 1 c\n", "4000000000000003 1 c\n");
        out[..len].copy_from_slice(text.as_bytes());
        len as u64
    }

    /// The same with another count of the roots in the total alone.
    fn miscounting(bytes: &[u8], out: &mut [u8]) -> u64 {
        let len = honest(bytes, out);
        let text =
            String::from_utf8_lossy(&out[..len as usize]).replace("\nT 3 4 5\n", "\nT 3 5 5\n");
        out[..text.len()].copy_from_slice(text.as_bytes());
        len
    }

    fn honest_systems(item: &Item) -> u32 {
        counted(|| line(item, &Reference(Sine::OfExact))).1
    }

    /// A lister, and the number of systems by the reference build.
    fn listed_by(list_file: ListFile) -> Port {
        Port { list_file, systems: honest_systems }
    }

    const TEXT: &str = "list 2^-30 2 -3 1\nlist 2^-30 -18 21 -8 1\nquad 2^-30 2^-30 1 -3 2\n";

    fn sample() -> Vec<u8> {
        crate::truth::hall_file::file(&read(TEXT.as_bytes()).unwrap())
    }

    #[test]
    fn only_what_differs_is_shown() {
        let found = report(&sample(), listed_by(honest), As::Text).unwrap();
        assert!(found.equal() && found.records_differ == 0);
        let text = "\
record 2 at byte 35: list 2^-30 -18 21 -8 1
  x^3 - 8 x^2 + 21 x - 18 = 0
  reference  ok
    2                         4000000000000000  1 c
    3.000000000000001         4008000000000002  2 f
  port       the same
  untouched  ok  [bits, steps 0 4]
    2                         4000000000000000  1 c
    2.999999999999999         4007FFFFFFFFFFFE  2 f
";
        assert_eq!(found.text, text);
        let summary = "3 records: 3 answered, 0 refused\n\
                       port: 3 equal to the reference build, 0 not\n\
                       untouched Rust: 2 equal to the reference build, 1 not\n\
                       total: reference build T 3 4 5, port the same, untouched Rust the same";
        assert_eq!(found.summary, summary);
        let rows = report(&sample(), listed_by(honest), As::Rows).unwrap().text;
        let (untouched, reference) = ("4007FFFFFFFFFFFE 2 f", "4008000000000002 2 f");
        let cells =
            [untouched, reference].map(|x| format!("ok 2 4000000000000000 1 c {x} |")).join(" ");
        let row = format!("| bits, steps 0 4 | list 2^-30 -18 21 -8 1 | {cells}\n");
        assert_eq!(rows, format!("{HEAD}{row}"));
    }

    #[test]
    fn all_records_as_csv() {
        let text = report(&sample(), listed_by(honest), As::Csv).unwrap().text;
        let lines: Vec<&str> = text.lines().collect();
        assert_eq!(lines.len(), 4);
        assert_eq!(lines[0], NAMES.trim_end());
        let two = "two 3FF0000000000000 4000000000000000";
        assert_eq!(lines[3], format!("3,78,quad 2^-30 2^-30 1 -3 2,{two},{two},{two},,"));
        assert!(lines[2].ends_with(",,\"bits, steps 0 4\""), "{}", lines[2]);
    }

    #[test]
    fn a_wrong_port_is_found() {
        let found = report(&sample(), listed_by(lying), As::Text).unwrap();
        assert!((found.records_differ, found.total_differs) == (1, false) && !found.equal());
        assert!(found.text.contains("  port       ok  [bits, steps 0 3]\n"), "{}", found.text);
        assert!(found.summary.contains("port: 2 equal to the reference build, 1 not"));
    }

    #[test]
    fn a_wrong_total_is_found() {
        for how in [As::Text, As::Csv, As::Rows] {
            let found = report(&sample(), listed_by(miscounting), how).unwrap();
            assert!((found.records_differ, found.total_differs) == (0, true) && !found.equal());
            assert_eq!(found.text, report(&sample(), listed_by(honest), how).unwrap().text);
            let line = "\ntotal: reference build T 3 4 5, port T 3 5 5, untouched Rust the same";
            assert!(found.summary.ends_with(line), "{}", found.summary);
        }
    }

    /// Also where the total is not that of the port's own lines.
    #[test]
    fn a_wrong_multiplicity_is_found() {
        let three: ListFile = |bytes, out| {
            let len = honest(bytes, out);
            let at = out.windows(6).position(|part| part == b"2 2 f\n").expect("a double root");
            out[at + 2] = b'3';
            len
        };
        let found = report(&sample(), listed_by(three), As::Text).unwrap();
        assert_eq!((found.records_differ, found.total_differs), (1, false));
        assert!(found.text.starts_with("record 2 at byte 35: "), "{}", found.text);
        assert!(found.text.contains("  port       ok  [multiplicity]\n"), "{}", found.text);
    }

    #[test]
    fn a_wrong_number_of_systems_is_found() {
        let by = Port { list_file: honest, systems: |item| 1 + honest_systems(item) };
        let found = report(&sample(), by, As::Text).unwrap();
        assert_eq!((found.records_differ, found.total_differs), (3, false));
        assert!(found.text.contains("  port       two  [systems: 1 for 0]\n"), "{}", found.text);
        let rows = report(&sample(), by, As::Csv).unwrap().text;
        assert_eq!(rows.matches(",systems: ").count(), 3, "{rows}");
        let untouched = report(&sample(), by, As::Rows).unwrap().text;
        assert_eq!(untouched, report(&sample(), listed_by(honest), As::Rows).unwrap().text);
    }

    #[test]
    fn ways_to_depart() {
        let list = |roots: &[(f64, u32)]| {
            Answer::List(roots.iter().map(|&(x, m)| Root::new(x, m)).collect())
        };
        let from = list(&[(1.0, 1), (2.0, 1)]);
        assert_eq!(departure(&from, &from), None);
        assert_eq!(departure(&from, &list(&[(1.0, 2)])).unwrap(), "count: 1 for 2");
        assert_eq!(departure(&from, &list(&[(1.0, 2), (2.0, 1)])).unwrap(), "multiplicity");
        let brush = Answer::List(vec![Root::by((true, 1.0, 2))]);
        assert_eq!(departure(&list(&[(1.0, 2)]), &brush).unwrap(), "kind");
        assert_eq!(departure(&from, &Answer::Refused(1)).unwrap(), "answer: refused 1 for ok");
        let crank = |k| Answer::Crank(k, vec![Root::new(1.0, 1)]);
        assert_eq!(departure(&crank(1), &crank(2)).unwrap(), "answer: k 2 for k 1");
    }
}
