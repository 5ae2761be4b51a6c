//! Whole hall files: the port's listing beside that of the host's own lister over the reference
//! build.
use crate::compare::outcome::Outcome;
use crate::compare::ways::{self, Counts};
use crate::inputs::hall_files::{any_file, damage, record, records};
use crate::inputs::random::Random;
use crate::people::show::ListFile;
use crate::people::text;
use crate::port;
use crate::runs::parts;
use crate::truth::angle::Sine;
use crate::truth::hall_file::{Item, Kind, MOST_BYTES, MOST_LISTED, file, items};
use crate::truth::lister::{Answer, Line, Reference, Total, line};
use std::fmt::Write;

/// Of the records of all files.
pub const CASES: [&str; 20] = [
    "lists",
    "quadratics",
    "cranks",
    "contacts",
    "formulas",
    "with no whole known mark",
    "refused 1",
    "refused 2",
    "refused 3",
    "refused 5",
    "refused 6",
    "refused 7",
    "refused 8",
    "refused 9",
    "refused 10",
    "refused 11",
    "refused 12",
    "refused 13",
    "refused 14",
    "refused 15",
];

/// The numbers of the last of them.
const REFUSED: [u8; 14] = [1, 2, 3, 5, 6, 7, 8, 9, 10, 11, 12, 13, 14, 15];

fn cases(line: &Line) -> [bool; CASES.len()] {
    let kind = |k| line.kind == Some(k);
    let refused = |n| line.answer == Answer::Refused(n);
    let known = Kind::ALL.into_iter().map(kind).chain([line.kind.is_none()]);
    let mut all = known.chain(REFUSED.into_iter().map(refused));
    std::array::from_fn(|_| all.next().expect("a case"))
}

/// Bytes that no listing has: what the port leaves as it was.
const UNTOUCHED: [u8; 16] = [0xA5; 16];

/// Room for the longest listing, and for these behind it.
const ROOM: usize = MOST_LISTED + UNTOUCHED.len();

/// What was compared so far, and a buffer for the port's listing.
pub(super) struct Files {
    sine: Sine,
    port: ListFile,
    pub(super) outcome: Outcome,
    before: Counts,
    out: Vec<u8>,
}

impl Files {
    pub(super) fn new(sine: Sine, port: ListFile) -> Files {
        let outcome = Outcome::new("files", Some(sine), &CASES);
        Files { sine, port, outcome, before: ways::counts(), out: vec![0; ROOM] }
    }

    /// One file by both. `each` gets what it holds, the reference build's line for it, and the ways
    /// that this one went.
    pub(super) fn add(&mut self, bytes: &[u8], mut each: impl FnMut(&Item, &Line, &Counts)) {
        let items = items(bytes);
        let (mut wanted, mut answers) = (String::new(), Vec::with_capacity(items.len()));
        for item in &items {
            let before = ways::counts();
            let line = line(item, &Reference(self.sine));
            writeln!(wanted, "{line}").expect("a line");
            self.outcome.met.add(&cases(&line));
            let listed = line.answer.roots().into_iter().filter_map(|(_, listed)| listed);
            self.outcome.add_roots(listed.map(|(_, kind)| kind));
            each(item, &line, &ways::since(&before));
            answers.push(line.answer);
        }
        writeln!(wanted, "{}", Total::of(answers.iter())).expect("a line");
        let len = wanted.len();
        self.out[..len + UNTOUCHED.len()].fill(UNTOUCHED[0]);
        let given = (self.port)(bytes, &mut self.out);
        self.outcome.inputs += 1;
        let behind = &self.out[len..len + UNTOUCHED.len()];
        if given != len as u64 || self.out[..len] != *wanted.as_bytes() || behind != UNTOUCHED {
            self.outcome.differs(|| difference(bytes, &items, wanted.as_bytes(), &self.out, given));
        }
    }

    pub(super) fn outcome(mut self) -> Outcome {
        self.outcome.ways = ways::since(&self.before);
        self.outcome
    }
}

/// The first line that differs, and its record or that it is the total; else the lengths.
fn difference(bytes: &[u8], items: &[Item], wanted: &[u8], out: &[u8], given: u64) -> String {
    let lines = |text: &[u8]| -> Vec<String> {
        text.split(|b| *b == b'\n').map(|l| String::from_utf8_lossy(l).into_owned()).collect()
    };
    let (port, reference) = (lines(&out[..out.len().min(given as usize)]), lines(wanted));
    let len = bytes.len();
    let Some(n) = port.iter().zip(&reference).position(|(a, b)| a != b) else {
        return format!("{len} bytes: {given} by the port, {} by the reference", wanted.len());
    };
    let what = match items.get(n).map(|item| &item.record) {
        Some(Ok(record)) => text::line(record),
        Some(Err(_)) => "no whole record".to_string(),
        None => "the total".to_string(),
    };
    format!("{len} bytes, line {}: {what}: port {}, reference {}", n + 1, port[n], reference[n])
}

/// The kinds of files.
pub const KINDS: [&str; 4] = [
    "of up to eight records, every other one damaged",
    "damaged more",
    "of records damaged one by one",
    "and each 512th of about 65,536 bytes",
];

/// A file of the kind with this number.
fn made_file(r: &mut Random, which: u64) -> Vec<u8> {
    let mut bytes = any_file(r);
    match which {
        0 => (),
        1 => (0..2 + r.below(6)).for_each(|_| damage(r, &mut bytes)),
        _ => {
            bytes.clear();
            for n in 0..r.below(5) {
                let mut more = record(r, n).bytes();
                if r.below(6) == 0 {
                    damage(r, &mut more);
                }
                bytes.extend(more);
            }
        }
    }
    bytes
}

/// A file of about the most bytes that one may have.
fn full_file(r: &mut Random) -> Vec<u8> {
    let size = match r.below(4) {
        0 => MOST_BYTES + 1 + r.below(300) as usize,
        1 => MOST_BYTES,
        _ => MOST_BYTES - r.below(300) as usize,
    };
    let mut bytes = Vec::new();
    while bytes.len() < size {
        bytes.extend(file(&records(r, 100)));
    }
    bytes.truncate(size);
    bytes
}

/// The n-th made file.
pub fn nth(r: &mut Random, n: u64) -> Vec<u8> {
    match n % 512 {
        511 => full_file(r),
        n => made_file(r, n % 3),
    }
}

/// `count` made files, the kinds in turn.
pub fn made(sine: Sine, seed: u64, count: u64) -> Outcome {
    let (mut r, mut files) = (Random::new(seed), Files::new(sine, port::lister(sine)));
    for n in 0..count {
        files.add(&nth(&mut r, n), |_, _, _| ());
    }
    files.outcome()
}

/// Files are many records each: parts are smaller than those of records.
const PART: u64 = 50_000;

/// The long run; whether all were equal.
pub fn run(count: u64, seed: u64) -> bool {
    parts::run_both(PART, (count, seed), &KINDS, made)
}

#[cfg(test)]
mod tests {
    use super::*;
    use crate::stored::files::DOCUMENT;

    fn said(port: ListFile) -> Vec<String> {
        let records = text::read(DOCUMENT.as_bytes()).unwrap();
        let mut files = Files::new(Sine::OfExact, port);
        files.add(&file(&records), |_, _, _| ());
        files.outcome().shown
    }

    #[test]
    fn wrong_listings_are_found() {
        assert_eq!(said(port::list_file), [""; 0]);
        let another_digit: ListFile = |bytes, out| {
            let len = port::list_file(bytes, out);
            out[65] += 1;
            len
        };
        let wanted = "138 bytes, line 2: list 2^-30: port 2 PL refused 3, reference 2 PL refused 2";
        assert_eq!(said(another_digit), [wanted]);
        let another_kind: ListFile = |bytes, out| {
            let len = port::list_file(bytes, out);
            out[29] = b'f';
            len
        };
        assert!(
            said(another_kind)[0].starts_with("138 bytes, line 1: list 2^-30 2 -3 1: port 1 PL")
        );
        let another_total: ListFile = |bytes, out| {
            let len = port::list_file(bytes, out);
            out[len as usize - 2] += 1;
            len
        };
        let wanted = "138 bytes, line 5: the total: port T 4 4 5, reference T 4 4 4";
        assert_eq!(said(another_total), [wanted]);
        let shorter: ListFile = |bytes, out| port::list_file(bytes, out) - 1;
        assert_eq!(said(shorter).len(), 1);
        let a_byte_more: ListFile = |bytes, out| {
            let len = port::list_file(bytes, out);
            out[len as usize] = 0;
            len
        };
        assert_eq!(said(a_byte_more).len(), 1);
    }
}
