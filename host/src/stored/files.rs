//! Stored hall files for the crate `hallcases`, and what it prints for them: of each file its name
//! behind `== `, then its listing by the host's own lister over the reference build in the mode of
//! the exact c.
use crate::inputs::hall_files::{damage, records};
use crate::inputs::quadratics::TOL;
use crate::inputs::random::Random;
use crate::people::progress::Progress;
use crate::people::text;
use crate::stored::{modes, systems, telling, totals};
use crate::truth::angle::Sine;
use crate::truth::hall_file::{MOST_BYTES, Record, file};
use crate::truth::lister::{Reference, listing};
use std::fs;
use std::io::{Error, Result};
use std::path::Path;

const SEED: u64 = 801;
const RANDOM_FILES: usize = 8;
/// Records in each of them, 2,000 in all.
const RECORDS: u64 = 250;
const DAMAGED_FILES: usize = 24;

/// The file that document 01 shows, before its last two bytes.
pub const DOCUMENT: &str = "\
list 2^-30 2 -3 1
list 2^-30
quad 2^-30 2^-30 1 -3 2
crank 2^-30 0 0 1 0 0
";

/// Its listing in document 01.
pub const DOCUMENT_LISTING: &str = "\
1 PL ok 2 3FF0000000000000 1 c 4000000000000000 1 c
2 PL refused 2
3 QD two 3FF0000000000000 4000000000000000
4 TG ok 4 2 BFF0000000000000 1 c 3FF0000000000000 1 c
5 -- refused 6
T 5 4 4
";

/// Document 01, 'Entries'.
pub const ENTRIES: &str = "\
list 2^-30
list 2^-30 0 0 0
list 2^-30 7 0
list 2^-30 nan
list 2^-30 0 0 0 0 0 inf
list 2^-30 0 0 0 0 0 1
list 2^-30 0 0 3
list 2^-30 -1 1 0 0 0 0 0
list 2^-30 -6 2
list 2^-30 0 1 1.5 1
list 2^-30 1 -2 1
list 2^-30 1 0 1
quad 2^-30 2^-30 0 0 5
quad 2^-30 2^-30 0 2 -4
quad 2^-30 2^-30 1 2 1
quad 2^-30 2^-30 1 0 1
quad 2^-30 2^-30 2^-30 1 0
quad 2^-30 2^-30 -2^-30 1 0
quad 2^-30 2^-30 0x3E10000000000001 1 0
quad 2^-30 2^-30 0xBE10000000000001 1 0
";

/// Inputs that show a mistake.
pub const MISTAKES: &str = "\
list 2^-30 -0 3
list 2^-30 1e-300 1e300
list 2^-30 1e300 1e-300
list 2^-30 2 0 0 0 -2
list 2^-30 1 0 1
list 2^-30 0 -1 2 -2
list 2^-30 0 0 -2 2 -1
quad 2^-30 2^-30 0 1 0
# the third angle of NaN
list 2^-30 0x4000000000000000 0x8000000000000000 0xBFE0000000000000 0xC000000000000000 0x1EB67E9C127B6E74
# rounded twice on the way back to x
list 0 0x000184CC0328EBDA 0xC0F1000000016DED 0x7FD0000000000000
# e of 1 and of 0
list 2^-30 0x3FF0000000000001 1
list 2^-30 1 1
list 2^-30 0x000FFFFFFFFFFFFF 1
list 2^-30 1 0x000FFFFFFFFFFFFF
# a gap of exactly 8 bits
list 0x400478617F559930 1 2 2^-7 2^-23
# the crank's k: e alone, cos 2t alone, each of the others alone
crank 2^-30 0 0 0 0 1
crank 2^-30 1 0 0 0 0
crank 2^-30 0 1 0 0 0
crank 2^-30 0 0 1 0 0
crank 2^-30 0 0 0 1 0
crank 2^-30 0 0 0 0 0
# the third angle where v is about 0, -1 and just below 1
list 2^-30 0 -3 0 1
list 2^-30 -1e-20 -3 0 1
list 2^-30 -2 -3 0 1
list 2^-30 2 -3 0 1
list 2^-30 -1.9999999999999998 -3 0 1
";

/// Where the order of operations, a NaN or a zero's sign decides.
pub const FINE_POINTS: &str = "\
# a unit that is infinite: nothing joins at tolerance 0, everything at a positive one
list 0 0x0000400000000000 0xBFD0000000000000 0x7FD0000000000000
list -0 0x0000400000000000 0xBFD0000000000000 0x7FD0000000000000
list -1 0x0000400000000000 0xBFD0000000000000 0x7FD0000000000000
list nan 0x0000400000000000 0xBFD0000000000000 0x7FD0000000000000
list -inf 0x0000400000000000 0xBFD0000000000000 0x7FD0000000000000
list 2^-1074 0x0000400000000000 0xBFD0000000000000 0x7FD0000000000000
list inf 0x0000400000000000 0xBFD0000000000000 0x7FD0000000000000
# a zero pivot where the sum of the entries is infinite
list 2^-30 0xBFE0000000000000 0 0x4000000000000000 0xC000000000000000 0x0010000000000000
# equal places, listed twice
list 0 0x8000000000000000 0x000FFFFFFFFFFFFF 0xFFEFFFFFFFFFFFFF
# a quadratic does not read NaN or negative tolerances as 0; 5 looks at the answer only
quad nan 2^-30 1 0 0
quad 2^-30 nan 0 1 1
quad 2^-30 -1 0 1 1
quad 2^-30 nan 0 0 1
quad -1 2^-30 1 2 1
quad nan nan 1 2 1
quad inf inf 1 2 1
quad 2^-30 2^-30 1 inf 1
quad 2^-30 2^-30 nan 1 1
quad 2^-30 2^-30 1 1 -inf
# 4ac as (4a)c, and as 4|ac|
quad 2^-30 2^-30 1e308 1 1e-308
quad 2^-30 2^-30 1e308 1 -1e-308
quad 2^-30 2^-30 1e200 1e200 1e200
# a quartic that is not finite
crank 2^-30 1e308 1e308 1e308 1e308 1e308
crank 2^-30 inf 0 0 0 0
crank nan 0 0 1 0 0.5
crank -1 0 0 1 0 0.5
crank inf 0 0 1 0 0.5
# places that map back to no finite x
list 2^-30 0x8FADED65AB4E4DDC 0xFC31F58D5CD659F6 0x3C29D4C2463AB188
";

/// Wrong and kept, and lists on which the untouched Rust departs.
const KEPT: &str = "\
list 2^-30 1 0 2 2^-25 1
list 2^-30 1 0 16 2^-21 64
list 2^-30 -18 21 -8 1
list 2^-30 2 2 -2 0x000FFFFFFFFFFFFF
list 2^-30 -2 -2^1023 2^1023 0x7FEFFFFFFFFFFFFF
";

/// Each of the operations' refusals, with reading that goes on.
pub const REFUSED: &str = "\
list 2^-30 1 inf
list 2^-30 -inf 1
list 2^-30 7
list 2^-30 1 2 3 4 5 6
quad 2^-30 2^-30 inf 1 1
quad 2^-30 -1 0 1 1
crank 2^-30 0 0 nan 0 0
crank 2^-30 1e308 1e308 1e308 1e308 1e308
crank 2^-30 0 0 0 0 0
contact inf 0 1 0 0 0 0 3 0 1
contact 2^-30 0 1 0 0 0 0 3 nan 1
contact 2^-30 0 1 0 0 0 0 3 0 0
contact 2^-30 0 1 0 0 0 0 3 0 -0
contact 2^-30 0 1 0 0 0 0 3 0 -1
contact 2^-30 0 1e200 0 0 0 0 3 0 1
contact 2^-30 0 0 0 0 0 0 3 0 1
list 2^-30 2 -3 1
";

/// Through a pin, past it, grazing it, and beside it by more or less than confusion.
const CONTACTS: &str = "\
contact 2^-30 0 1 0 0 0 0 3 0 1
contact 2^-30 0 1 0 2 0 0 3 0 1
contact 2^-30 0 1 0 1 0 0 3 0 1
contact 1e-7 0 0.001 0 1.00000005 0 0 3 0 1
contact 1e-7 0 0.001 0 0.99999995 0 0 3 0 1
contact 1e-7 0 0.001 0 1.0000002 0 0 3 0 1
# bent: from far, from the centre, turning back before the pin
contact 2^-30 0 8 -1 0 0.5 0 12 1 1
contact 2^-30 3 1 0.25 0 1 -0.5 3 0 1
contact 2^-30 0 2 -1 0 0 0 3 0 1
contact 2^-30 0 4 -1 0 0 0 3 0 1
contact 2^-30 0 4 -1 0 0 0 5 0 1
# the tests in their order: 10, 11, 12, 2
contact nan 0 1e200 0 0 0 0 3 0 0
contact 2^-30 0 1e200 0 0 0 0 3 0 0
contact 2^-30 0 0 0 0 0 0 3 0 1e200
contact 2^-30 0 2^-600 0 0 0 0 0 0 1
";

/// Crossings, brushes and flat roots, formed in every way. The contacts' paths rise to 257/256
/// between two dips to about 255/256, at -4 and 4 or at 0 and 8.
pub const KINDS: &str = "\
list 2^-30 2 -3 1
list 2^-30 1 -2 1
list 2^-30 1 0 -2 0 1
list 2^-30 0 0 -3 -2 1
list 2^-30 0 0 0 -1 1
crank 2^-30 0 0 1 0 -1
crank 2^-30 1 0 0 0 1
crank 2^-30 1 0 -4 0 3
# two double roots, with a yes between them and with a no
contact 2/256 0 30/256 0 257/256 0 -2/256 0 0 255/256
contact 1/256 0 30/256 0 257/256 0 -2/256 0 0 255/256
# two pairs: linked, each alone, and none
contact 3/256 0 30/256 0 257/256 0 -2/256 0 0 254/256
contact 2/256 0 30/256 0 257/256 0 -2/256 0 0 254/256
contact 1/512 0 30/256 0 257/256 0 -2/256 0 0 254/256
# four simple roots, linked and apart
contact 1/256 0 30/256 0 257/256 0 -2/256 0 0 1
contact 1/512 0 30/256 0 257/256 0 -2/256 0 0 1
# simple roots before a pair: linked with it, beside it, and alone
contact 3/512 0 30/256 0 257/256 1/512 -2/256 0 0 1
contact 3/1024 0 30/256 0 257/256 1/512 -2/256 0 0 1
contact 1/1024 0 30/256 0 257/256 1/512 -2/256 0 0 1
# the root 0 twice and another double root; a pair or a link beside one in the band; none of these
contact 2/256 -120/256 30/256 0 225/256 16/256 -2/256 0 0 255/256
contact 1/256 -120/256 30/256 0 225/256 16/256 -2/256 0 0 1044479/1048576
contact 1/256 -120/256 30/256 0 225/256 16/256 -2/256 0 0 1044481/1048576
contact -1 -120/256 30/256 0 225/256 16/256 -2/256 0 0 1044481/1048576
";

/// Contacts, and those that tell a mistake.
fn contacts() -> Vec<u8> {
    let telling = telling::contacts().map(|(_, contact)| Record::Contact(contact));
    [of_text(CONTACTS), file(&telling.collect::<Vec<_>>())].concat()
}

pub(super) fn formula(text: impl Into<Vec<u8>>) -> Record {
    Record::Formula { tolerance: TOL, text: text.into() }
}

/// Letters that stand in no text, alone and behind a sum.
const NO_LETTERS: &[u8] = b"\0\t\n\r !#%,./:<=>TXex[]{}~\x7F\x80\xB2\xF4\xFF";

/// Formulas that tell a mistake, with other letters, and as many t as there may be.
fn formulas() -> Vec<u8> {
    let telling = telling::FORMULAS.iter().map(|(_, text)| formula(*text));
    let alone = NO_LETTERS.iter().map(|letter| formula([*letter]));
    let behind = NO_LETTERS.iter().map(|letter| formula([b't', *letter]));
    let many = [b'+', b'-', b'*'].map(|join| {
        let joined = [b't', join].repeat(127);
        formula([&joined[..], b"t"].concat())
    });
    file(&telling.chain(alone).chain(behind).chain(many).collect::<Vec<_>>())
}

/// Up to the 127 brackets that a text has room for, with one more or less on either side.
fn deep_brackets() -> Vec<u8> {
    let within = |open: usize, inner: &str, close: usize| {
        formula(["(".repeat(open).as_str(), inner, &")".repeat(close)].concat())
    };
    let mut all = vec![within(255, "", 0), within(0, "", 255), within(127, "", 127)];
    for depth in [1, 2, 3, 63, 64, 126, 127] {
        all.extend([within(depth, "t", depth), within(depth, "", depth)]);
        all.extend([within(depth, "t", depth - 1), within(depth - 1, "t", depth)]);
    }
    all.extend([within(126, "t-9", 126), within(125, "t^5", 125), within(126, "-t", 126)]);
    file(&all)
}

/// The bytes of a text's records.
pub(super) fn of_text(lines: &str) -> Vec<u8> {
    let records = text::read(lines.as_bytes()).unwrap_or_else(|e| panic!("{e}"));
    file(&records)
}

fn whole(coeffs: &[f64]) -> Record {
    Record::List { tolerance: 1.0 / (1u64 << 30) as f64, coeffs: coeffs.to_vec() }
}

/// Two roots, and zeros up to this many coefficients.
fn padded(count: usize) -> Record {
    let mut coeffs = [2.0, -3.0, 1.0].to_vec();
    coeffs.resize(count, 0.0);
    whole(&coeffs)
}

/// Whole lists that have exactly this many bytes, where there are such: k lists with m coefficients
/// in all have 11k + 8m.
pub fn of_size(size: usize) -> Vec<u8> {
    let fits = |k: &usize| 11 * k <= size && (size - 11 * k).is_multiple_of(8);
    let k = (size.div_ceil(267)..).find(fits).unwrap_or(1);
    let m = (size - 11 * k) / 8;
    let records: Vec<Record> = (0..k).map(|i| padded(m * (i + 1) / k - m * i / k)).collect();
    file(&records)
}

/// Tolerances of every kind on double roots, one pair, one crank and one contact.
fn tolerances() -> Vec<u8> {
    let mut lines = String::new();
    for tol in
        ["nan", "0xFFF0000000000001", "inf", "-inf", "0", "-0", "-1", "2^-1074", "1e308", "1"]
    {
        lines += &format!("list {tol} 1 -2 1\nlist {tol} 3 -7 5 -1\nlist {tol} 1.0001 0 2 0 1\n");
        lines +=
            &format!("quad {tol} {tol} 1 2 1\nquad {tol} 0 1 -3 2\ncrank {tol} 1 0 0 0 0.9999\n");
        lines += &format!("contact {tol} 0 0.001 0 1.00000005 0 0 3 0 1\n");
        lines += &format!("formula {tol} (t-3)^2*(t-1)\nformula {tol} (1000*t-1)^2-1\n");
    }
    of_text(&lines)
}

/// Lists of 6 to 32 coefficients: with zeros behind, with zeros in front, and not finite.
fn long_lists() -> Vec<u8> {
    let mut all = Vec::new();
    for count in [6, 7, 16, 31, 32] {
        let mut last = vec![0.0; count];
        last[count - 1] = 1.0;
        all.extend([padded(count), whole(&last), whole(&vec![1.0; count])]);
        last[count - 1] = f64::INFINITY;
        all.extend([whole(&last), whole(&vec![-0.0; count])]);
        last[count - 1] = 0.0;
        last[..5].copy_from_slice(&[0.0, 0.0, 6.0, -5.0, 1.0]);
        all.push(whole(&last));
    }
    file(&all)
}

pub(super) type Named = (String, Vec<u8>);

pub(super) fn named(name: &str, bytes: impl Into<Vec<u8>>) -> Named {
    (name.to_string(), bytes.into())
}

/// Files that end, or are refused, at a mark, a count or a length.
fn ends() -> Vec<Named> {
    let behind = |tail: &[u8]| [&of_text("list 2^-30 -6 2")[..], tail].concat();
    let count = |n: u8| {
        let mut bytes = padded(32).bytes();
        bytes[2] = n;
        behind(&bytes)
    };
    let mut long = of_size(MOST_BYTES);
    long.push(b'P');
    vec![
        named("empty", []),
        named("half_mark", behind(b"T")),
        named("half_mark_alone", b"X"),
        named("unknown_mark", behind(b"XX")),
        named("unknown_mark_alone", b"\0\0"),
        named("lower_case_mark", behind(b"pl\x01")),
        named("marks_exchanged", behind(b"LPDQGTCPXT")),
        named("no_count", behind(b"PL")),
        named("count_0", whole(&[]).bytes()),
        named("count_32", count(32)),
        named("count_33", count(33)),
        named("count_33_alone", b"PL\x21"),
        named("count_255", count(255)),
        named("short_by_one_coefficient", count(31)),
        named("no_length", behind(b"TX")),
        named("length_0", behind(&formula("").bytes())),
        named("length_0_cut", &formula("").bytes()[..10]),
        named("length_33", formula("0".repeat(33)).bytes()),
        named("length_255", behind(&formula("(".repeat(255)).bytes())),
        named("length_255_cut", behind(&formula("(".repeat(255)).bytes()[..265])),
        named("bytes_65535", of_size(65_535)),
        named("bytes_65535_cut", &of_size(MOST_BYTES)[..65_535]),
        named("bytes_65536", of_size(MOST_BYTES)),
        named("bytes_65537", long),
        named("bytes_65537_whole", of_size(65_537)),
    ]
}

/// A record of each kind behind a whole one, cut at each of its bytes.
fn cuts() -> Vec<Named> {
    let first = of_text("list 2^-30 -6 2");
    let lines = [
        "list 2^-30 7",
        "quad 2^-30 2^-30 1 -3 2",
        "crank 2^-30 0 0 1 0 0",
        "contact 2^-30 0 1 0 0 0 0 3 0 1",
        "formula 2^-30 (t-2)^2*(t+1)",
    ];
    let cut = |line: &&str| {
        let (first, bytes) = (first.clone(), of_text(line));
        let kind = String::from_utf8_lossy(&bytes[..2]).to_lowercase();
        (0..=bytes.len())
            .map(move |n| named(&format!("cut_{kind}_{n:02}"), [&first, &bytes[..n]].concat()))
    };
    lines.iter().flat_map(cut).collect()
}

/// Files of random records, and damaged ones.
fn made() -> Vec<Named> {
    let mut r = Random::new(SEED);
    let mut all = Vec::new();
    for n in 1..=RANDOM_FILES {
        all.push(named(&format!("random_{n}"), file(&records(&mut r, RECORDS))));
    }
    for n in 1..=DAMAGED_FILES {
        let mut bytes = file(&records(&mut r, 12));
        damage(&mut r, &mut bytes);
        all.push(named(&format!("damaged_{n:02}"), bytes));
    }
    all
}

/// All files, the same at every call.
pub fn files() -> Vec<Named> {
    let mut all = vec![
        named("document", [&of_text(DOCUMENT)[..], b"XX"].concat()),
        named("entries", of_text(ENTRIES)),
        named("mistakes", of_text(MISTAKES)),
        named("fine_points", of_text(FINE_POINTS)),
        named("kept", of_text(KEPT)),
        named("refused", of_text(REFUSED)),
        named("contacts", contacts()),
        named("formulas", formulas()),
        named("deep_brackets", deep_brackets()),
        named("kinds", of_text(KINDS)),
        named("modes", file(&modes::records())),
        named("systems", file(&systems::records())),
        named("tolerances", tolerances()),
        named("long_lists", long_lists()),
    ];
    all.extend(ends());
    all.extend(cuts());
    all.extend(made());
    all.extend(totals::files());
    all
}

/// Writes DIR/data/, DIR/args and DIR/stdout, and says how many files.
pub fn write_files(dir: &Path) -> Result<usize> {
    let files = files();
    let data = dir.join("data");
    let told = |path: &Path, e: Error| Error::new(e.kind(), format!("{}: {e}", path.display()));
    let write = |path: &Path, bytes: &[u8]| fs::write(path, bytes).map_err(|e| told(path, e));
    fs::create_dir_all(&data).map_err(|e| told(&data, e))?;
    let (mut args, mut stdout) = (String::new(), Vec::new());
    let mut progress = Progress::new("files", files.len());
    for (name, bytes) in &files {
        write(&data.join(name), bytes)?;
        args += &format!("{name}\n");
        stdout.extend(format!("== {name}\n").into_bytes());
        stdout.extend(listing(bytes, &Reference(Sine::OfExact)));
        progress.step();
    }
    write(&dir.join("args"), args.as_bytes())?;
    write(&dir.join("stdout"), &stdout)?;
    Ok(files.len())
}

#[cfg(test)]
mod tests {
    use super::*;
    use crate::truth::hall_file::items;

    #[test]
    fn sizes_are_met() {
        for size in [65_535, 65_536, 65_537, 200, 300] {
            assert_eq!(of_size(size).len(), size);
        }
        assert!(items(&of_size(MOST_BYTES)).iter().all(|item| item.record.is_ok()));
    }

    #[test]
    fn names_differ_and_records_suffice() {
        let files = files();
        let mut names: Vec<_> = files.iter().map(|(name, _)| name).collect();
        names.sort();
        names.dedup();
        assert_eq!(names.len(), files.len());
        assert!(files.len() >= 40);
        let random = files.iter().filter(|(name, _)| name.starts_with("random"));
        assert_eq!(random.map(|(_, bytes)| items(bytes).len()).sum::<usize>(), 2_000);
        assert!(files.iter().all(|(_, bytes)| bytes.len() <= 65_537));
    }
}
