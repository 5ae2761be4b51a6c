//! The total at the end of a listing, by the host's own lister and by the port.
#![cfg(geomcore)]
mod run;

use host::inputs::hall_files::any_file;
use host::inputs::random::Random;
use host::people::show::whole_listing;
use host::people::text::read;
use host::port;
use host::stored::files::files;
use host::stored::totals::{self, COUNTED};
use host::truth::angle::Sine;
use host::truth::hall_file::{MOST_BYTES, MOST_LISTED, Record, file};
use host::truth::lister::{Reference, listing};
use run::{hall, hallroots, piped, text};
use std::process::Command;

fn of_text(lines: &str) -> Vec<u8> {
    file(&read(lines.as_bytes()).unwrap())
}

/// As many records of a formula.
fn formulas(text: &str, count: usize) -> Vec<u8> {
    file(&vec![Record::Formula { tolerance: 0.0, text: text.into() }; count])
}

/// The listing of a file, the same by both.
fn listed(bytes: &[u8]) -> String {
    let [_, own] = Sine::BOTH.map(|sine| {
        let own = listing(bytes, &Reference(sine));
        assert!(whole_listing(bytes, port::lister(sine)) == own, "{:?}", own.escape_ascii());
        own
    });
    text(&own)
}

/// The last line.
fn total(bytes: &[u8]) -> String {
    let listing = listed(bytes);
    listing.strip_suffix('\n').unwrap().rsplit('\n').next().unwrap().to_string()
}

/// What a person counts in the lines above the total: by its words and letters alone.
fn by_hand(listing: &str) -> String {
    let (lines, _) = listing.trim_end().rsplit_once('\n').unwrap_or(("", listing));
    let (mut records, mut roots, mut times) = (0, 0, 0);
    for line in lines.lines() {
        records += 1;
        for pair in line.split(' ').collect::<Vec<_>>().windows(2) {
            if ["c", "b", "f"].contains(&pair[1]) {
                roots += 1;
                times += pair[0].parse::<u64>().unwrap();
            }
        }
    }
    format!("T {records} {roots} {times}")
}

#[test]
fn without_records() {
    assert_eq!(listed(b""), "T 0 0 0\n");
    for len in [MOST_BYTES + 1, 70_000, 1_000_000] {
        for byte in [0, b'P', b'T'] {
            assert_eq!(listed(&vec![byte; len]), "0 -- refused 9\nT 1 0 0\n");
        }
    }
    // nothing of what is too long counts
    let many = formulas("t", MOST_BYTES / 12 + 1);
    assert_eq!(listed(&many), "0 -- refused 9\nT 1 0 0\n");
}

/// Each kind, and each refusal; a refused record adds its line.
#[test]
fn one_record() {
    let known = [
        ("list 2^-30 2 -3 1", "T 1 2 2"),
        ("list 2^-30 1 -2 1", "T 1 1 2"),
        ("list 2^-30 0 0 0 0 1", "T 1 1 4"),
        ("list 2^-30 24 -50 35 -10 1", "T 1 4 4"),
        ("list 2^-30 1 0 1", "T 1 0 0"),
        ("quad 2^-30 2^-30 1 -3 2", "T 1 0 0"),
        ("quad 2^-30 2^-30 1 2 1", "T 1 0 0"),
        ("quad 2^-30 2^-30 0 2 -4", "T 1 0 0"),
        ("quad 2^-30 2^-30 0 0 5", "T 1 0 0"),
        ("quad 2^-30 2^-30 1 0 1", "T 1 0 0"),
        ("crank 2^-30 0 0 1 0 0", "T 1 2 2"),
        ("crank 2^-30 0 0 1 0 -1", "T 1 1 2"),
        ("crank 2^-30 0 0 1 0 5", "T 1 0 0"),
        ("contact 2^-30 0 1 0 0 0 0 3 0 1", "T 1 2 2"),
        ("contact 0.25 5.25 0 0 -3 1 0 0 0 5", "T 1 1 2"),
        ("contact 2^-30 5 0 0 -3 1 0 0 0 5", "T 1 1 2"),
        ("contact 3/512 0 30/256 0 257/256 1/512 -2/256 0 0 1", "T 1 2 4"),
        ("contact 2^-30 0 1 0 2 0 0 3 0 1", "T 1 0 0"),
        ("formula 2^-30 (t-2)^2*(t+1)", "T 1 2 3"),
        ("formula 2^-30 t^2+1", "T 1 0 0"),
    ];
    for (line, wanted) in known {
        assert_eq!(total(&of_text(line)), wanted, "{line}");
    }
    let refused = "list 1 inf 1|list 1 7|list 1 1 2 3 4 5 6|quad 1 1 inf 1 1|quad 1 -1 0 1 1\
                   |crank 1 0 0 nan 0 0|crank 1 1e308 1e308 1e308 1e308 1e308|crank 1 0 0 0 0 0\
                   |contact inf 0 1 0 0 0 0 3 0 1|contact 1 0 1 0 0 0 0 3 0 0\
                   |contact 1 0 1e200 0 0 0 0 3 0 1|contact 1 0 0 0 0 0 0 3 0 1\
                   |formula 1 0x3274|formula 1 t^5|formula 1 (10000*t)^9|formula 1 7";
    for line in refused.split('|') {
        let bytes = of_text(line);
        assert!(listed(&bytes).contains(" refused "), "{line}");
        assert_eq!(total(&bytes), "T 1 0 0", "{line}");
        let root = of_text("list 2^-30 -6 2");
        assert_eq!(total(&[&root[..], &bytes, &root].concat()), "T 3 2 2", "{line}");
    }
}

/// Where a refusal ends the reading, its line counts, and what stood before it.
#[test]
fn cut_short() {
    let ends: [(&[u8], &str); 9] = [
        (b"XX", "-- refused 6"),
        (b"T", "-- refused 7"),
        (b"PL", "PL refused 7"),
        (b"QD\0", "QD refused 7"),
        (b"TG", "TG refused 7"),
        (b"PC", "PC refused 7"),
        (b"TX\x05abc", "TX refused 7"),
        (b"PL\x21", "PL refused 8"),
        (b"PL\xFF", "PL refused 8"),
    ];
    let before = of_text("list 2^-30 2 -3 1\nquad 1 1 1 -3 2\nformula 0 t^3");
    for (end, line) in ends {
        assert_eq!(listed(end), format!("1 {line}\nT 1 0 0\n"));
        let both = listed(&[&before[..], end].concat());
        assert!(both.ends_with(&format!("\n4 {line}\nT 4 3 5\n")), "{both}");
    }
    // what comes behind is not read
    for (end, line) in [(&b"XX"[..], "-- refused 6"), (b"PL\x21", "PL refused 8")] {
        let after = listed(&[&before[..], end, &before].concat());
        assert!(after.ends_with(&format!("\n4 {line}\nT 4 3 5\n")), "{after}");
    }
}

#[test]
fn stored() {
    let known = [
        ("total", "T 40 30 45"),
        ("total_unknown_mark", "T 41 30 45"),
        ("total_cut", "T 41 30 45"),
        ("total_count_33", "T 41 30 45"),
        ("total_quadratics", "T 5 0 0"),
        ("total_refused", "T 5 0 0"),
        ("total_of_1", "T 1 1 1"),
        ("total_of_9", "T 9 9 9"),
        ("total_of_10", "T 10 10 10"),
        ("total_of_99", "T 99 99 99"),
        ("total_of_100", "T 100 100 100"),
    ];
    let made: Vec<_> =
        totals::files().iter().map(|(name, bytes)| (name.clone(), total(bytes))).collect();
    let known = known.map(|(name, total)| (name.to_string(), total.to_string()));
    assert_eq!(made, known);
}

/// The most lines, the most roots, and the largest sum of multiplicities of those that were found.
#[test]
fn full_files() {
    let full = |text: &str| formulas(text, MOST_BYTES / (11 + text.len()));
    assert_eq!(total(&b"PL\0\0\0\0\0\0\0\0\0".repeat(5957)), "T 5957 0 0");
    assert_eq!(total(&full("")), "T 5957 0 0");
    assert_eq!(total(&full("t")), "T 5461 5461 5461");
    assert_eq!(total(&full("t^3-t")), "T 4096 12288 12288");
    assert_eq!(total(&full("t^4")), "T 4681 4681 18724");
    assert_eq!(total(&full("t^4-t^2")), "T 3640 10920 14560");
    for (count, wanted) in [(999, "T 999 999 999"), (1000, "T 1000 1000 1000")] {
        assert_eq!(total(&formulas("t", count)), wanted);
    }
    for (count, wanted) in [(3333, "T 3333 9999 9999"), (3334, "T 3334 10002 10002")] {
        assert_eq!(total(&formulas("t^3-t", count)), wanted);
    }
    assert!(listed(&full("t^3-t")).len() <= MOST_LISTED);
}

/// As a person counts them.
#[test]
fn made_files() {
    let mut r = Random::new(1071);
    for _ in 0..20_000 {
        let listing = listed(&any_file(&mut r));
        assert!(listing.ends_with(&format!("{}\n", by_hand(&listing))), "{listing}");
    }
    for (name, bytes) in files() {
        let listing = listed(&bytes);
        assert!(listing.ends_with(&format!("{}\n", by_hand(&listing))), "{name}");
    }
    let listing = listed(&of_text(COUNTED));
    assert_eq!(by_hand(&listing), "T 40 30 45");
}

/// By both programs, and in words.
#[test]
fn programs() {
    let bytes = of_text(COUNTED);
    let wanted = listing(&bytes, &Reference(Sine::OfExact));
    assert_eq!(hall(&["list"], &bytes).stdout, wanted);
    if let Some(program) = hallroots() {
        assert_eq!(piped(&mut Command::new(program), &bytes).stdout, wanted);
        assert_eq!(piped(&mut Command::new(program), b"").stdout, b"T 0 0 0\n");
    }
    let last = |bytes: &[u8]| {
        let shown = text(&hall(&["show"], bytes).stdout);
        shown.lines().last().unwrap().to_string()
    };
    let words = "in all: 40 records, 30 roots, which together count 45 times";
    assert_eq!(last(&bytes), format!("{words}, not counting the places of quads"));
    assert_eq!(last(&of_text("list 2^-30 -6 2")), "in all: 1 record, 1 root, which counts once");
    assert_eq!(last(&formulas("t^3", 1)), "in all: 1 record, 1 root, which counts 3 times");
    let two = "in all: 2 records, 2 roots, which together count 2 times";
    assert_eq!(last(&formulas("t", 2)), two);
    assert_eq!(last(b"XX"), "in all: 1 record, 0 roots");
    // of one record, nothing in all
    let one = text(&hall(&["explain", "-", "3"], &bytes).stdout);
    assert!(!one.contains("in all"), "{one}");
}
