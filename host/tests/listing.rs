//! Whole hall files: their listings by the port, and by the program itself, against the host's own
//! lister over the reference build.
#![cfg(geomcore)]
mod run;

use host::compare::outcome::Outcome;
use host::compare::say;
use host::compare::ways::{OF_LISTS, WAYS};
use host::inputs::hall_files::any_file;
use host::inputs::random::Random;
use host::people::show::whole_listing;
use host::port;
use host::runs::damage::Hunt;
use host::runs::files::made;
use host::stored::files::{DOCUMENT_LISTING, files, of_size};
use host::truth::angle::Sine;
use host::truth::hall_file::{MOST_BYTES, MOST_LISTED, Record, file};
use host::truth::lister::{Reference, listing};
use run::{hallroots, piped};
use std::process::{Command, Stdio};

/// The lines of both, in either mode; those of the mode of the exact c.
fn by_both(bytes: &[u8]) -> Vec<u8> {
    let [_, own] = Sine::BOTH.map(|sine| {
        let own = listing(bytes, &Reference(sine));
        assert!(whole_listing(bytes, port::lister(sine)) == own, "{} bytes", bytes.len());
        own
    });
    own
}

/// The stored file with this name.
fn stored(name: &str) -> Vec<u8> {
    files().into_iter().find(|file| file.0 == name).unwrap().1
}

#[test]
fn the_documents_file() {
    let bytes = stored("document");
    assert_eq!(by_both(&bytes), DOCUMENT_LISTING.as_bytes());
}

fn all_equal(name: &str, outcome: &Outcome) {
    say(&format!("{name}: {}", outcome.text()));
    assert!(outcome.wrong == 0, "{name}:\n{}", outcome.shown.join("\n"));
    outcome.met.ask(name);
    // nothing is scaled a fourth time
    let ways = WAYS[..OF_LISTS].iter().zip(outcome.ways).filter(|way| !way.0.ends_with("depth 2"));
    assert!(ways.clone().all(|way| way.1 > 0), "{:?}", ways.collect::<Vec<_>>());
}

#[test]
fn made_files_first() {
    Sine::BOTH
        .into_iter()
        .for_each(|sine| all_equal("made files, seed 731", &made(sine, 731, 480_000)));
}

#[test]
fn made_files_second() {
    Sine::BOTH
        .into_iter()
        .for_each(|sine| all_equal("made files, seed 732", &made(sine, 732, 480_000)));
}

#[test]
fn damaged_again() {
    for sine in Sine::BOTH {
        let mut hunt = Hunt::new(sine, 733);
        (0..50_000).for_each(|_| hunt.turn());
        let (outcome, new) = hunt.outcome();
        all_equal("damaged files, seed 733", &outcome);
        assert!(new > 500, "{new} records met something new");
    }
}

/// Lengths at which something changes, of whole records and of zeros.
#[test]
fn lengths() {
    for len in [0, 1, 2, 3, 65_535, 65_536, 65_537, 70_000, 200_000] {
        let mut whole = of_size(MOST_BYTES);
        whole.resize(len, b'P');
        for bytes in [whole, vec![0; len], vec![b'P'; len]] {
            let too_long = by_both(&bytes) == b"0 -- refused 9\nT 1 0 0\n";
            assert_eq!(len > MOST_BYTES, too_long, "{len} bytes");
        }
    }
}

/// The longest listing that was found: of five letters each, three roots.
#[test]
fn longest_lines() {
    let formula = Record::Formula { tolerance: 0.0, text: b"t^3-t".to_vec() };
    let bytes = file(&vec![formula; 4096]);
    let lines = by_both(&bytes);
    assert_eq!(bytes.len(), MOST_BYTES);
    assert!(lines.len() > 300_000 && lines.len() <= MOST_LISTED, "{} bytes", lines.len());
}

/// Into a buffer of every length: the listing as far as it reaches, its whole length as the answer,
/// and every byte behind it as it was.
#[test]
fn short_buffers() {
    let mut r = Random::new(734);
    let mut all: Vec<Vec<u8>> = (0..60).map(|_| any_file(&mut r)).collect();
    all.extend(
        ["document", "entries", "refused", "deep_brackets", "empty", "bytes_65537"].map(stored),
    );
    // they end inside the total, whose numbers have one digit, two and three
    all.extend(["total", "total_of_9", "total_of_10", "total_of_99", "total_of_100"].map(stored));
    let mut lengths = 0;
    for bytes in all {
        for sine in Sine::BOTH {
            let (list_file, wanted) = (port::lister(sine), listing(&bytes, &Reference(sine)));
            let before: Vec<u8> = (0..wanted.len() + 40).map(|i| i as u8 ^ 0x5A).collect();
            for room in 0..=before.len() {
                let mut out = before.clone();
                let said = list_file(&bytes, &mut out[..room]);
                let stored = room.min(wanted.len());
                assert_eq!(said, wanted.len() as u64);
                assert_eq!(out[..stored], wanted[..stored]);
                assert_eq!(out[stored..], before[stored..]);
                lengths += 1;
            }
        }
    }
    say(&format!("short buffers: {lengths} lengths"));
}

#[test]
fn the_program_by_pipe() {
    let Some(program) = hallroots() else {
        return;
    };
    let mut r = Random::new(735);
    let mut all: Vec<Vec<u8>> = files().into_iter().map(|file| file.1).collect();
    all.extend((0..300).map(|_| any_file(&mut r)));
    all.extend([65_536, 65_537, 70_000, 200_000, 1_000_000].map(|len| vec![b'P'; len]));
    for bytes in &all {
        // of a file that is too long the program does not read the end
        let out = piped(&mut Command::new(program), bytes);
        assert!(out.stdout == listing(bytes, &Reference(Sine::OfExact)), "{bytes:?}");
        assert_eq!((out.status.code(), &out.stderr[..]), (Some(0), &b""[..]));
    }
    say(&format!("hallroots by pipe: {} files", all.len()));
}

/// A read that fails lists nothing, and a write that fails is said.
#[test]
fn the_program_without_a_file() {
    let Some(program) = hallroots() else {
        return;
    };
    let run = |stdin: Stdio, stdout: Stdio| {
        Command::new(program).stdin(stdin).stdout(stdout).stderr(Stdio::piped()).output().unwrap()
    };
    let open = |path: &str| Stdio::from(std::fs::File::open(path).unwrap());
    let out = run(open(env!("CARGO_MANIFEST_DIR")), Stdio::piped());
    assert_eq!(out.stdout, b"");
    assert!(out.stderr.starts_with(b"reading the hall file: "));
    let example = concat!(env!("CARGO_MANIFEST_DIR"), "/../crates/hallroots/stdin");
    let full = std::fs::OpenOptions::new().write(true).open("/dev/full").unwrap();
    let out = run(open(example), Stdio::from(full));
    assert!(out.stderr.starts_with(b"writing the listing: "));
}
