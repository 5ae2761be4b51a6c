//! What the program `hall` compares with the Rust, as people call it.
#![cfg(geomcore)]
mod run;

use host::stored::files::DOCUMENT_LISTING;
use host::truth::angle::Sine;
use run::{hall, made, said, scratch, text};
use std::fs;

#[test]
fn comparison() {
    let path = scratch("compared.hall");
    let lines = "list 2^-30 2 -3 1\nlist 2^-30 -18 21 -8 1\ncrank 2^-30 1 0 0 0 0.5\nlist 1 5\n";
    fs::write(&path, made(lines)).unwrap();
    let path = path.to_str().unwrap();
    let out = hall(&["compare", path], b"");
    assert_eq!((out.status.code(), &out.stderr[..]), (Some(0), &b""[..]));
    let shown = "\
record 2 at byte 35: list 2^-30 -18 21 -8 1
  x^3 - 8 x^2 + 21 x - 18 = 0
  reference  ok
    2                         4000000000000000  1 c
    3.000000000000001         4008000000000002  2 f
  port       the same
  untouched  ok  [bits, steps 0 4]
    2                         4000000000000000  1 c
    2.999999999999999         4007FFFFFFFFFFFE  2 f
4 records: 3 answered, 1 refused
port: 4 equal to the reference build, 0 not
untouched Rust: 3 equal to the reference build, 1 not
total: reference build T 4 8 9, port the same, untouched Rust the same
";
    assert_eq!(text(&out.stdout), shown);
    assert_eq!(hall(&["compare", "-"], &made(lines)).stdout, out.stdout);
    let rows = text(&hall(&["compare", path, "--differences"], b"").stdout);
    assert_eq!(rows.lines().count(), 3);
    assert!(rows.lines().all(|row| row.matches('|').count() == 5), "{rows}");
    let csv = hall(&["compare", path, "--csv"], b"");
    assert_eq!(csv.status.code(), Some(0));
    let lines = text(&csv.stdout);
    assert!(lines.starts_with("record,byte,input,reference,port,untouched,"), "{lines}");
    assert!(lines.ends_with("\n4,128,list 1 5,refused 2,refused 2,refused 2,,\n"), "{lines}");
    assert_eq!(lines.lines().count(), 5);
}

/// A formula departs as the list of its coefficients does.
#[test]
fn formulas() {
    let out = hall(&["compare", "-"], &made("formula 2^-30 (t-3)^2*(t-2)\nformula 2^-30 t^5"));
    assert_eq!((out.status.code(), &out.stderr[..]), (Some(0), &b""[..]));
    let shown = "\
record 1 at byte 0: formula 2^-30 (t-3)^2*(t-2)
  t^3 - 8 t^2 + 21 t - 18 = 0
  reference  ok
    2                         4000000000000000  1 c
    3.000000000000001         4008000000000002  2 f
  port       the same
  untouched  ok  [bits, steps 0 4]
    2                         4000000000000000  1 c
    2.999999999999999         4007FFFFFFFFFFFE  2 f
2 records: 1 answered, 1 refused
port: 2 equal to the reference build, 0 not
untouched Rust: 1 equal to the reference build, 1 not
total: reference build T 2 2 3, port the same, untouched Rust the same
";
    assert_eq!(text(&out.stdout), shown);
}

/// Of all that is told, no line has over 100 columns.
#[test]
fn columns() {
    let long =
        "list 2^-30 -1.8e1 21.000000000000004 -7.999999999999999 1.0000000000000002 0 0 0 0 0";
    let bytes = made(&format!("{long} 0 0 0 0 0 0 0 0 0 0 0 0 0 0 0\nlist 2^-30 -18 21 -8 1"));
    // the same roots, and 0 in many brackets
    let formula = format!("formula 2^-30 (t-3)^2*(t-2){}", "+(0)".repeat(59));
    let told = [
        hall(&["compare", "-"], &bytes).stdout,
        hall(&["compare", "-"], &made(&formula)).stdout,
        hall(&["compare", "-"], b"list 1 2").stderr,
        hall(&["make"], b"list 1 2 three").stderr,
        hall(&["lists", "1000", "1"], b"").stdout,
        hall(&["damage", "0", "1"], b"").stdout,
    ];
    for all in told.map(|all| text(&all)) {
        assert!(!all.is_empty());
        for line in all.lines() {
            assert!(line.chars().count() <= 100, "{line}");
        }
    }
}

/// Text, junk or nothing: status 2. Behind a whole record it is a refusal like another.
#[test]
fn nothing_to_compare() {
    let known: [(&[u8], &str); 10] = [
        (b"", "the file is empty"),
        (b"formula 2^-30 t-2", "byte 0: unknown mark `fo`; for lines of text, `hall make`"),
        (b"TX\x05abc", "byte 0: the file ends inside this formula, 6 bytes of it are there of 16"),
        (b"Slider 1 3 3\n", "byte 0: unknown mark `Sl`; for lines of text, `hall make`"),
        (b"list 2^-30 2 -3 1\n", "byte 0: unknown mark `li`; for lines of text, `hall make`"),
        (b"\x7FELF", "byte 0: unknown mark `\\x7fE`"),
        (b"TG\0", "byte 0: the file ends inside this crank"),
        (b"PC\0", "byte 0: the file ends inside this contact, 3 bytes of it are there of 82"),
        (b"Contact 0 0 1", "byte 0: unknown mark `Co`; for lines of text, `hall make`"),
        (&[0; 70_000], "the file has 70000 bytes, more than 65,536"),
    ];
    for (bytes, why) in known {
        for words in [&["compare", "-"][..], &["compare", "-", "--csv"]] {
            let out = hall(words, bytes);
            assert_eq!((out.status.code(), &out.stdout[..]), (Some(2), &b""[..]), "{why}");
            let front = format!("hall: standard input: nothing was compared: {why}");
            assert!(said(&out).starts_with(&front), "{}", said(&out));
        }
    }
    let out = hall(&["compare", "/no/such/file"], b"");
    assert_eq!((out.status.code(), &out.stdout[..]), (Some(1), &b""[..]));
    assert!(said(&out).starts_with("hall: /no/such/file: "));
    let out = hall(&["compare", "-"], &[&made("list 1 1 1")[..], b"XX"].concat());
    assert_eq!(out.status.code(), Some(0));
    assert!(text(&out.stdout).starts_with("2 records: 1 answered, 1 refused\n"));
}

#[test]
fn long_runs() {
    let ran = |words: &[&str]| {
        let out = hall(words, b"");
        assert_eq!(out.status.code(), Some(0), "{out:?}");
        text(&out.stdout)
    };
    // in no time `damage` compares the stored files alone
    let (files, damage) = (ran(&["files", "2000", "1"]), ran(&["damage", "0", "1"]));
    let stored = host::stored::files::files().len();
    for mode in Sine::BOTH.map(Sine::words) {
        assert!(files.contains(&format!("2000 files, {mode}, 0 differ")), "{files}");
        assert!(damage.contains(&format!("{stored} files, {mode}, 0 differ")), "{damage}");
    }
}

#[test]
fn stored_files() {
    let dir = scratch("stored_files");
    let out = hall(&["stored", "files", dir.to_str().unwrap()], b"");
    assert_eq!(out.status.code(), Some(0), "{out:?}");
    let args = fs::read_to_string(dir.join("args")).unwrap();
    let stdout = fs::read_to_string(dir.join("stdout")).unwrap();
    assert!(stdout.starts_with(&format!("== document\n{DOCUMENT_LISTING}== ")));
    assert_eq!(stdout.lines().filter(|line| line.starts_with("== ")).count(), args.lines().count());
    for name in args.lines() {
        assert!(dir.join("data").join(name).is_file(), "{name}");
    }
    assert_eq!(fs::read_dir(dir.join("data")).unwrap().count(), args.lines().count());
    let taken = scratch("taken");
    fs::write(&taken, "").unwrap();
    let out = hall(&["stored", "files", taken.to_str().unwrap()], b"");
    assert_eq!(out.status.code(), Some(1));
    assert!(said(&out).contains("taken"));
}
