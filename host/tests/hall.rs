//! The program `hall`, as people call it.
mod run;

use host::compare::{bits, say};
use host::port;
use host::truth::angle::Sine;
use run::{hall, said, scratch, text};
use std::fs;

const COMMANDS: [&str; 24] = [
    "make",
    "list",
    "show",
    "explain",
    "draw",
    "text",
    "compare",
    "random",
    "bench",
    "lists",
    "inquiries",
    "cranks",
    "contacts",
    "formulas",
    "quadratics",
    "files",
    "damage",
    "doubts",
    "systems",
    "coverage",
    "mutants",
    "causes",
    "stored",
    "documents",
];

/// The whole page, and after every command the part on it; status 0, nothing else done.
#[test]
fn help() {
    let all = hall(&["--help"], b"");
    assert_eq!((all.status.code(), &all.stderr[..]), (Some(0), &b""[..]));
    for words in [&["-h"][..], &["help"]] {
        assert_eq!(hall(words, b"").stdout, all.stdout);
    }
    let all = text(&all.stdout);
    for command in COMMANDS {
        for words in [&[command, "--help"][..], &[command, "-h"], &["help", command]] {
            let out = hall(words, b"");
            assert_eq!((out.status.code(), &out.stderr[..]), (Some(0), &b""[..]), "{words:?}");
            let part = text(&out.stdout);
            assert!(part.starts_with(&format!("hall {command}")), "{words:?}: {part}");
            assert!(part.lines().all(|line| all.contains(line)), "{words:?}");
        }
    }
    assert_eq!(hall(&["stored", "files", "--help"], b"").status.code(), Some(0));
    let commands = all.lines().filter_map(|line| line.strip_prefix("hall "));
    let commands = commands.filter_map(|line| line.split(' ').next());
    assert!(commands.clone().all(|c| COMMANDS.contains(&c) || c.starts_with("--")));
    assert!(all.lines().all(|line| line.chars().count() <= 100));
}

/// The marks, the equations, the tolerances, the slider-crank, the statuses.
#[test]
fn help_explains() {
    let all = text(&hall(&["--help"], b"").stdout);
    let made = text(&hall(&["make", "--help"], b"").stdout);
    let of_records = [
        "list TOL c0 c1 ..              PL   c0 + c1 x + c2 x^2 .. = 0",
        "quad CONFUSION ANGULAR a b c   QD   a x^2 + b x + c = 0",
        "TG   a2 cos 2t + b2 sin 2t + c1 cos t + d1 sin t + e = 0",
        "contact CONFUSION x0 x1 x2 y0 y1 y2 cx cy R\n",
        "slider R L X ",
        "tol        of a list",
        "confusion  of a quad",
        "angular    of a quad",
        "2^-30, about 1e-9, is usual",
    ];
    for part in of_records {
        assert!(all.contains(part) && made.contains(part), "{part}");
    }
    for status in ["\n  0  ", "\n  1  ", "\n  2  "] {
        assert!(all.contains(status), "{status}");
    }
}

#[test]
fn version() {
    for word in ["--version", "-V"] {
        let out = hall(&[word], b"");
        let line = concat!("hall ", env!("CARGO_PKG_VERSION"), "\n");
        assert_eq!((text(&out.stdout), out.status.code()), (line.to_string(), Some(0)));
    }
}

#[test]
fn words_not_known() {
    let known = [
        (&["lanes"][..], "unknown word `lanes`"),
        (&["stored", "pins"], "unknown word `pins`"),
        (&["bench", "twice"], "unknown word `twice`"),
        (&["stored", "leaves"], "a word is missing after `hall stored leaves`"),
        (&["lists", "5"], "a word is missing after `hall lists 5`"),
        (&["lists", "five", "1"], "`five` is no number"),
        (&["cranks", "5"], "a word is missing after `hall cranks 5`"),
        (&["contacts", "5"], "a word is missing after `hall contacts 5`"),
        (&["formulas", "5"], "a word is missing after `hall formulas 5`"),
        (&["files", "5"], "a word is missing after `hall files 5`"),
        (&["damage", "ten", "1"], "`ten` is no number"),
        (&["lanes", "--help"], "unknown word `lanes`"),
        (&["show", "--cvs"], "unknown word `--cvs`"),
        (&["show", "a", "b"], "unknown word `b`"),
        (&["show", "--system", "a"], "unknown word `--system`"),
        (&["show", "a", "--Systems"], "unknown word `--Systems`"),
        (&["show", "--systems", "--cvs"], "unknown word `--cvs`"),
        (&["show", "a", "--systems", "b"], "unknown word `b`"),
        (&["show", "--systems", "--csv", "a", "b"], "unknown word `b`"),
        (&["list", "--systems"], "unknown word `--systems`"),
        (&["list", "a", "--systems"], "unknown word `--systems`"),
        (&["compare", "a", "--systems"], "unknown word `--systems`"),
        (&["explain", "a", "--systems"], "unknown word `--systems`"),
        (&["draw", "a", "1", "--systems"], "unknown word `--systems`"),
        (&["--systems"], "unknown word `--systems`"),
        (&["systems"], "a word is missing after `hall systems`"),
        (&["systems", "5"], "a word is missing after `hall systems 5`"),
        (&["systems", "a.hall", "1"], "`a.hall` is no number"),
        (&["explain"], "a word is missing after `hall explain`"),
        (&["explain", "--csv"], "unknown word `--csv`"),
        (&["explain", "a", "b", "c"], "unknown word `c`"),
        (&["make", "--csv"], "unknown word `--csv`"),
        (&["compare", "--csv"], "a word is missing after `hall compare --csv`"),
        (&["lists", "0", "1"], "nothing was compared: COUNT is 0"),
        (&["doubts", "0", "1"], "nothing was compared: COUNT is 0"),
        (&["systems", "0", "1"], "nothing was compared: COUNT is 0"),
        (&["mutants", "0", "1"], "nothing was compared: COUNT is 0"),
        (&[], "a word is missing after `hall`"),
    ];
    for (words, line) in known {
        let out = hall(words, b"");
        assert_eq!(out.status.code(), Some(2), "{words:?}");
        assert!(said(&out).contains(line), "{words:?}");
        assert_eq!(out.stdout, b"", "{words:?}");
    }
}

#[test]
fn a_folder_that_cannot_be_written() {
    let dir = scratch("a_file");
    fs::write(&dir, "").unwrap();
    let out = hall(&["stored", "leaves", dir.to_str().unwrap()], b"");
    assert_eq!(out.status.code(), Some(1));
    assert!(said(&out).contains("a_file"));
}

/// The answer of the port for a record of 14 bytes, as a line.
fn line_by_port(record: &[u8]) -> String {
    let x = port::double(&record[1..9], 0);
    let size = u32::from_le_bytes(record[10..14].try_into().unwrap()) as i32;
    let k = if record[9] == b'-' { -size } else { size };
    let hex = |x: f64| format!("{:016X}", bits(x));
    let pair = |name: &str, sine| {
        let (c, s) = port::third_angle(sine, x);
        format!("{name} {} {} {}", hex(x), hex(c), hex(s))
    };
    match record[0] {
        b's' => format!("sqrt {} {}", hex(x), hex(port::leaf_sqrt(x))),
        b'c' => format!("cbrt {} {}", hex(x), hex(port::leaf_cbrt(x))),
        b'l' => format!("log2 {} {}", hex(x), hex(port::leaf_log2(x))),
        b'a' => pair("third", Sine::OfRounded),
        b'b' => pair("exact", Sine::OfExact),
        b'd' => format!("ldexp {} {k} {}", hex(x), hex(port::leaf_ldexp(x, k))),
        b'e' => format!("exponent {} {}", hex(x), port::leaf_exponent(x)),
        b'p' => format!("pow2 {k} {}", hex(port::leaf_pow2(k))),
        other => panic!("leaf {other}"),
    }
}

#[test]
fn stored_leaves() {
    let dir = scratch("stored");
    let out = hall(&["stored", "leaves", dir.to_str().unwrap()], b"");
    assert_eq!(out.status.code(), Some(0));
    let data = fs::read(dir.join("data/leaves")).unwrap();
    let lines = fs::read_to_string(dir.join("stdout")).unwrap();
    assert_eq!(data.len() % 14, 0);
    let by_port: String = data.chunks(14).map(|r| line_by_port(r) + "\n").collect();
    assert_eq!(lines, by_port);
    for word in ["sqrt", "cbrt", "third", "log2", "ldexp", "exponent", "pow2", "exact"] {
        let n = lines.lines().filter(|l| l.starts_with(word)).count();
        assert!(n >= 70, "{n} records of {word}");
    }
    for line in ENTRIES {
        assert!(lines.lines().any(|l| l == line), "{line}");
    }
    say(&format!("stored leaves: {} records, by the port as by exact", data.len() / 14));
}

/// Document 01's entries, and inputs that show a mistake.
const ENTRIES: [&str; 13] = [
    "sqrt 0000000000000001 1E60000000000000",
    "cbrt 403B000000000000 4008000000000000",
    "third 3FF0000000000000 3FF0000000000000 0000000000000000",
    "log2 4008000000000000 3FF9500000000000",
    "ldexp 3E1A6C4000000001 -1031 00000000000034D8",
    "exponent 000FFFFFFFFFFFFF -1023",
    "third 8000000000000000 3FEBB67AE8584CAA 3FE0000000000001",
    "third BFF0000000000000 3FE0000000000000 3FEBB67AE8584CAA",
    "third 3FEFFFFFFFFFFFFF 3FF0000000000000 0000000000000000",
    "exact 8000000000000000 3FEBB67AE8584CAA 3FE0000000000000",
    "exact BFF0000000000000 3FE0000000000000 3FEBB67AE8584CAA",
    "exact 3FEFFFFFFFFFFFFF 3FF0000000000000 3E35555555555555",
    "pow2 1024 7FF8000000000000",
];
