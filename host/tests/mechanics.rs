//! What the program `hall` does with hall files, as people call it.
mod run;

use host::truth::hall_file::items;
use run::{hall, made, said, scratch, text};
use std::fs;

#[test]
fn a_fault_writes_nothing() {
    let out = hall(&["make"], b"list 1 2\nlist 1 2 three\n");
    assert_eq!((out.status.code(), &out.stdout[..]), (Some(1), &b""[..]));
    assert!(said(&out).starts_with("hall: line 2: `three`: no number"));
}

/// What is typed, and what is said of it.
#[test]
fn typed() {
    let taken = [
        ("\u{FEFF}List 2^-30 2 -3 1", "list 2^-30 2 -3 1\n"),
        ("list 10^-9 1/2 -3/4 +1E0", "list 1e-9 0.5 -0.75 1\n"),
        ("SLIDER 1 3 3", "crank 2^-30 0 0 -6 0 1\n"),
        ("slider 2 5 4 1", "crank 2^-30 0 0 -16 -4 -4\n"),
        ("slider 1e-7 2 5 4 1", "crank 1e-7 0 0 -16 -4 -4\n"),
    ];
    for (typed, plain) in taken {
        assert_eq!(text(&hall(&["text"], &made(typed)).stdout), plain, "{typed}");
    }
    let refused = [
        ("list 1 2,5", "`2,5`: no number: `,`: a decimal has a point"),
        ("list 1 \u{2212}3", "no number: `\u{2212}` (U+2212): the minus sign is `-`"),
        ("list 1 1e-400", "`1e-400`: below the smallest double"),
        ("list 1 1e400", "`1e400`: beyond the largest double"),
        ("list 1 ½", "`½` (U+00BD): write a fraction as 1/2"),
        ("slider 1 3", "a number is missing behind it: slider R L X"),
    ];
    for (typed, why) in refused {
        let out = hall(&["make"], typed.as_bytes());
        assert_eq!((out.status.code(), &out.stdout[..]), (Some(1), &b""[..]), "{typed}");
        assert!(said(&out).contains(why), "{typed}: {}", said(&out));
    }
}

const LINES: &str = "list 2^-30 2 -3 1\nlist 2^-30\nquad 2^-30 2^-30 1 -3 2\n\
                     crank 2^-30 0 0 1 0 0\nslider 1 3 3\nlist 2^-30 1 0 1\n";

#[test]
fn a_file_as_a_table() {
    let bytes = [&made(LINES)[..], b"XX"].concat();
    let head = "  answer        place                bits              times, kind  t in degrees   t in radians\n";
    let table = "\
1 list, tol 2^-30: x^2 - 3 x + 2 = 0
  2 roots       1                    3FF0000000000000  1 crossing
                2                    4000000000000000  1 crossing
2 list, tol 2^-30: 0 = 0
  refused 2: no equation: once trailing zeros are dropped, a constant at most is left
3 quad, confusion 2^-30, angular 2^-30: x^2 - 3 x + 2 = 0
  two           1                    3FF0000000000000
                2                    4000000000000000
4 crank, confusion 2^-30: cos t = 0
  k 4, 2 roots  -1                   BFF0000000000000  1 crossing   90             1.570796327
                1                    3FF0000000000000  1 crossing   270            4.71238898
5 crank, confusion 2^-30: -6 cos t + 1 = 0
  k 0, 2 roots  0.8451542547285166   3FEB0B80EF844BA1  1 crossing   80.405931773   1.403348248
                -0.8451542547285166  BFEB0B80EF844BA1  1 crossing   279.594068227  4.87983706
6 list, tol 2^-30: x^2 + 1 = 0
  0 roots
7 --
  refused 6: byte 223: unknown mark `XX`
in all: 7 records, 6 roots, which together count 6 times, not counting the places of quads
";
    let table = format!("{head}{table}");
    let out = hall(&["show"], &bytes);
    assert_eq!((text(&out.stdout), out.status.code()), (table.clone(), Some(0)));
    let path = scratch("document.hall");
    fs::write(&path, &bytes).unwrap();
    assert_eq!(hall(&["show", path.to_str().unwrap()], b"").stdout, table.as_bytes());
    let nothing = hall(&["show"], b"");
    let empty = "no record: the file is empty\nin all: 0 records, 0 roots\n";
    assert_eq!(text(&nothing.stdout), empty);
    let long = text(&hall(&["show"], &[b'P'; 70_000]).stdout);
    let why = "0 --\n  refused 9: the file has 70000 bytes, more than 65,536\n";
    assert_eq!(long, format!("{why}in all: 1 record, 0 roots\n"));
}

/// The angles of a crank's roots ascend from 0 to below 360, and no line has over 100 columns.
#[test]
fn tables_of_made_files() {
    for seed in ["1", "2", "3", "4", "5"] {
        let bytes = hall(&["random", "400", seed, "--damage"], b"").stdout;
        let table = text(&hall(&["show"], &bytes).stdout);
        let reasons = text(&hall(&["explain", "-"], &bytes).stdout);
        for line in table.lines().chain(reasons.lines()) {
            assert!(line.chars().count() <= 100, "{line}");
        }
        let csv = text(&hall(&["show", "--csv"], &bytes).stdout);
        let mut last = (String::new(), 0.0);
        for fields in csv.lines().skip(1).map(fields) {
            assert_eq!(fields.len(), 19, "{fields:?}");
            let Ok(angle) = fields[12].parse::<f64>() else { continue };
            let radians: f64 = fields[13].parse().unwrap();
            assert!((radians - angle.to_radians()).abs() < 1e-8, "{fields:?}");
            let from = if last.0 == fields[0] { last.1 } else { 0.0 };
            assert!((from..360.0).contains(&angle), "{fields:?} behind {last:?}");
            last = (fields[0].clone(), angle);
        }
        assert!(last.1 > 0.0);
    }
}

/// The fields of a line of comma-separated values.
fn fields(line: &str) -> Vec<String> {
    let (mut all, mut inside) = (vec![String::new()], false);
    for c in line.chars() {
        match (c, inside) {
            ('"', _) => inside = !inside,
            (',', false) => all.push(String::new()),
            _ => all.last_mut().unwrap().push(c),
        }
    }
    all
}

#[test]
fn a_file_as_csv() {
    let bytes = [&made(LINES)[..], b"XX"].concat();
    let path = scratch("csv.hall");
    fs::write(&path, &bytes).unwrap();
    let path = path.to_str().unwrap();
    let csv = text(&hall(&["show", path, "--csv"], b"").stdout);
    let lines: Vec<&str> = csv.lines().collect();
    let head = "record,byte,kind,tolerances,question,answer,refused,why,place,bits,times,\
                root kind,degrees,radians,x,y,distance,doubt,expanded";
    assert_eq!(lines[0], head);
    assert_eq!(lines.len(), 12);
    assert_eq!(fields(lines[4])[9..12], ["3FF0000000000000", "", ""]);
    let crank = "4,88,crank,confusion 2^-30,cos t = 0,\"k 4, 2 roots\",,,-1,BFF0000000000000,1,";
    assert_eq!(lines[6], format!("{crank}crossing,90,1.570796327,,,,,"));
    assert_eq!(lines[11], "7,223,--,,,,6,byte 223: unknown mark `XX`,,,,,,,,,,,");
    assert_eq!(text(&hall(&["show", "--csv", path], b"").stdout), csv);
    assert_eq!(text(&hall(&["show", "--csv"], &bytes).stdout), csv);
}

/// Two lists with systems, one that has none once its root 0 is removed, a quadratic, a crank, a
/// formula, a refusal, and what is no record.
fn solved() -> (Vec<u8>, [u32; 8]) {
    let bytes = made(
        "list 2^-30 1 2 3 4 5\nlist 2^-30 1e-9 -1e-3 1 -1e3 2\nlist 2^-30 0 1 2 3 4\n\
         quad 2^-30 2^-30 1 -3 2\nslider 45 130 150 10\nformula 2^-30 (t^2-2)^2-t\nlist 2^-30 7\n",
    );
    ([&bytes[..], b"XX"].concat(), [2, 3, 0, 0, 1, 2, 0, 0])
}

/// What `hall show` prints of that.
fn lines(words: &[&str], bytes: &[u8]) -> Vec<String> {
    let out = hall(&[&["show"], words].concat(), bytes);
    assert_eq!((out.status.code(), &out.stderr[..]), (Some(0), &b""[..]), "{words:?}");
    text(&out.stdout).lines().map(str::to_string).collect()
}

/// A line behind each record, and their sum; all else is as it is without.
#[test]
fn systems() {
    let (bytes, wanted) = solved();
    let path = scratch("systems.hall");
    fs::write(&path, &bytes).unwrap();
    let path = path.to_str().unwrap();
    let counted = |n: u32| format!("  {n} system{} solved", if n == 1 { "" } else { "s" });
    let own: Vec<String> = [0, 1, 2, 3].map(counted).to_vec();
    let shown = lines(&["--systems"], &bytes);
    let (of_records, others): (Vec<String>, Vec<String>) =
        shown.iter().cloned().partition(|line| own.contains(line));
    assert_eq!(of_records, wanted.map(counted));
    let plain = lines(&[], &bytes);
    let (total, before) = plain.split_last().unwrap();
    assert_eq!(others[..before.len()], *before);
    let last = others[before.len()..].join(" ").replace("     ", " ");
    assert_eq!(last, format!("{total}; 8 systems solved"));
    for words in [[path, "--systems"], ["--systems", path]] {
        assert_eq!(lines(&words, b""), shown);
    }
    let nothing = ["no record: the file is empty", "in all: 0 records, 0 roots; 0 systems solved"];
    assert_eq!(lines(&["--systems"], b""), nothing);
    let long = lines(&["--systems"], &[b'P'; 70_000]);
    assert_eq!(long[2..], ["  0 systems solved", "in all: 1 record, 0 roots; 0 systems solved"]);
}

/// Each root's line ends with the number of its record.
#[test]
fn systems_as_csv() {
    let (bytes, wanted) = solved();
    let path = scratch("systems_as_csv.hall");
    fs::write(&path, &bytes).unwrap();
    let path = path.to_str().unwrap();
    let csv = lines(&["--csv", "--systems"], &bytes);
    let plain = lines(&["--csv"], &bytes);
    assert_eq!((csv.len(), &csv[0]), (plain.len(), &format!("{},systems", plain[0])));
    for (line, plain) in csv[1..].iter().zip(&plain[1..]) {
        let number: usize = fields(line)[0].parse().unwrap();
        assert_eq!(*line, format!("{plain},{}", wanted[number - 1]));
        assert_eq!(fields(line).len(), 20);
    }
    let (csv_flag, systems) = ("--csv", "--systems");
    for words in [
        [path, csv_flag, systems],
        [path, systems, csv_flag],
        [csv_flag, path, systems],
        [systems, path, csv_flag],
        [csv_flag, systems, path],
        [systems, csv_flag, path],
    ] {
        assert_eq!(lines(&words, b""), csv);
    }
}

/// At each contact the ball's place, and its distance from the circle; a touch within confusion is
/// no doubtful one: a brush where it was asked about, flat where the tolerance joins it anyhow.
#[test]
fn contacts() {
    let bytes = made(
        "contact 1e-9 4 0 0 -10 2 0 1 0 5\ncontact 0.5 5.25 0 0 -10 2 0 0 0 5\n\
         contact 0.25 5.25 0 0 -3 1 0 0 0 5",
    );
    let head = "  answer      place  bits              times, kind\n";
    let table = "\
1 contact, confusion 1e-9: |(4, 2 t - 10) - (1, 0)| = 5
  2 contacts  3      4008000000000000  1 crossing
    ball at x = 4, y = -4, D - R = 0
              7      401C000000000000  1 crossing
    ball at x = 4, y = 4, D - R = 0
2 contact, confusion 0.5: |(5.25, 2 t - 10) - (0, 0)| = 5
  1 contact   5      4014000000000000  2 flat
    ball at x = 5.25, y = 0, D - R = 0.25
3 contact, confusion 0.25: |(5.25, t - 3) - (0, 0)| = 5
  1 contact   3      4008000000000000  2 brush
    ball at x = 5.25, y = 0, D - R = 0.25
in all: 3 records, 4 roots, which together count 6 times
";
    assert_eq!(text(&hall(&["show"], &bytes).stdout), format!("{head}{table}"));
    let csv = text(&hall(&["show", "--csv"], &bytes).stdout);
    let ends: Vec<Vec<String>> =
        csv.lines().skip(1).map(|line| fields(line).split_off(11)).collect();
    assert_eq!(ends[0], ["crossing", "", "", "4", "-4", "0", "", ""]);
    assert_eq!(ends[2], ["flat", "", "", "5.25", "0", "0.25", "", ""]);
    assert_eq!(ends[3], ["brush", "", "", "5.25", "0", "0.25", "", ""]);
    let brush = text(&hall(&["explain", "-", "3"], &bytes).stdout);
    assert!(brush.contains(", 2 times, brush: a contact, D - R is 0.25\n"), "{brush}");
    let why = text(&hall(&["explain", "-", "2"], &bytes).stdout);
    let line = "  5 (4014000000000000), 2 times, flat: a contact, D - R is 0.25\n";
    assert!(why.contains(line), "{why}");
    assert!(why.contains("p is 4 t^2 - 40 t + 102.5625, computed without rounding"), "{why}");
}

/// A slider-crank whose rod reaches, and one whose rod does not.
#[test]
fn sliders() {
    let csv = |line: &str| text(&hall(&["show", "--csv"], &made(line)).stdout);
    // cos t = 1/6
    let angle = (1.0f64 / 6.0).acos().to_degrees();
    let shown = csv("slider 1 3 3");
    let angles: Vec<f64> = shown.lines().skip(1).map(|l| fields(l)[12].parse().unwrap()).collect();
    assert!(angles.len() == 2 && (angles[0] - angle).abs() < 1e-8, "{shown}");
    assert!((angles[1] - (360.0 - angle)).abs() < 1e-8, "{shown}");
    // 30, 40, 50: the crank is upright
    let upright = csv("slider 30 50 40");
    assert!(upright.contains(",90,1.570796327,") && upright.contains(",270,"), "{upright}");
    assert!(csv("slider 1 3 5").contains("\"k 0, 0 roots\""));
}

/// The text makes the same file again.
#[test]
fn files_as_text() {
    let bytes = made(LINES);
    let lines = LINES.replace("slider 1 3 3", "crank 2^-30 0 0 -6 0 1");
    let out = hall(&["text"], &bytes);
    assert_eq!((text(&out.stdout), out.status.code()), (lines.clone(), Some(0)));
    for seed in ["1", "2", "3"] {
        let bytes = hall(&["random", "400", seed], b"").stdout;
        let path = scratch(&format!("text_{seed}.hall"));
        fs::write(&path, &bytes).unwrap();
        let out = hall(&["text", path.to_str().unwrap()], b"");
        assert_eq!(out.status.code(), Some(0));
        assert!(made(&text(&out.stdout)) == bytes, "seed {seed}");
    }
    let out = hall(&["text"], &[&bytes[..], b"XX"].concat());
    assert_eq!((text(&out.stdout), out.status.code()), (lines, Some(1)));
    let line = "hall: standard input: reading ends at record 7: byte 223: unknown mark `XX`\n";
    assert_eq!(said(&out), line);
}

/// The listing alone on standard output; status 1 where the file is not read to its end.
#[test]
fn listings() {
    let listing = "1 PL ok 2 3FF0000000000000 1 c 4000000000000000 1 c\n2 PL refused 2\n";
    let bytes = made("list 2^-30 2 -3 1\nlist 2^-30");
    let out = hall(&["list"], &bytes);
    let whole = format!("{listing}T 2 2 2\n");
    assert_eq!((text(&out.stdout), out.status.code()), (whole, Some(0)));
    assert_eq!(out.stderr, b"");
    let ends: [(&[u8], &str, &str); 4] = [
        (b"XX", "3 -- refused 6\n", "byte 46: unknown mark `XX`"),
        (b"TG", "3 TG refused 7\n", "byte 46: the file ends inside this crank"),
        (b"PL\x21", "3 PL refused 8\n", "byte 46: a list with count 33"),
        (&[0; 65_536], "", "the file has 65582 bytes, more than 65,536"),
    ];
    for (end, line, why) in ends {
        let path = scratch("listed.hall");
        fs::write(&path, [&bytes, end].concat()).unwrap();
        let out = hall(&["list", path.to_str().unwrap()], b"");
        let whole = match line {
            "" => "0 -- refused 9\nT 1 0 0\n".to_string(),
            line => format!("{listing}{line}T 3 2 2\n"),
        };
        assert_eq!((text(&out.stdout), out.status.code()), (whole, Some(1)), "{why}");
        assert!(said(&out).contains(why), "{}", said(&out));
    }
    let out = hall(&["list"], b"");
    assert_eq!((&out.stdout[..], out.status.code()), (&b"T 0 0 0\n"[..], Some(0)));
}

/// Which places are marked, in the table and as comma-separated values.
fn marked(line: &str) -> Vec<String> {
    let csv = text(&hall(&["show", "--csv"], &made(line)).stdout);
    let rows: Vec<Vec<String>> = csv.lines().skip(1).map(fields).collect();
    assert!(rows.iter().all(|row| ["", "doubtful"].contains(&&row[17][..])), "{csv}");
    let found: Vec<String> =
        rows.into_iter().filter(|row| row[17] == "doubtful").map(|row| row[9].clone()).collect();
    let table = text(&hall(&["show"], &made(line)).stdout);
    let own = |row: &&str| row.starts_with("  doubtful  ");
    assert_eq!(table.lines().filter(own).count(), found.len(), "{table}");
    for (row, bits) in table.lines().filter(own).zip(&found) {
        assert!(row.contains(&bits[..]), "{row}");
    }
    let hint = "`hall explain FILE` says why";
    assert_eq!(table.lines().last().unwrap().contains(hint), !found.is_empty(), "{table}");
    found
}

/// The lists of docs/DIFFERENCES.md, 'Wrong and kept', and their false places.
const WRONG: [(&str, &[&str]); 12] = [
    (
        "list 2^-30 1 0 2 2^-25 1",
        &["C11FFFFFFFFF80FE", "BEC0000000003FD7", "3EC000000000402C", "411FFFFFFFFF7EFE"],
    ),
    (
        "list 2^-30 1 0 16 2^-21 64",
        &["C10555555554F5D2", "BEA8000000006BD4", "3EA8000000006C32", "410555555554F4D4"],
    ),
    (
        "list 2^-30 0xD18F69A5BB66F672 0xB6817C5B52617DF6 0x47E7DEC653C3E908 \
         0xC2DAB4256470939C 0x33BEE167499F4A18",
        &["CB81E0E24AAA0FA4", "4B81E0E24AAA0FA6"],
    ),
    (
        "list 2^-30 0x50A3780000000000 0xA282918B5BC2EDC9 0xB9CE000000000000 \
         0xA89B4E1000000000 0x1DD0007FFFFFFFFF",
        &["CEC9725902F71B06", "4EC9725902F71B06"],
    ),
    ("list 2^-30 2 -3 1 2^-538", &["0000000000000000", "4007504F333F9DE6"]),
    ("list 2^-30 -6 11 -6 1 2^-359", &["400C2BC91FAC3082"]),
    ("list 2^-30 -1 0 1 2^-538", &["8000000000000000"]),
    ("list 2^-30 1 0 0 1 2^-359", &["0000000000000000"]),
    (
        "list 2^-30 0xBF10000000008000 0x3F9FF7FFFFFFFFC0 0xC00FDFF800000000 \
         0xC000100000000000 0x3FF0000000000000",
        &["3F6FFFFCEA301683", "3F7000018AE7F5F1"],
    ),
    (
        "list 2^-30 0xB2D84AD47FAA673F 0xBF5175DDDCC73F22 0x3FB3AD6EE6E8F948 \
         0xBFF69F39AADADD2A 0x3FF0000000000000",
        &[],
    ),
    ("list 2^-30 0 1 1.5 1", &["BFE5555555555555"]),
    ("list 2^-30 0 -1 2 -2", &["3FE0000000000000"]),
];

/// They are marked, and the right ones of these lists are not.
#[test]
fn false_places_are_marked() {
    for (line, wanted) in WRONG {
        assert_eq!(marked(line), wanted, "{line}");
    }
}

/// Roots are not, but places that stand for roots that lie apart and are joined.
#[test]
fn roots_are_not_marked() {
    let lines = [
        "list 2^-30 24 -50 35 -10 1",
        "list 2^-30 4.738138394651668e118 8.568255354516641e74",
        "list 2^-30 0 0 3",
        "list 2^-30 2^-1074 1",
        "list 2^-30 0x7FEFFFFFFFFFFFFF -1",
        "quad 2^-30 2^-30 1 2 1",
        "quad 2^-30 2^-30 1 -3 2",
        "quad 2^-30 1 0.5 2 -4",
        "crank 2^-30 1 0 0 0 0.5",
        "slider 45 130 150 10",
    ];
    for line in lines {
        assert!(marked(line).is_empty(), "{line}");
    }
    // by a tolerance of 1, and small ones by 2^-30
    assert_eq!(marked("quad 1 2^-30 1 2 0.9"), ["BFF0000000000000"]);
    assert_eq!(marked("list 2^-30 5e-20 -6e-10 1"), ["3DF49DA7E361CE4C"]);
}

/// Sorted by what is doubtful: a place that counts once, one that counts twice, none, a refusal.
const DOUBTS: &str = "list 2^-30 2 -3 1 2^-538\nlist 2^-30 5e-20 -6e-10 1\nlist 2^-30 2 -3 1\n\
                      list 2^-30 7\ncrank 2^-30 1 0 0 0 0.5\nquad 2^-30 1 0.5 2 -4\n";

const EXPLAINED: &str = "\
1 list, tol 2^-30: 1.1113793747425387e-162 x^3 + x^2 - 3 x + 2 = 0
  p is the left side, computed without rounding
  -8.997827589086393e161 (E190000000000000), once: a root, p reaches 0 within 2 doubles of it
  0 (0000000000000000), once: doubtful
    p is above 0 at the place and 2 doubles to either side:
      -1e-323                   8000000000000002  p = 2
      -5e-324                   8000000000000001  p = 2
      0                         0000000000000000  p = 2
      5e-324                    0000000000000001  p = 2
      1e-323                    0000000000000002  p = 2
    At the place |p| is 2 and the sum of its terms' sizes 2: 1 of that is left, and 2^-47 is
    7.11e-15. Nor does p change sign further off, within 2.17e-311.
  2.914213562373095 (4007504F333F9DE6), once: doubtful
    p is above 0 at the place and 2 doubles to either side:
      2.914213562373094         4007504F333F9DE4  p = 1.75
      2.9142135623730945        4007504F333F9DE5  p = 1.75
      2.914213562373095         4007504F333F9DE6  p = 1.75
      2.9142135623730954        4007504F333F9DE7  p = 1.75
      2.914213562373096         4007504F333F9DE8  p = 1.75
    At the place |p| is 1.75 and the sum of its terms' sizes 19.2: 0.091 of that is left, and 2^-47
    is 7.11e-15. Nor does p change sign further off, within 0.00195.
2 list, tol 2^-30: x^2 - 6e-10 x + 5e-20 = 0
  p is the left side, computed without rounding
  3e-10 (3DF49DA7E361CE4C), 2 times, flat: doubtful
    At the place |p| is 4e-20 and the sum of its terms' sizes 3.2e-19: 0.125 of that is left, and
    2^-47 is 7.11e-15. The tolerance joins roots within 9.31e-10 of their middle.
records: 6, refused: 1, roots: 11, doubtful: 3
";

#[test]
fn doubts_are_explained() {
    let path = scratch("doubts.hall");
    fs::write(&path, made(DOUBTS)).unwrap();
    let path = path.to_str().unwrap();
    let out = hall(&["explain", path], b"");
    assert_eq!((out.status.code(), &out.stderr[..]), (Some(0), &b""[..]));
    let told = text(&out.stdout);
    let (found, reasons) = told.split_once("Why: ").unwrap();
    assert_eq!(found, EXPLAINED);
    for part in ["\nWhat it means: ", "'Wrong and kept'", "\nWhat to do: "] {
        assert!(reasons.replace("\n    ", " ").contains(part), "{reasons}");
    }
    assert!(told.lines().all(|line| line.chars().count() <= 100), "{told}");
    assert_eq!(hall(&["explain", "-"], &made(DOUBTS)).stdout, out.stdout);
}

/// A record is explained whatever it is.
#[test]
fn records_are_explained() {
    let explained = |record: &str| {
        let out = hall(&["explain", "-", record], &made(DOUBTS));
        (text(&out.stdout), out.status.code())
    };
    let known = [
        (
            "3",
            "3 list, tol 2^-30: x^2 - 3 x + 2 = 0\n  p is the left side, computed without rounding\n  \
             1 (3FF0000000000000), once: a root, p is 0 there\n  \
             2 (4000000000000000), once: a root, p is 0 there\nroots: 2, none of them doubtful\n",
        ),
        (
            "4",
            "4 list, tol 2^-30: 7 = 0\n  \
             refused 2: no equation: once trailing zeros are dropped, a constant at most is left\n",
        ),
        (
            "6",
            "6 quad, confusion 2^-30, angular 1: 0.5 x^2 + 2 x - 4 = 0\n  \
             p is 2 x - 4, computed without rounding: the places are those of p = 0\n  \
             2 (4000000000000000), once: a root, p is 0 there\nroots: 1, none of them doubtful\n",
        ),
    ];
    for (record, wanted) in known {
        assert_eq!(explained(record), (wanted.to_string(), Some(0)));
    }
    let (crank, _) = explained("5");
    assert!(crank.contains("\n  p is 1.5 u^4 - 5 u^2 + 1.5, computed"), "{crank}");
    let (one, _) = explained("2");
    assert!(one.contains("\nroots: 1, doubtful: 1\nWhy: "), "{one}");
    for record in ["0", "7", "18446744073709551615"] {
        let out = hall(&["explain", "-", record], &made(DOUBTS));
        assert_eq!((out.status.code(), &out.stdout[..]), (Some(2), &b""[..]), "{record}");
        let line = format!("hall: standard input: no record {record}: the file has 6\n");
        assert_eq!(said(&out), line);
    }
}

/// Nothing doubtful, a place that is off, junk, an empty file.
#[test]
fn other_explanations() {
    let explained = |bytes: &[u8]| {
        let out = hall(&["explain", "-"], bytes);
        assert_eq!((out.status.code(), &out.stderr[..]), (Some(0), &b""[..]));
        text(&out.stdout)
    };
    assert_eq!(explained(b""), "no record: the file is empty\n");
    let good = "records: 1, refused: 0, roots: 2, none of them doubtful\n";
    assert_eq!(explained(&made("list 2^-30 2 -3 1")), good);
    let junk = "1 --\n  refused 6: byte 0: unknown mark `XX`\n\
                records: 1, refused: 1, roots: 0, none of them doubtful\n";
    assert_eq!(explained(b"XX"), junk);
    let off = explained(&made("list 2^-30 -1/2 -27 0x001FFFFFFFFFFFFF"));
    let off = off.replace("\n    ", " ");
    assert!(
        off.contains("Further off p does change sign, within 256 doubles, or 8.88e-16."),
        "{off}"
    );
    let below = explained(&made("list 2^-30 0 1 1.5 1"));
    assert!(below.contains("    p is below 0 at the place"), "{below}");
    assert!(below.contains("BFE5555555555557  p = -0.296\n"), "{below}");
}

#[test]
fn random_files() {
    let out = hall(&["random", "300", "7"], b"");
    let found = items(&out.stdout);
    assert!(found.len() == 300 && found.iter().all(|item| item.record.is_ok()));
    assert_eq!(out.stdout, hall(&["random", "300", "7"], b"").stdout);
    assert_ne!(out.stdout, hall(&["random", "300", "7", "--damage"], b"").stdout);
    assert_eq!(hall(&["random", "0", "7"], b"").stdout, b"");
    let out = hall(&["random", "5000", "7"], b"");
    assert_eq!((out.status.code(), &out.stdout[..]), (Some(2), &b""[..]));
    assert!(said(&out).contains("at most 65,536 bytes"));
}

#[test]
fn faults_are_named() {
    let known: [(&[&str], i32, &str); 13] = [
        (&["show", "/no/such/file"], 1, "hall: /no/such/file: "),
        (&["explain", "/no/such/file"], 1, "hall: /no/such/file: "),
        (&["explain", "x", "ten"], 2, "`ten` is no whole number"),
        (&["list", "/no/such/file"], 1, "hall: /no/such/file: "),
        (&["text", "/no/such/file"], 1, "hall: /no/such/file: "),
        (&["list", "x", "y"], 2, "unknown word `y`"),
        (&["text", "--all"], 2, "unknown word `--all`"),
        (&["compare"], 2, "a word is missing after `hall compare`"),
        (&["compare", "x", "--all"], 2, "unknown word `--all`"),
        (&["make", "x"], 2, "unknown word `x`"),
        (&["random", "ten", "1"], 2, "`ten` is no whole number"),
        (&["random", "10", "1", "--break"], 2, "unknown word `--break`"),
        (&["stored", "files"], 2, "a word is missing after `hall stored files`"),
    ];
    for (words, status, message) in known {
        let out = hall(words, b"");
        assert_eq!((out.status.code(), &out.stdout[..]), (Some(status), &b""[..]), "{words:?}");
        assert!(said(&out).contains(message), "{words:?}: {}", said(&out));
    }
}

/// Without geomcore nothing is compared, which is said: status 2.
#[cfg(not(geomcore))]
#[test]
fn nothing_to_compare_with() {
    let commands: [&[&str]; 9] = [
        &["compare", "-"],
        &["compare", "-", "--csv"],
        &["lists", "5", "1"],
        &["cranks", "5", "1"],
        &["files", "5", "1"],
        &["damage", "0", "1"],
        &["doubts", "5", "1"],
        &["systems", "5", "1"],
        &["stored", "files", "x"],
    ];
    for words in commands {
        let out = hall(words, &made(LINES));
        assert_eq!((out.status.code(), &out.stdout[..]), (Some(2), &b""[..]), "{words:?}");
        assert!(said(&out).contains("skipped, no geomcore at hand"), "{words:?}");
    }
}

/// A command that another build has.
#[cfg(geomcore)]
#[test]
fn features() {
    let known = [
        ("coverage", cfg!(feature = "coverage")),
        ("mutants", cfg!(feature = "mutants")),
        ("causes", cfg!(feature = "causes")),
    ];
    for (what, _) in known.into_iter().filter(|known| !known.1) {
        let out = hall(&[what, "5", "1"], b"");
        assert_eq!((out.status.code(), &out.stdout[..]), (Some(2), &b""[..]), "{what}");
        let front = format!("hall: {what}: needs a build with `--features {what}`");
        assert!(said(&out).starts_with(&front), "{}", said(&out));
    }
}
