//! Formulas as people type them: what `hall make` says of those that are wrong, with a mark under
//! the place, and how `hall show` shows them.
mod run;

use host::inputs::formulas::{self, KINDS};
use host::inputs::random::Random;
use host::people::{marked, mistyped, show, table, text};
use host::port::list_file;
use host::truth::formula::expanded;
use host::truth::hall_file::{Record, file};
use run::{hall, made, text as lines};
use std::iter::repeat;
use std::ops::Range;

/// What is said of a line; nothing where it makes a record.
fn said(line: &str) -> String {
    text::read(line.as_bytes()).err().map(|e| e.to_string()).unwrap_or_default()
}

/// A text, which of its characters is marked, from 0 on, and what is said of it.
const MISTYPED: [(&str, usize, &str); 69] = [
    // blanks and other characters that are not seen
    ("(t - 2)^2", 2, "a blank: there are no blanks in a formula: leave it out"),
    ("t-2 t", 3, "a blank: there are no blanks in a formula: leave it out"),
    // letters
    ("T^2-4", 0, "`T`: the letter is a small `t`"),
    ("2T", 1, "`T`: the letter is a small `t`, and `*` stands before it"),
    ("2*x-4", 2, "`x`: the one letter is `t`"),
    ("2x-4", 1, "`x`: the one letter is `t`, and `*` stands before it"),
    ("sin(t)", 0, "`s`: the one letter is `t`"),
    ("t*е", 2, "`е` (U+0435): the one letter is `t`"),
    ("0x^2", 1, "`x`: the one letter is `t`, and `*` stands before it"),
    // signs
    ("-t+2", 0, "`-`: no sign stands in front: write `0-t` for `-t`"),
    ("(-t)", 1, "`-`: no sign stands in front: write `0-t` for `-t`"),
    ("+t", 0, "`+`: no sign stands in front: leave it out"),
    ("t*+2", 2, "`+`: no sign stands in front: leave it out"),
    ("t*-2", 2, "`-`: no sign stands in front: write `*(0-t)` for `*-t`"),
    ("t+-2", 2, "`-`: write `-` for `+-`"),
    ("t-+2", 2, "`+`: write `-` for `-+`"),
    ("t--2", 2, "`-`: write `+` for `--`"),
    ("t++2", 2, "`+`: write `+` for `++`"),
    ("t\u{2013}2", 1, "`\u{2013}` (U+2013): the minus sign is `-`"),
    ("t\u{2212}2", 1, "`\u{2212}` (U+2212): the minus sign is `-`"),
    // products
    ("2t", 1, "`t`: write `2*t`"),
    ("t^2-12t+3", 6, "`t`: write `12*t`"),
    ("tt", 1, "`t`: write `t*t`"),
    ("t^2t", 3, "`t`: write `t^2*t`"),
    ("1+12^2t", 6, "`t`: write `12^2*t`"),
    ("(t+1)^2(t-1)", 7, "`(`: write `)^2*(`"),
    ("(t-2)(t+1)", 5, "`(`: write `)*(`"),
    ("3(t+1)", 1, "`(`: write `3*(`"),
    ("t(t+1)", 1, "`(`: write `t*(`"),
    ("t2", 1, "`2`: write `t*2` or `t^2`"),
    ("(t+1)2", 5, "`2`: write `)*2` or `)^2`"),
    ("2×t", 1, "`×` (U+00D7): write `*`"),
    ("2·t", 1, "`·` (U+00B7): write `*`"),
    ("*t", 0, "`*`: before it a number, `t` or a bracket is missing"),
    ("t*", 2, "it ends too early: behind `*` a number, `t` or a bracket is missing"),
    // powers
    ("t**2", 2, "`*`: write `t^2` for `t**2`"),
    ("t²-4", 1, "`²` (U+00B2): write `^2`"),
    ("t⁴-4", 1, "`⁴` (U+2074): write `^4`"),
    ("t^10", 3, "`0`: a power is one digit, 0 to 9"),
    ("t^-1", 2, "`-`: a power is one digit, 0 to 9"),
    ("t^(2)", 2, "`(`: a power is one digit, 0 to 9"),
    ("t^t", 2, "`t`: a power is one digit, 0 to 9"),
    ("t^^2", 2, "`^`: one `^` is enough"),
    ("t^2^2", 3, "`^`: a power has no power: write `(t^2)^2` for `t^2^2`"),
    ("^2", 0, "`^`: before it a number, `t` or a bracket is missing"),
    ("t^", 2, "it ends too early: behind `^` a digit is missing"),
    // numbers
    ("1.5*t-2", 1, "`.`: numbers are whole: write `3*t-4` for `1.5*t-2`"),
    (".5*t", 0, "`.`: numbers are whole: write `3*t-4` for `1.5*t-2`"),
    ("1,5*t", 1, "`,`: numbers are whole: write `3*t-4` for `1.5*t-2`"),
    ("½*t", 0, "`½` (U+00BD): numbers are whole: write `3*t-4` for `1.5*t-2`"),
    ("1e3*t", 1, "`e`: numbers are whole: write `1000` for `1e3`"),
    ("1_000", 1, "`_`: leave it out"),
    ("t/2-2", 1, "`/`: there is no division: write `t-4` for `t/2-2`"),
    ("1234567890", 9, "`0`: a number has at most nine digits"),
    // brackets
    ("[t-2]^2", 0, "`[`: brackets are round: write `(`"),
    ("(t-2}^2", 4, "`}`: brackets are round: write `)`"),
    ("(t-2", 4, "it ends too early: `)` is missing for the bracket at character 1"),
    ("t*((t-2)*3", 10, "it ends too early: `)` is missing for the bracket at character 3"),
    ("(", 1, "it ends too early: behind `(` a number, `t` or a bracket is missing"),
    ("t-2)", 3, "`)`: no bracket is open: leave it out"),
    (")t", 0, "`)`: no bracket is open: leave it out"),
    ("()", 1, "`)`: nothing stands in the brackets"),
    ("(t+)", 3, "`)`: before it a number, `t` or a bracket is missing"),
    // and the rest
    ("t^2-4=0", 5, "`=`: the formula is what is 0: leave out `=0`, write `t-4` for `t=4`"),
    ("t^2=4", 3, "`=`: the formula is what is 0: leave out `=0`, write `t-4` for `t=4`"),
    ("\"t-2\"", 0, "`\"`: leave it out"),
    ("“t-2”", 0, "`“` (U+201C): leave it out"),
    ("t-2;", 3, "`;`: a formula has digits, `t` and `+-*^()` alone"),
    ("√t", 0, "`√` (U+221A): a formula has digits, `t` and `+-*^()` alone"),
];

#[test]
fn each_is_marked_and_mended() {
    for (text, place, why) in MISTYPED {
        let marks = " ".repeat(place);
        let wanted = format!("line 2: no formula: {why}\n    {text}\n    {marks}^");
        assert_eq!(said(&format!("list 1 1 1\nformula 2^-30 {text}  # and so on")), wanted);
        assert!(wanted.lines().all(|line| line.chars().count() <= 94), "{wanted}");
    }
}

/// What takes no column, or more than one, is written otherwise, and the marks go with it.
#[test]
fn characters_of_other_widths() {
    let known = [
        ("t\t-2", "a tab: there are no blanks in a formula: leave it out", "t\\t-2", " ^~"),
        ("t×\tx", "`×` (U+00D7): write `*`", "t×\\tx", " ^"),
        (
            "t\u{A0}-2",
            "U+00A0: there are no blanks in a formula: leave it out",
            "t\\u{a0}-2",
            " ^~~~~~",
        ),
        ("t\u{200B}-2", "U+200B: leave it out: it is not even seen", "t\\u{200b}-2", " ^~~~~~~~"),
        (
            "２*t",
            "`２` (U+FF12): a formula has digits, `t` and `+-*^()` alone",
            "\\u{ff12}*t",
            "^~~~~~~~",
        ),
    ];
    for (text, why, shown, marks) in known {
        let wanted = format!("line 1: no formula: {why}\n    {shown}\n    {marks}");
        assert_eq!(said(&format!("formula 1 {text}")), wanted);
    }
}

#[test]
fn words_that_are_missing() {
    let form = "formula TOL TEXT, and TOL is usually 2^-30";
    let known = [
        ("formula", "`formula`: the tolerance is missing behind it: "),
        ("Formula 2^-30", "`2^-30`: the text is missing behind it: "),
        ("formula 2^-30 # t-2", "`2^-30`: the text is missing behind it: "),
        ("formula (t-2)^2*(t+1)", "`(t-2)^2*(t+1)`: the tolerance is missing before it: "),
        ("formula t - 2", "`t`: the tolerance is missing before it: "),
        ("formula 2*x-4", "`2*x-4`: the tolerance is missing before it: "),
    ];
    for (line, why) in known {
        assert_eq!(said(line), format!("line 1: {why}{form}"));
    }
    assert!(said("formula 1,5 t-2").starts_with("line 1: `1,5`: no number: `,`: a decimal"));
    assert!(said("formula 0X3FF t-2").starts_with("line 1: `0X3FF`: no bits of a double"));
    assert!(said("formulas 1 t").starts_with("line 1: `formulas`: no kind of record: a line"));
}

/// The program says so on standard error, and writes nothing.
#[test]
fn as_people_call_it() {
    let out = hall(&["make"], "formula 2^-30 t-2\nformula 2^-30 (t–2)^2\n".as_bytes());
    assert_eq!((out.status.code(), &out.stdout[..]), (Some(1), &b""[..]));
    let wanted =
        "hall: line 2: no formula: `–` (U+2013): the minus sign is `-`\n    (t–2)^2\n      ^\n";
    assert_eq!(lines(&out.stderr), wanted);
    let out = hall(&["make"], b"formula 1 t\xFF");
    assert!(lines(&out.stderr).ends_with(": not UTF-8\n"));
}

/// The bytes of a file with one formula.
fn record(tolerance: f64, text: &[u8]) -> Vec<u8> {
    file(&[Record::Formula { tolerance, text: text.to_vec() }])
}

/// Every sum makes its record, also one that is refused later.
#[test]
fn sums_are_taken() {
    let deep = [&[b'('; 127][..], b"t", &[b')'; 127]].concat();
    let sums: [&[u8]; 12] = [
        b"t",
        b"0",
        b"(t-2)^2*(t+1)",
        b"000000001*t-999999999",
        b"((t))^9",
        b"t^5",
        b"(t^5)^0",
        b"0*t^4*t",
        b"7",
        b"(10000*t)^9",
        b"999999999^2",
        &deep,
    ];
    for text in sums {
        let line = format!("formula 0.5 {}", String::from_utf8_lossy(text));
        assert_eq!(made(&line), record(0.5, text), "{line}");
        assert_eq!(made(&format!(" FORMULA\t1/2 \t {} # x", &line[12..])), record(0.5, text));
        assert_eq!(lines(&hall(&["text"], &record(0.5, text)).stdout), format!("{line}\n"));
    }
}

/// A text that is no sum is made of its bytes, and comes back as these.
#[test]
fn texts_by_their_bytes() {
    let all: Vec<u8> = (0..255).collect();
    let texts: [&[u8]; 7] = [b"", b"2t", b"t - 2", b"#", b"\n", &all, &[b'('; 255]];
    for text in texts {
        let digits: String = text.iter().map(|byte| format!("{byte:02X}")).collect();
        let line = format!("formula 2^-30 0x{digits}\n");
        let bytes = record(1.0 / (1u64 << 30) as f64, text);
        assert_eq!(made(&line), bytes, "{line}");
        assert_eq!(made(&line.to_lowercase().replace("0x", "0X")), bytes, "{line}");
        assert_eq!(lines(&hall(&["text"], &bytes).stdout), line);
    }
    // a sum too, which comes back as it is typed
    assert_eq!(made("formula 1 0x742d32"), record(1.0, b"t-2"));
    let known = [
        ("0x7", "`0x7`: no bytes: behind 0x each has two hexadecimal digits"),
        ("0x74 2d", "`0x74 2d`: no bytes: behind 0x each has two hexadecimal digits"),
        ("0x7G", "`0x7G`: no bytes: behind 0x each has two hexadecimal digits"),
    ];
    for (text, why) in known {
        assert_eq!(said(&format!("formula 1 {text}")), format!("line 1: {why}"));
    }
}

/// 255 characters pass, and 256 do not; what is wrong before that is told first.
#[test]
fn long_texts() {
    let sum = |n: usize| format!("t{}", "+t".repeat(n / 2));
    assert_eq!(made(&format!("formula 1 {}", sum(255))), record(1.0, sum(255).as_bytes()));
    let why = |n| format!("line 1: a formula has at most 255 characters, and here are {n}\n");
    let told = said(&format!("formula 1 {}", sum(257)));
    assert!(told.starts_with(&why(257)), "{told}");
    // rows of 96 characters, and the mark under the first that is too many
    let rows: Vec<&str> = told.lines().skip(1).collect();
    assert_eq!(rows.iter().map(|row| row.len()).collect::<Vec<_>>(), [100, 100, 70, 68]);
    assert_eq!(rows[3], format!("{}^", " ".repeat(4 + 255 - 2 * 96)));
    assert!(rows[2].ends_with("+.."));
    let spare = format!("{}1", sum(255));
    assert!(said(&format!("formula 1 {spare}")).starts_with(&why(256)));
    let blank = format!("t {}", sum(100_001));
    let told = said(&format!("formula 1 {blank}"));
    assert!(told.starts_with("line 1: no formula: a blank: "), "{told}");
    assert_eq!(told.lines().nth(2), Some("     ^"));
    assert!(told.len() < 400);
    let open = said(&format!("formula 1 {}", "(".repeat(100_000)));
    assert!(open.starts_with(&why(100_000)), "{open}");
    let bytes = said(&format!("formula 1 0x{}", "74".repeat(256)));
    assert!(bytes.ends_with(": a formula has at most 255 characters, and here are 256"));
}

/// What a file shows, without the head of its table.
fn shown(bytes: &[u8]) -> String {
    let out = hall(&["show"], bytes);
    assert_eq!((out.status.code(), &out.stderr[..]), (Some(0), &b""[..]));
    let table = lines(&out.stdout);
    let head = table.lines().next().is_some_and(|line| line.starts_with("  answer "));
    table.split_once('\n').filter(|_| head).map_or(table.clone(), |(_, rows)| rows.to_string())
}

/// The formula, what it comes to, and the roots, as a list of the same numbers has them.
#[test]
fn answered_formulas() {
    let text = "formula 2^-30 (t-2)^2*(t+1)\nformula 0.5 t^2+1\nlist 2^-30 4 0 -3 1\n";
    let wanted = "\
1 formula, tol 2^-30: (t-2)^2*(t+1) = 0
  expanded: t^3 - 3 t^2 + 4 = 0
  2 roots  -1     BFF0000000000000  1 crossing
           2      4000000000000000  2 flat
2 formula, tol 0.5: t^2+1 = 0
  expanded: t^2 + 1 = 0
  0 roots
3 list, tol 2^-30: x^3 - 3 x^2 + 4 = 0
  2 roots  -1     BFF0000000000000  1 crossing
           2      4000000000000000  2 flat
in all: 3 records, 4 roots, which together count 6 times
";
    assert_eq!(shown(&made(text)), wanted);
    let csv = lines(&hall(&["show", "--csv"], &made(text)).stdout);
    let rows: Vec<&str> = csv.lines().collect();
    assert!(rows[0].ends_with(",distance,doubt,expanded"));
    let front = "1,0,formula,tol 2^-30,(t-2)^2*(t+1) = 0,2 roots,,,2,4000000000000000,2,flat,";
    assert_eq!(rows[2], format!("{front},,,,,,t^3 - 3 t^2 + 4 = 0"));
    assert!(rows[4].starts_with("3,40,list,") && rows[4].ends_with(",crossing,,,,,,,"), "{csv}");
}

/// A text, the marks under it, and the refusal.
const REFUSED: [(&[u8], &str, &str); 15] = [
    (b"2t", " ^", "13: no sum: `t` cannot be character 2: write `2*t`"),
    (
        b"t - 2",
        " ^",
        "13: no sum: a blank cannot be character 2: there are no blanks in a formula:",
    ),
    (b"t^12", "   ^", "13: no sum: `2` cannot be character 4: a power is one digit, 0 to 9"),
    (b"(t-2", "    ^", "13: no sum: it ends too early, behind character 4: `)` is missing for the"),
    (b"", "^", "13: no sum: the text is empty: a number, `t` or a bracket is missing"),
    (
        b"t\xFF\xFE",
        " ^~~~",
        "13: no sum: the byte 255 cannot be character 2: a formula has digits,",
    ),
    (b"t\n\0", " ^~", "13: no sum: the byte 10 cannot be character 2: there are no blanks in a"),
    ("t²".as_bytes(), " ^", "13: no sum: the byte 194 cannot be character 2: `²` (U+00B2): write"),
    (b"t^5+2x", "     ^", "13: no sum: `x` cannot be character 6: the one letter is `t`, and `*`"),
    (b"(t^5)^0", " ^~~", "14: `t^5` comes to degree 5, and a part has at most 4"),
    (b"1+t^4*t-t", "  ^~~~~", "14: `t^4*t` comes to degree 5, and a part has at most 4"),
    (b"(1000*t)^9", "^~~~~~~~~~", "14: `(1000*t)^9` comes to degree 5, and a part has at most 4"),
    (b"t+(10000*t)^9", "  ^~~~~~~~~~~", "15: `(10000*t)^9` comes to 10000000000000000 t^4, and a"),
    (b"7", "", "2: no equation: the formula comes to 7, whatever t is"),
    (b"0*t^4*t", "", "2: no equation: the formula comes to 0, whatever t is"),
];

/// Marks under the character or the part at fault, and the reason; no equation that is multiplied
/// out.
#[test]
fn refused_formulas() {
    let front = "1 formula, tol 0.5: ";
    for (text, marks, why) in REFUSED {
        let table = shown(&record(0.5, text));
        let rows: Vec<&str> = table.lines().collect();
        assert!(rows[0].starts_with(front.trim_end()), "{table}");
        let (under, refused) = if marks.is_empty() { ("", rows[1]) } else { (rows[1], rows[2]) };
        assert_eq!(under, format!("{}{marks}", " ".repeat(front.len())).trim_end(), "{table}");
        assert!(format!("{refused} ").starts_with(&format!("  refused {why} ")), "{table}");
        assert!(!table.contains("expanded"), "{table}");
        let reason = lines(&hall(&["explain", "-", "1"], &record(0.5, text)).stdout);
        assert_eq!(format!("{reason}in all: 1 record, 0 roots\n"), table);
        let csv = lines(&hall(&["show", "--csv"], &record(0.5, text)).stdout);
        let row = csv.lines().nth(1).unwrap();
        assert!(row.contains(why.split_once(": ").unwrap().1), "{row}");
    }
    let front = |text| shown(&record(0.5, text)).lines().next().unwrap().to_string();
    assert_eq!(front(b"t^2=4"), "1 formula, tol 0.5: t^2=4");
    assert_eq!(front(b"t\n\0\\\x7F\xC3'"), "1 formula, tol 0.5: t\\n\\0\\\\\\u{7f}\\xc3'");
    assert_eq!(front(b"t^5"), "1 formula, tol 0.5: t^5 = 0");
}

/// Long texts go on in the next row, with their marks; no row has over 100 columns.
#[test]
fn long_formulas() {
    let five = "(t+1)*(t+1)*(t+1)*(t+1)*(t+1)";
    let text = format!("{}{five}", "t+".repeat(30));
    let table = shown(&record(1.0, text.as_bytes()));
    let rows: Vec<&str> = table.lines().collect();
    assert_eq!(rows[0], format!("1 formula, tol 1: {}(t+1)*(t+1)*(t+1)*(t+1", "t+".repeat(30)));
    assert_eq!(rows[1], format!("{}^{}", " ".repeat(78), "~".repeat(21)));
    assert_eq!(rows[2..4], ["    )*(t+1) = 0", "    ~~~~~~~"]);
    assert!(rows[4].starts_with(&format!("  refused 14: `{five}` comes to degree 5")));
    for text in [&[b'('; 255][..], &[0xFF; 255], &b"t+".repeat(127), "½".repeat(127).as_bytes()] {
        let bytes = record(1.0, text);
        let told = [&["show"][..], &["explain", "-"], &["explain", "-", "1"]];
        for told in told.map(|words| lines(&hall(words, &bytes).stdout)) {
            assert!(told.lines().all(|line| line.chars().count() <= 100), "{told}");
        }
    }
}

/// 127 brackets around `t`: the most that a text holds.
#[test]
fn deep_brackets() {
    let deep = |n: usize| format!("{}t{}", "(".repeat(n), ")".repeat(n));
    let table = shown(&made(&format!("formula 1 {}", deep(127))));
    let root = "\n  expanded: t = 0\n  1 root  0      0000000000000000  1 crossing\n";
    assert!(table.ends_with(&format!("{root}in all: 1 record, 1 root, which counts once\n")));
    let open = [&[b'('; 128][..], b"t", &[b')'; 126]].concat();
    let table = shown(&record(1.0, &open)).replace("\n    ", " ");
    let why =
        "it ends too early, behind character 255: `)` is missing for the bracket at character 2";
    assert!(table.contains(&format!("  refused 13: no sum: {why}\n")), "{table}");
}

/// What is doubtful is explained of the equation that is multiplied out.
#[test]
fn formulas_are_explained() {
    let told = lines(&hall(&["explain", "-", "1"], &made("formula 2^-30 (t-2)^2*(t+1)")).stdout);
    let wanted = "\
1 formula, tol 2^-30: (t-2)^2*(t+1) = 0
  p is t^3 - 3 t^2 + 4, computed without rounding: the places are those of p = 0
  -1 (BFF0000000000000), once: a root, p is 0 there
  2 (4000000000000000), 2 times, flat: a root, p is 0 there
roots: 2, none of them doubtful
";
    assert_eq!(told, wanted);
    // roots apart, and joined by a tolerance of 1
    let joined = lines(&hall(&["show"], &made("formula 1 t*(t-1)\nlist 1 0 -1 1")).stdout);
    let doubts: Vec<&str> = joined.lines().filter(|row| row.starts_with("  doubtful")).collect();
    assert!(doubts.len() == 2 && doubts[0] == doubts[1], "{joined}");
}

/// What stands over the marks of rows that are else these.
fn under_marks(plain: &str, rows: &str) -> String {
    let mut rows = rows.lines().peekable();
    let mut found = String::new();
    for line in plain.lines() {
        assert_eq!(rows.next(), Some(line));
        let are_marks = |row: &&str| !row.is_empty() && row.chars().all(|c| " ^~".contains(c));
        let Some(marks) = rows.next_if(are_marks) else { continue };
        let over =
            line.chars().chain(repeat(' ')).zip(marks.chars()).filter(|(_, mark)| *mark != ' ');
        for (c, mark) in over {
            assert_eq!(mark, if found.is_empty() { '^' } else { '~' }, "{rows:?}");
            found.push(c);
        }
    }
    assert_eq!(rows.next(), None);
    found
}

/// How a part is shown; of a text that is no sum it is a whole character, or the place behind it.
fn shown_part(text: &[u8], part: Range<usize>) -> String {
    let rest = text[part.start..].utf8_chunks().next().and_then(|rest| rest.valid().chars().next());
    match rest.map_or(1, char::len_utf8).max(part.len()) {
        _ if part.end > text.len() => " ".to_string(),
        size => marked::row(&text[part.start..part.start + size]),
    }
}

/// Whatever a text is, its marks stand under the part at fault and under nothing else, no row is too
/// long, and it is typed as it is exactly where it is a sum.
#[test]
fn any_text() {
    let (mut r, mut text) = (Random::new(17), Vec::new());
    let mut found = [0; 16];
    for n in 0..30_000 {
        formulas::text(&mut r, n % KINDS.len(), &mut text);
        let fault = expanded(&text).err();
        found[fault.as_ref().map_or(0, |fault| usize::from(fault.refusal()))] += 1;
        if let Some(part) = fault.as_ref().map(mistyped::part) {
            let rows = marked::rows("1 formula: ", &text, "", Some(part.clone()));
            // where the mark stands behind the text, a blank takes its column
            let behind = if part.end > text.len() { " " } else { "" };
            let plain = marked::rows("1 formula: ", &text, behind, None);
            assert_eq!(under_marks(&plain, &rows), shown_part(&text, part), "{rows}");
        }
        let (all, total) = show::shown(&record(0.5, &text), list_file).unwrap();
        let table = table::table(&all, total, false);
        assert!(table.lines().all(|line| line.chars().count() <= 100), "{table}");
        let typed = text::read(&[b"formula 1 ", &text[..]].concat());
        let whole = |text: &str| text.trim() == text && !text.contains('#');
        if std::str::from_utf8(&text).is_ok_and(whole)
            && !text.to_ascii_lowercase().starts_with(b"0x")
        {
            assert_eq!(typed.is_ok(), mistyped::is_sum(&text), "{table}");
        }
    }
    assert!([0, 13, 14, 15].iter().all(|n| found[*n] > 1000), "{found:?}");
}
