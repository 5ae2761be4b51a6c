//! The hall file both ways, and the host's own lister.
use host::inputs::hall_files::records;
use host::inputs::random::Random;
use host::people::text::{self, TextError};
use host::truth::hall_file::{Kind, Record, file, items};

fn read(text: &str) -> Result<Vec<u8>, TextError> {
    text::read(text.as_bytes()).map(|records| file(&records))
}

#[test]
fn text_to_file() {
    let text = "# lanes 1 to 4\n\nlist 2^-30 2 -3 1 # two roots\n\tquad 0.5 0x0000000000000001 1 -3 2\r\n\
                crank -inf nan 0 1 -0 7#\nlist 1\ncontact 2 1 2 -3 0.5 -0 inf 1 2 7\n\
                formula 2 (t-2)^2*(t+1) # as typed\nformula 0.5\t0x32\r\n";
    let mut wanted = Vec::new();
    let mut add = |mark: &[u8], numbers: &[u64]| {
        wanted.extend(mark);
        wanted.extend(numbers.iter().flat_map(|n| n.to_le_bytes()));
    };
    let (one, minus_three, two) = (0x3FF0 << 48, 0xC008 << 48, 0x4000 << 48);
    add(b"PL\x03", &[0x3E10 << 48, two, minus_three, one]);
    add(b"QD", &[0x3FE0 << 48, 1, one, minus_three, two]);
    add(b"TG", &[0xFFF0 << 48, 0x7FF8 << 48, 0, one, 1 << 63, 0x401C << 48]);
    add(b"PL\0", &[one]);
    let path = [one, two, minus_three, 0x3FE0 << 48, 1 << 63, 0x7FF0 << 48];
    add(b"PC", &[&[two], &path[..], &[one, two, 0x401C << 48]].concat());
    add(b"TX\x0D", &[two]);
    add(b"(t-2)^2*(t+1)TX\x01", &[0x3FE0 << 48]);
    add(b"2", &[]);
    assert_eq!(read(text).unwrap(), wanted);
    assert_eq!(read("").unwrap(), b"");
    assert_eq!(read("# nothing\n\n").unwrap(), b"");
}

#[test]
fn file_to_text_and_back() {
    let mut r = Random::new(11);
    for _ in 0..2_000 {
        let bytes = file(&records(&mut r, 10));
        let whole = items(&bytes).into_iter().map(|item| item.record.unwrap());
        let lines: Vec<String> = whole.map(|record| text::line(&record)).collect();
        assert_eq!(read(&lines.join("\n")).unwrap(), bytes, "{lines:?}");
    }
}

/// A text, and the line, the word and the reason of its first fault.
const FAULTS: [(&str, usize, &str, &str); 35] = [
    ("lst 1 2", 1, "lst", "no kind of record"),
    ("list 1\n\nPL 1", 3, "PL", "no kind of record"),
    ("list", 1, "list", "the tolerance is missing"),
    ("list 1 2,5", 1, "2,5", "no number: `,`: a decimal has a point"),
    ("list 1 2, -3", 1, "2,", "no number: `,`: a decimal has a point, and numbers stand apart"),
    ("list 1 \u{2212}3", 1, "\u{2212}3", "no number: `\u{2212}` (U+2212): the minus sign is `-`"),
    ("# x\nlist 1 2 not", 2, "not", "no number"),
    ("list 1 1e-400", 1, "1e-400", "below the smallest double"),
    ("list 10^-400 1", 1, "10^-400", "below the smallest double"),
    ("list 1 1/0", 1, "1/0", "no number: a fraction over 0"),
    ("list 1\n\u{FEFF}list 1", 2, "\u{FEFF}list", "no kind of record"),
    ("list 1 1e999", 1, "1e999", "beyond the largest double"),
    ("list 2^1024", 1, "2^1024", "no double"),
    ("list 0x3FF", 1, "0x3FF", "no bits"),
    ("quad 1 2 3 4", 1, "4", "a number is missing behind it: quad CONFUSION"),
    ("quad", 1, "quad", "a number is missing behind it"),
    ("quad 1 2 3 4 5 6", 1, "6", "one number too many"),
    ("crank 1 2 3 4 5 # 6", 1, "5", "a number is missing behind it: crank CONFUSION"),
    ("crank 1 2 3 4 5 6 7 8", 1, "7", "one number too many"),
    ("contact 0 0 1 0 0 0 0 3 0", 1, "0", "a number is missing behind it: contact CONFUSION x0"),
    ("contact 0 0 1 0 0 0 0 3 0 1 9", 1, "9", "one number too many: contact CONFUSION x0"),
    ("contacts 1", 1, "contacts", "no kind of record: a line begins with list, quad, crank, c"),
    ("slider 1 3", 1, "3", "a number is missing behind it: slider R L X"),
    ("slider 1 2 3 4 5 6", 1, "6", "one number too many: slider R L X"),
    ("slider 0 3 3", 1, "0", "the lengths R and L are above 0"),
    ("slider 2^-30 1 -3 3 0", 1, "-3", "the lengths R and L are above 0"),
    ("slider 1 3 inf", 1, "inf", "no length"),
    ("slider 1 3 3 nan", 1, "nan", "no length"),
    ("slider 1e200 3 3", 1, "slider", "a number of its equation is beyond"),
    ("slider 1e-200 3 1e-200", 1, "slider", "a number of its equation is below"),
    ("slider 1e-200 3 0 1e-200", 1, "slider", "a number of its equation is below"),
    ("formula", 1, "formula", "the tolerance is missing behind it: formula TOL TEXT"),
    ("list 1\nformula 1 # t", 2, "1", "the text is missing behind it: formula TOL TEXT"),
    ("formula t-2", 1, "t-2", "the tolerance is missing before it: formula TOL TEXT"),
    ("formula 1 0x7", 1, "0x7", "no bytes: behind 0x each has two hexadecimal digits"),
];

#[test]
fn errors_name_line_and_word() {
    for (text, line, word, why) in FAULTS {
        let error = read(text).unwrap_err();
        assert_eq!((error.line, &error.word[..]), (line, word), "{text}");
        assert!(error.why.starts_with(why), "{text}: {error}");
        assert!(error.to_string().starts_with(&format!("line {line}: `{word}`: ")), "{error}");
    }
    // the text of a formula stands below
    let error = read("list 1\nformula 1 2*x # x").unwrap_err();
    let why = "no formula: `x`: the one letter is `t`";
    assert_eq!((error.line, &error.word[..], &error.why[..]), (2, "2*x", why));
    assert_eq!(error.to_string(), format!("line 2: {why}\n    2*x\n      ^"));
    let error = text::read(b"list 1\nlist \xFF").unwrap_err();
    assert_eq!((error.line, &error.why[..]), (2, "not UTF-8"));
    for mark in [&b"\xFF\xFE"[..], b"\xFE\xFF"] {
        let error = text::read(&[mark, b"l\0i\0"].concat()).unwrap_err();
        assert_eq!((error.line, &error.why[..]), (1, "the text is UTF-16: save it as UTF-8"));
    }
}

/// Where the meaning is sure, what people type is taken.
#[test]
fn other_ways_to_type() {
    let same = [
        ("\u{FEFF}list 2^-30 2 -3 1", "list 2^-30 2 -3 1"),
        ("List 2^-30 2 -3 1", "list 2^-30 2 -3 1"),
        ("CRANK 2^-30 0 0 1E0 0 NaN", "crank 2^-30 0 0 1 0 nan"),
        ("Quad 10^-9 1/2 1 -3/2 +Inf", "quad 1e-9 0.5 1 -1.5 inf"),
        ("list 0X3E10000000000000 1", "list 2^-30 1"),
        ("Contact 1/2 0 1E0 0 0 0 0 3 0 +1", "contact 0.5 0 1 0 0 0 0 3 0 1"),
        ("  FORMULA\t1/2   t-2 ", "formula 0.5 t-2"),
        ("Formula 1 0X742D32", "formula 1 t-2"),
    ];
    for (typed, plain) in same {
        assert_eq!(read(typed), read(plain), "{typed}");
        assert!(read(typed).is_ok(), "{typed}");
    }
}

/// c1 = -2XR, d1 = -2YR, e = R² + X² + Y² - L².
#[test]
fn sliders() {
    let same = [
        ("slider 1 3 3", "crank 2^-30 0 0 -6 0 1"),
        ("Slider 1 3 3 0", "crank 2^-30 0 0 -6 0 1"),
        ("slider 2 5 4 1", "crank 2^-30 0 0 -16 -4 -4"),
        ("slider 10^-7 2 5 4 -1", "crank 1e-7 0 0 -16 4 -4"),
        ("slider 3 5 4", "crank 2^-30 0 0 -24 0 0"),
        ("slider 1 3 -3", "crank 2^-30 0 0 6 0 1"),
    ];
    for (typed, plain) in same {
        assert_eq!(read(typed), read(plain), "{typed}");
        assert!(read(typed).is_ok(), "{typed}");
    }
}

#[test]
fn lists_and_files_too_long() {
    let list = |n: usize| format!("list 1{}\n", " 7".repeat(n));
    assert_eq!(read(&list(32)).unwrap().len(), 267);
    let error = read(&list(33)).unwrap_err();
    assert!(error.to_string().contains("at most 32 coefficients, and here are 33"), "{error}");
    // 245 lists of 267 bytes, and three with 11 coefficients in all: 65,536 bytes
    let full = list(32).repeat(245) + &list(4) + &list(4) + &list(3);
    assert_eq!(read(&full).unwrap().len(), 65_536);
    let error = read(&(full + "# one more\nlist 1")).unwrap_err();
    assert_eq!((error.line, &error.word[..]), (250, "list"));
    assert!(error.why.contains("the file has 65547 bytes, and a hall file has at most 65,536"));
}

#[test]
fn marks() {
    assert_eq!(Kind::ALL.map(Kind::mark), ["PL", "QD", "TG", "PC", "TX"]);
    for mark in [&b"PLX"[..], b"P", b"", b"pl", b"LP"] {
        assert_eq!(Kind::of_mark(mark), None);
    }
}

/// A NaN's bits pass through a record.
#[test]
fn nan_bits_are_kept() {
    let odd = f64::from_bits(0xFFF0_0000_0000_0123);
    let record = Record::Crank { confusion: odd, terms: [odd; 5] };
    assert!(record.bytes()[2..].chunks(8).all(|b| b == odd.to_le_bytes()));
    assert_eq!(text::line(&record), format!("crank{}", " 0xFFF0000000000123".repeat(6)));
}

#[cfg(geomcore)]
mod listings {
    use super::read;
    use host::compare::say;
    use host::inputs::hall_files::any_file;
    use host::inputs::random::Random;
    use host::stored::files::{
        DOCUMENT, DOCUMENT_LISTING, ENTRIES, FINE_POINTS, KINDS, MISTAKES, REFUSED, files, of_size,
    };
    use host::truth::angle::Sine;
    use host::truth::hall_file::Kind;
    use host::truth::kind;
    use host::truth::lister::{Line, Reference, Untouched, listing};
    use host::truth::listing::lines;

    fn listed(bytes: &[u8]) -> String {
        String::from_utf8(listing(bytes, &Reference(Sine::OfExact))).unwrap()
    }

    /// The lines of a text's records; the total behind them is theirs.
    fn listed_text(text: &str) -> Vec<String> {
        let lines = lines(listed(&read(text).unwrap()).as_bytes()).unwrap();
        lines.iter().map(Line::to_string).collect()
    }

    #[test]
    fn document_01() {
        let bytes = [&read(DOCUMENT).unwrap()[..], b"XX"].concat();
        assert_eq!(listed(&bytes), DOCUMENT_LISTING);
        assert_eq!(listing(&bytes, &Untouched), DOCUMENT_LISTING.as_bytes());
    }

    #[test]
    fn every_refusal() {
        let wanted = [
            "1 PL refused 1",
            "2 PL refused 1",
            "3 PL refused 2",
            "4 PL refused 3",
            "5 QD refused 1",
            "6 QD refused 5",
            "7 TG refused 1",
            "8 TG refused 5",
            "9 TG refused 2",
            "10 PC refused 10",
            "11 PC refused 10",
            "12 PC refused 11",
            "13 PC refused 11",
            "14 PC refused 11",
            "15 PC refused 12",
            "16 PC refused 2",
            "17 PL ok 2 3FF0000000000000 1 c 4000000000000000 1 c",
        ];
        assert_eq!(listed_text(REFUSED), wanted);
        let known: [(&[u8], &str); 10] = [
            (b"", "T 0 0 0\n"),
            (b"P", "1 -- refused 7\nT 1 0 0\n"),
            (b"PX", "1 -- refused 6\nT 1 0 0\n"),
            (b"PXPL", "1 -- refused 6\nT 1 0 0\n"),
            (b"PL", "1 PL refused 7\nT 1 0 0\n"),
            (b"PL\x20", "1 PL refused 7\nT 1 0 0\n"),
            (b"PL\x21", "1 PL refused 8\nT 1 0 0\n"),
            (b"QD", "1 QD refused 7\nT 1 0 0\n"),
            (b"TG\0", "1 TG refused 7\nT 1 0 0\n"),
            (b"PC", "1 PC refused 7\nT 1 0 0\n"),
        ];
        for (bytes, lines) in known {
            assert_eq!(listed(bytes), lines, "{bytes:?}");
        }
        // 1 before 2 and 3, 5 before 2
        let order = "list 1 nan 0\nlist 1 0 0 0 0 0 1 inf\nquad 1 1 nan 0 0\ncrank 0 inf 0 0 0 0";
        assert!(listed_text(order).iter().all(|line| line.ends_with("refused 1")));
    }

    /// A formula's line is that of the list of its coefficients; 13 comes first, and goes on reading.
    #[test]
    fn lines_of_formulas() {
        let known = [
            ("(t-2)^2*(t+1)", "ok 2 BFF0000000000000 1 c 4000000000000000 2 f"),
            ("0-t^4*1", "ok 1 0000000000000000 4 f"),
            ("t^2+1", "ok 0"),
            ("t^5-t^5", "refused 14"),
            ("(1000*t)^9", "refused 14"),
            ("(10000*t)^9", "refused 15"),
            ("0*t^4*t", "refused 2"),
            ("t^0", "refused 2"),
            ("0x", "refused 13"),
            ("0x745E352B3274", "refused 13"),
            ("0xFF", "refused 13"),
        ];
        let text: String =
            known.iter().map(|(text, _)| format!("formula 2^-30 {text}\n")).collect();
        let wanted = known.iter().enumerate().map(|(i, (_, line))| format!("{} TX {line}", i + 1));
        assert_eq!(listed_text(&text), wanted.collect::<Vec<_>>());
        let as_list = listed_text("list 2^-30 4 0 -3 1")[0].replace("PL", "TX");
        assert_eq!(listed_text(&text)[0], as_list);
        for (bytes, number) in [
            (&b"TX"[..], 7),
            (b"TX\0", 7),
            (b"TX\0\0\0\0\0\0\0\0\0", 13),
            (b"TX\xFF\0\0\0\0\0\0\0\0", 7),
        ] {
            assert_eq!(listed(bytes), format!("1 TX refused {number}\nT 1 0 0\n"));
        }
    }

    #[test]
    fn entries() {
        let wanted = "refused 2|refused 2|refused 2|refused 1|refused 1|refused 3\
            |ok 1 0000000000000000 2 f|ok 1 3FF0000000000000 1 c|ok 1 4008000000000000 1 c\
            |ok 1 BFE5555555555555 1 c|ok 1 3FF0000000000000 2 f|ok 0|degenerate\
            |linear 4000000000000000|one BFF0000000000000|empty|linear 8000000000000000\
            |linear 8000000000000000|two C1CFFFFFFFFFFFFE 8000000000000000\
            |two 8000000000000000 41CFFFFFFFFFFFFE";
        let lines = listed_text(ENTRIES);
        let answers = lines.iter().map(|line| line.splitn(3, ' ').nth(2).unwrap());
        assert_eq!(answers.collect::<Vec<_>>(), wanted.split('|').collect::<Vec<_>>());
    }

    /// What the papers say of inputs that show a mistake.
    #[test]
    fn mistakes_and_fine_points() {
        let lines = [listed_text(MISTAKES), listed_text(FINE_POINTS)];
        let known = [
            (0, "1 PL ok 1 0000000000000000 1 c"),
            (0, "2 PL ok 1 8000000000000000 1 c"),
            (0, "3 PL ok 0"),
            (0, "6 PL ok 1 3FE0000000000000 1 c"),
            (0, "7 PL ok 1 0000000000000000 2 f"),
            (0, "8 QD linear 8000000000000000"),
            (0, "15 PL ok 1 C0D5555555555555 3 f"),
            (0, "16 TG ok 7 0"),
            (0, "21 TG refused 2"),
            (1, "1 PL ok 0"),
            (1, "2 PL ok 0"),
            (1, "3 PL ok 0"),
            (1, "4 PL ok 0"),
            (1, "5 PL ok 0"),
            (1, "6 PL ok 1 0002000000000000 2 f"),
            (1, "9 PL ok 2 0000000000000000 1 c 0000000000000000 1 c"),
            (1, "10 QD two 8000000000000000 8000000000000000"),
            (1, "11 QD refused 5"),
            (1, "12 QD refused 5"),
        ];
        for (which, line) in known {
            assert!(lines[which].iter().any(|l| l == line), "{line}: {:#?}", lines[which]);
        }
        assert!(lines[0][8].starts_with("9 PL ok 1 "));
        assert!(lines[0][9].starts_with("10 PL ok 2 000000016DED3026 1 c "), "{}", lines[0][9]);
        assert!(lines[0][16].starts_with("17 TG ok 6 "));
    }

    /// The multiplicity and the kind of each root.
    #[test]
    fn kinds() {
        let wanted = "1c 1c|2f|2f 2f|1c 2f 1c|3f 1c|2f|2f 2f|4f|4b|2f 2f|4b|2b 2b||4b|1c 1c 1c 1c\
            |1c 3b|1c 1c 2b|1c 1c|2f 2f|2b 2f|2b 2f|1c 1c 1c 1c";
        let read = lines(&listing(&read(KINDS).unwrap(), &Reference(Sine::OfExact))).unwrap();
        let root = |(m, kind): (u32, kind::Kind)| format!("{m}{}", kind.letter());
        let of_line = |line: &Line| {
            let roots = line.answer.roots().into_iter().filter_map(|(_, listed)| listed);
            roots.map(root).collect::<Vec<_>>().join(" ")
        };
        assert_eq!(read.iter().map(of_line).collect::<Vec<_>>().join("|"), wanted);
    }

    /// Behind a whole record each kind is cut at every byte.
    #[test]
    fn truncation_at_every_byte() {
        let first = read("list 2^-30 -6 2").unwrap();
        for (mark, line) in [
            ("PL", "list 2^-30 7"),
            ("QD", "quad 0 0 1 2 1"),
            ("TG", "crank 0 0 0 1 0 0"),
            ("PC", "contact 0 0 1 0 0 0 0 3 0 1"),
            ("TX", "formula 0 (t-2)^2"),
        ] {
            let bytes = read(line).unwrap();
            for cut in 1..bytes.len() {
                let mark = if cut < 2 { "--" } else { mark };
                let lines = format!("1 PL ok 1 4008000000000000 1 c\n2 {mark} refused 7\n");
                let wanted = lines + "T 2 1 1\n";
                assert_eq!(listed(&[&first, &bytes[..cut]].concat()), wanted);
            }
        }
    }

    #[test]
    fn counts() {
        let with = |count: u8, numbers: usize| {
            let mut bytes = vec![b'P', b'L', count];
            bytes.extend([0; 8].repeat(1 + numbers));
            listed(&bytes)
        };
        assert_eq!(with(0, 0), "1 PL refused 2\nT 1 0 0\n");
        assert_eq!(with(32, 32), "1 PL refused 2\nT 1 0 0\n");
        assert_eq!(with(32, 31), "1 PL refused 7\nT 1 0 0\n");
        assert_eq!(with(31, 32), "1 PL refused 2\n2 -- refused 6\nT 2 0 0\n");
        for count in 33..=255 {
            assert_eq!(with(count, 33), "1 PL refused 8\nT 1 0 0\n");
        }
    }

    #[test]
    fn lengths() {
        let root = "ok 2 3FF0000000000000 1 c 4000000000000000 1 c";
        for size in [65_535, 65_536] {
            let read = lines(&listing(&of_size(size), &Reference(Sine::OfExact))).unwrap();
            assert!(read.iter().all(|line| line.to_string().ends_with(root)), "{size}");
            assert!(read.len() > 245);
        }
        let too_long = "0 -- refused 9\nT 1 0 0\n";
        for size in [65_537, 65_538, 200_000] {
            assert_eq!(listed(&vec![b'P'; size]), too_long);
        }
        assert_eq!(listed(&of_size(65_537)), too_long);
        let cut = lines(&listing(&of_size(65_536)[..65_535], &Reference(Sine::OfExact))).unwrap();
        assert!(cut.last().unwrap().to_string().ends_with(" PL refused 7"));
        // the most lines that a file can have
        let short = b"PL\0\0\0\0\0\0\0\0\0".repeat(5957);
        assert_eq!(short.len(), 65_527);
        assert!(listed(&short).ends_with("\n5957 PL refused 2\nT 5957 0 0\n"));
    }

    /// Every line reads back, and is numbered from 1; none but a contact's has a brush.
    #[test]
    fn made_files() {
        let mut r = Random::new(12);
        let (mut refused, mut brushes) = ([0u64; 16], 0);
        for _ in 0..20_000 {
            let bytes = any_file(&mut r);
            let read = lines(&listing(&bytes, &Reference(Sine::OfExact))).unwrap();
            for (i, line) in read.iter().enumerate() {
                assert_eq!(line.number, i + 1);
                let kinds = line.answer.roots().into_iter().filter_map(|(_, listed)| listed);
                let brush = kinds.filter(|(_, kind)| *kind == kind::Kind::Brush).count();
                assert!(brush == 0 || line.kind == Some(Kind::Contact), "{line}");
                brushes += brush;
                let text = line.answer.to_string();
                let number = text.strip_prefix("refused ").map_or(0, |n| n.parse().unwrap());
                refused[number] += 1;
            }
        }
        say(&format!("made files: lines by refusal 0 to 15: {refused:?}, {brushes} brushes"));
        assert!([0, 1, 2, 3, 5, 6, 7, 8, 10, 11, 12, 13, 14, 15].iter().all(|&n| refused[n] > 100));
        assert!(brushes > 100);
    }

    #[test]
    fn stored_files() {
        let files = files();
        let lines: usize = files.iter().map(|(_, bytes)| listed(bytes).lines().count()).sum();
        let bytes: usize = files.iter().map(|(_, bytes)| bytes.len()).sum();
        say(&format!("stored files: {} files, {bytes} bytes, {lines} lines", files.len()));
        let (_, document) = files.iter().find(|(name, _)| name == "document").unwrap();
        assert_eq!(listed(document), DOCUMENT_LISTING);
    }
}
