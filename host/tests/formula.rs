//! Formulas by the port: its coefficients against those of the host's own reader, and its roots
//! against the reference build's list of these.
#![cfg(geomcore)]
use host::compare::outcome::Outcome;
use host::compare::say;
use host::inputs::formulas::short_texts;
use host::inputs::random::EDGES;
use host::port::formulas::{
    formula_coefficients, formula_coefficients_bytes, formula_roots, formula_roots_bytes,
};
use host::runs::formulas::{add, made, outcome, reference};
use host::stored::telling;
use host::truth::angle::Sine;
use host::truth::formula::MOST_BYTES;
use std::thread;

/// 2^-30
const TOL: f64 = 1.0 / (1u64 << 30) as f64;

/// The largest size of a coefficient.
const LARGEST: f64 = (1u64 << 53) as f64;

fn all_equal(name: &str, outcome: &Outcome) {
    say(&format!("{name}: {}", outcome.text()));
    assert!(outcome.wrong == 0, "{name}:\n{}", outcome.shown.join("\n"));
}

/// Port and host answer with these coefficients.
fn expands(text: &[u8], coeffs: &[f64]) {
    let mut wanted = [0.0; 6];
    wanted[0] = coeffs.len() as f64;
    wanted[1..=coeffs.len()].copy_from_slice(coeffs);
    for given in [formula_coefficients(text), reference(Sine::OfExact, text, TOL).0] {
        let given = given.unwrap_or_else(|n| panic!("{}: refused {n}", text.escape_ascii()));
        assert_eq!(given.map(f64::to_bits), wanted.map(f64::to_bits), "{}", text.escape_ascii());
    }
    for sine in Sine::BOTH {
        let (given, wanted) = (formula_roots(sine, text, TOL), reference(sine, text, TOL).1);
        assert!(given.same(&wanted), "{}: {}", text.escape_ascii(), given.told());
        assert_eq!(given.refusal, if coeffs.len() < 2 { 2 } else { 0 }, "{}", text.escape_ascii());
    }
}

/// Port and host refuse the text under this number.
fn refused(text: &[u8], number: u64) {
    for sine in Sine::BOTH {
        let (coeffs, list) = reference(sine, text, TOL);
        assert_eq!((coeffs, list.refusal), (Err(number), number), "{}", text.escape_ascii());
        let given = (formula_coefficients(text), formula_roots(sine, text, TOL).refusal);
        assert_eq!(given, (Err(number), number), "{}", text.escape_ascii());
    }
}

#[test]
fn entries() {
    expands(b"(t-2)^2*(t+1)", &[4.0, 0.0, -3.0, 1.0]);
    let listed = Sine::BOTH.map(|sine| formula_roots(sine, b"(t-2)^2*(t+1)", TOL).text());
    assert_eq!(listed, ["ok 2 BFF0000000000000 1 c 4000000000000000 2 f"; 2]);
    expands(b"t", &[0.0, 1.0]);
    expands(b"7", &[7.0]);
    expands(b"000000007", &[7.0]);
    expands(b"9-7-1", &[1.0]);
    expands(b"2*t^2-3*t+1", &[1.0, -3.0, 2.0]);
    expands(b"((t))", &[0.0, 1.0]);
    expands(b"2^3*t-t*3^2", &[0.0, -1.0]);
    // a power of 0 gives 1, and of 1 what it is a power of
    expands(b"t^0", &[1.0]);
    expands(b"0^0", &[1.0]);
    expands(b"(t-t)^0", &[1.0]);
    expands(b"t^1", &[0.0, 1.0]);
    expands(b"0^9", &[]);
    // zero terms are dropped before the degree is looked at, and a zero is +0
    expands(b"0*t^4*t", &[]);
    expands(b"(t-t)*t^4*t^4", &[]);
    expands(b"(t^4-t^4+t)*t^3", &[0.0, 0.0, 0.0, 0.0, 1.0]);
    expands(b"(0-1)*0*t-t", &[0.0, -1.0]);
    expands(b"t^4-1-t^4+t", &[-1.0, 1.0]);
}

/// Texts that the grammar does not derive.
const NO_SUMS: &[&[u8]] = &[
    b"",
    b"t^2^2",
    b"t^12",
    b"t^",
    b"t^t",
    b"t^(2)",
    b"^2",
    b"-t",
    b"(-t)",
    b"+t",
    b"t*-1",
    b"t--1",
    b"t+",
    b"*t",
    b"t*",
    b"t**2",
    b"1234567890",
    b"0000000001",
    b"t+1234567890",
    b" t",
    b"t ",
    b"t -1",
    b"T",
    b"x",
    b"2t",
    b"t2",
    b"tt",
    b"t(",
    b"t(t)",
    b"(t)(t)",
    b"()",
    b"(",
    b")",
    b"(t",
    b"t)",
    b"((t)",
    b"(t))",
    b"1.5",
    b"t/2",
    b"t\n",
    b"t\0",
    b"\0",
    b"t=0",
    b"t\xC2\xB2",
    b"\xEF\xBB\xBFt",
    b"\x80",
    b"\xFF",
    b"\xF4",
];

#[test]
fn texts_that_are_no_sums() {
    for text in NO_SUMS {
        refused(text, 13);
    }
    // each byte alone
    for byte in 0..=255 {
        match byte {
            b't' => expands(&[byte], &[0.0, 1.0]),
            b'0' => expands(&[byte], &[]),
            b'1'..=b'9' => expands(&[byte], &[f64::from(byte - b'0')]),
            _ => refused(&[byte], 13),
        }
    }
    // the whole text comes before every part
    refused(b"t^5*", 13);
    refused(b"99999999^9)", 13);
    refused(b"(10000*t)^9-", 13);
}

/// A part has degree 5 or more.
const DEGREES: &[&[u8]] = &[
    b"t^5",
    b"t^9",
    b"(t^5)^0",
    b"0*t^5",
    b"t^5-t^5",
    b"t^5*0",
    b"t^4*t",
    b"t^4*t*0",
    b"t*t*t*t*t",
    b"(t^2)^3",
    b"(t+1)^5",
    b"((t^5))",
    b"1+(2-t^3*t^2)",
    b"(1000*t)^9",
    b"(9741*t)^9",
    // one product meets both
    b"(999999999*t^3)*(999999999*t^2)",
    b"(999999999*t^4+1)*(999999999*t^4+1)",
    // the degree is met first
    b"t^5+99999999^2",
    b"t^5*99999999^2",
    b"t^4*t*99999999*99999999",
];

/// A coefficient of a part is above 2^53 in size.
const SIZES: &[&[u8]] = &[
    b"(10000*t)^9",
    b"(9742*t)^9",
    b"99999999^2",
    b"99999999^2*0",
    b"(99999999^2)^0",
    b"0*99999999^2",
    b"99999999^2-99999999^2",
    b"(t+99999)^4",
    // the size is met first
    b"99999999^2+t^5",
    b"99999999^2*t^5",
    b"(99999999*99999999)*(t^4*t)",
    b"999999999*t^3*999999999*t^2",
];

#[test]
fn refusals_of_parts() {
    DEGREES.iter().for_each(|text| refused(text, 14));
    SIZES.iter().for_each(|text| refused(text, 15));
}

/// 2^53 by sums, differences and products; one more is refused, and one less passes.
#[test]
fn the_largest() {
    expands(b"90071992*100000000+54740992", &[LARGEST]);
    expands(b"90071992*100000000+54740991", &[LARGEST - 1.0]);
    refused(b"90071992*100000000+54740993", 15);
    expands(b"0-90071992*100000000-54740992", &[-LARGEST]);
    refused(b"0-90071992*100000000-54740993", 15);
    refused(b"90071992*100000000+54740993-1", 15);
    expands(b"67108864*134217728", &[LARGEST]);
    expands(b"(2^9)^5*2^8", &[LARGEST]);
    refused(b"(2^9)^5*257", 15);
    expands(b"(67108864*t+67108864)^2", &[LARGEST / 2.0, LARGEST, LARGEST / 2.0]);
    expands(b"(67108864*t-67108864)^2", &[LARGEST / 2.0, -LARGEST, LARGEST / 2.0]);
    refused(b"(67108865*t+67108864)^2", 15);
    expands(b"94906265^2", &[9007199136250225.0]);
    refused(b"94906266^2", 15);
    // 90071992 * 100000000 + 1 * 54740992 is the middle coefficient
    let last = 90071992.0 * 54740992.0;
    expands(b"(90071992*t+1)*(100000000+54740992*t)", &[100000000.0, LARGEST, last]);
    refused(b"(90071992*t+1)*(100000000+54740993*t)", 15);
    // and 321 * 28059810762433 - 1, of which the product alone is 2^53 + 1
    expands(b"((280598*100000000+10762433)*t+1)*(321-t)", &[321.0, LARGEST, -28059810762433.0]);
}

/// In every coefficient, and in numbers of every length.
#[test]
fn limits() {
    for power in 0..=4 {
        let mut coeffs = vec![0.0; power + 1];
        coeffs[power] = -LARGEST;
        expands(format!("(0-90071992*100000000-54740992)*t^{power}").as_bytes(), &coeffs);
        refused(format!("(0-90071992*100000000-54740993)*t^{power}").as_bytes(), 15);
        refused(format!("0-90071992*100000000*t^{power}-54740993*t^{power}-1").as_bytes(), 15);
    }
    for digits in 1..=9 {
        let nines = "9".repeat(digits);
        expands(nines.as_bytes(), &[nines.parse().unwrap()]);
        let one = format!("{:0digits$}*t", 1);
        expands(one.as_bytes(), &[0.0, 1.0]);
    }
    // the largest product of two parts that meet the limits, before it is refused
    let five = "(90071992*100000000+54740992)*(1+t+t^2+t^3+t^4)";
    refused(format!("({five})*({five})").as_bytes(), 14);
    let three = "(90071992*100000000+54740992)*(1+t+t^2)";
    refused(format!("({three})*({three})").as_bytes(), 15);
}

#[test]
fn deep_brackets() {
    let within = |open: usize, inner: &[u8], close: usize| {
        [&vec![b'('; open][..], inner, &vec![b')'; close][..]].concat()
    };
    for depth in 0..=127 {
        expands(&within(depth, b"t", depth), &[0.0, 1.0]);
        refused(&within(depth + 1, b"", depth), 13);
        refused(&within(depth, b"", depth), 13);
        if depth < 127 {
            refused(&within(depth, b"t", depth + 1), 13);
            refused(&within(depth + 1, b"t", depth), 13);
        }
    }
    for open in 1..=MOST_BYTES {
        refused(&vec![b'('; open], 13);
        refused(&vec![b')'; open], 13);
    }
    expands(&[&b"(t)"[..], &b"*(1)".repeat(63)].concat(), &[0.0, 1.0]);
    expands(&[&b"t"[..], &b"-1".repeat(127)].concat(), &[-127.0, 1.0]);
    expands(&[&b"t"[..], &b"*1".repeat(127)].concat(), &[0.0, 1.0]);
    let powers = [&vec![b'('; 63][..], b"t-1", &b")^1".repeat(63)].concat();
    expands(&powers, &[-1.0, 1.0]);
}

/// Brackets as deep as a text has room for, on a stack of 256 KB.
#[test]
fn small_stack() {
    let texts = [
        [&[b'('; 127][..], b"t", &[b')'; 127]].concat(),
        [&[b'('; 126][..], b"t^5", &[b')'; 126]].concat(),
        vec![b'('; MOST_BYTES],
        [&b"(t*"[..].repeat(63), &b"0"[..], &[b')'; 63]].concat(),
    ];
    let refusals = || texts.map(|text| formula_roots(Sine::OfExact, &text, TOL).refusal);
    let thread = thread::Builder::new().stack_size(1 << 18).spawn(refusals);
    assert_eq!(thread.unwrap().join().unwrap(), [0, 14, 13, 2]);
}

/// A text may have 255 bytes; a longer one is refused before it is read.
#[test]
fn long_texts() {
    for n in [256, 257, 300, 510, 511, 512, 65_536, 1_000_000] {
        for text in [vec![b't'; n], vec![b'('; n], vec![b'0'; n], b"t+".repeat(n / 2 + 1)] {
            let roots = Sine::BOTH.map(|sine| formula_roots(sine, &text, TOL).refusal);
            assert_eq!((formula_coefficients(&text), roots), (Err(21), [21; 2]), "{n} bytes");
        }
    }
    let sum = [&b"t"[..], &b"+1".repeat(127)].concat();
    assert_eq!(sum.len(), MOST_BYTES);
    expands(&sum, &[127.0, 1.0]);
    refused(&[b't'; MOST_BYTES], 13);
}

/// Texts at whose every place something is changed.
const CHANGED: [&[u8]; 4] =
    [b"(t-2)^2*(t+1)", b"90071992*100000000+54740992", b"t^3*(2*t-1)", b"((t-1)*(t+1))^2-9"];

/// Each byte in each place, and each place dropped, doubled and cut at. What is lent behind a text
/// is no part of it.
#[test]
fn each_byte_in_each_place() {
    Sine::BOTH.into_iter().for_each(each_byte_in);
}

fn each_byte_in(sine: Sine) {
    let add = |all: &mut Outcome, text: &[u8]| add(all, sine, text, TOL);
    let outcome = outcome(sine, |all| {
        for text in CHANGED {
            for at in 0..text.len() {
                for byte in 0..=255 {
                    let mut changed = text.to_vec();
                    changed[at] = byte;
                    add(all, &changed);
                    changed[at] = text[at];
                    changed.insert(at, byte);
                    add(all, &changed);
                }
                add(all, &[&text[..at], &text[at + 1..]].concat());
                add(all, &text[..at]);
                add(all, &text[at..]);
            }
        }
        for (_, text) in telling::FORMULAS {
            add(all, text);
        }
    });
    all_equal("each byte in each place", &outcome);
}

#[test]
fn every_short_text() {
    for sine in Sine::BOTH {
        let outcome =
            outcome(sine, |all| short_texts(6).for_each(|text| add(all, sine, &text, TOL)));
        all_equal("every text of up to 6 characters", &outcome);
        let met = |name| outcome.met.count(name);
        assert_eq!(outcome.inputs, 299_593);
        assert_eq!(met("answered") + met("refused 2"), 383);
        assert_eq!(met("refused 13"), 299_210);
    }
}

/// Every edge as the tolerance, which decides where roots are joined.
#[test]
fn tolerances() {
    for sine in Sine::BOTH {
        let outcome = outcome(sine, |all| {
            for tol in EDGES.map(f64::from_bits).into_iter().flat_map(|x| [x, -x]) {
                for text in CHANGED.into_iter().chain([&b"t^5"[..], b"7", b"(t-1000)^2-1"]) {
                    add(all, sine, text, tol);
                }
            }
        });
        all_equal("tolerances", &outcome);
    }
}

/// With every short text, and each byte in each place, 5,000,000 in either mode.
const EACH: u64 = 1_170_000;

fn made_formulas(seed: u64) {
    Sine::BOTH.into_iter().for_each(|sine| made_formulas_in(sine, seed));
}

fn made_formulas_in(sine: Sine, seed: u64) {
    let outcome = made(sine, seed, EACH);
    all_equal(&format!("made formulas, seed {seed}"), &outcome);
    outcome.met.ask("formulas");
    let met = |name| outcome.met.count(name);
    for (name, least) in [
        ("answered", EACH / 3),
        ("refused 2", EACH / 10),
        ("refused 13", EACH / 10),
        ("refused 14", EACH / 20),
        ("refused 15", EACH / 20),
    ] {
        assert!(met(name) >= least, "{name}: {}", met(name));
    }
}

#[test]
fn made_formulas_first() {
    made_formulas(761);
}

#[test]
fn made_formulas_second() {
    made_formulas(762);
}

#[test]
fn made_formulas_third() {
    made_formulas(763);
}

#[test]
fn made_formulas_fourth() {
    made_formulas(764);
}

/// On a refusal every byte of the lent buffer is as it was; on an answer, every byte behind it.
#[test]
fn buffers() {
    let before: Vec<u8> = (0..130).map(|i| i as u8 ^ 0x5A).collect();
    let long = [b't'; 256];
    let texts: [(&[u8], u64); 6] =
        [(b"t-1", 0), (b"7", 2), (b"2t", 13), (b"t^5", 14), (b"99999999^2", 15), (&long, 21)];
    let unchanged = |said: u64, size: u64, room: usize, out: &[u8], refusal: u64| {
        let whole = if room as u64 >= size { size } else { 0 };
        assert_eq!(said, if refusal > 0 { refusal } else { whole }, "into {room} bytes");
        let stored = if said == size { size as usize } else { 0 };
        assert_eq!(out[stored..], before[stored..], "into {room} bytes");
    };
    for room in 0..=130 {
        for (text, refusal) in texts {
            for sine in Sine::BOTH {
                let mut out = before.clone();
                let said = formula_roots_bytes(sine, text, TOL, &mut out[..room]);
                unchanged(said, 112, room, &out, refusal);
            }
            let mut out = before.clone();
            let said = formula_coefficients_bytes(text, &mut out[..room]);
            // a constant has coefficients, and no roots
            unchanged(said, 48, room, &out, if refusal == 2 { 0 } else { refusal });
        }
    }
}
