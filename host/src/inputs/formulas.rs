//! Formulas to compare on: texts that the grammar derives, of every length, at each limit and beyond
//! it, and damaged ones.
use crate::inputs::derived::{ANY, LIMITS, Within, from_to, one_in, plus_or_minus, sum};
use crate::inputs::random::Random;
use crate::truth::formula::MOST_BYTES;

/// The kinds of texts.
pub const KINDS: [&str; 12] = [
    "of any shape and length",
    "within the limits, of any length",
    "as mechanics write them",
    "written out by powers",
    "of parts near the limits",
    "about 2^53",
    "of degree 4 or 5",
    "beyond both limits",
    "with many digits",
    "in deep brackets",
    "damaged",
    "of any bytes",
];

/// A text of a kind, in place of what was there.
pub fn text(r: &mut Random, which: usize, out: &mut Vec<u8>) {
    out.clear();
    match which {
        0 => derived(r, ANY, out),
        1 => derived(r, LIMITS, out),
        2 => out.extend(mechanics(r)),
        3 => by_powers(r, out),
        4 => near_limits(r, out),
        5 => about_largest(r, out),
        6 => about_degree(r, out),
        7 => beyond_both(r, out),
        8 => many_digits(r, out),
        9 => deep(r, out),
        10 => damaged(r, out),
        _ => any_bytes(r, out),
    }
    out.truncate(MOST_BYTES);
}

fn one_of<'a>(r: &mut Random, all: &[&'a str]) -> &'a str {
    all[r.below(all.len() as u64) as usize]
}

/// Every length as often, and short ones more.
fn length(r: &mut Random) -> usize {
    let most = if one_in(r, 4) { MOST_BYTES } else { 24 };
    from_to(r, 1, most)
}

fn derived(r: &mut Random, within: Within, out: &mut Vec<u8>) {
    let n = length(r);
    sum(r, n, within, out);
}

/// A whole number, small more often.
fn small(r: &mut Random) -> u64 {
    match r.below(8) {
        0 => 0,
        1..=4 => 1 + r.below(9),
        5 | 6 => r.below(100),
        _ => r.below(100_000),
    }
}

/// Products of lines and quadratics, such as (t-2)^2*(t+1), with a number before or behind.
pub fn mechanics(r: &mut Random) -> Vec<u8> {
    let (mut out, mut rest) = (Vec::new(), 1 + r.below(4));
    if one_in(r, 3) {
        out.extend(format!("{}*", 1 + small(r)).bytes());
    }
    while rest > 0 {
        let power = 1 + r.below(rest);
        let sign = plus_or_minus(r) as char;
        let (of, used) = match r.below(8) {
            0 => ("t".to_string(), 1),
            1 if power > 1 => (format!("(t^2{sign}{}*t+{})", small(r), small(r)), 2),
            2 => (format!("({}{sign}{}*t)", small(r), 1 + small(r)), 1),
            3 => (format!("({}*t{sign}{})", 1 + small(r), small(r)), 1),
            _ => (format!("(t{sign}{})", small(r)), 1),
        };
        let times = if used == 1 { power } else { 1 };
        let again = if times > 1 { format!("^{times}") } else { String::new() };
        rest -= used * times;
        out.extend(format!("{of}{again}{}", if rest > 0 { "*" } else { "" }).bytes());
    }
    if one_in(r, 4) {
        out.push(plus_or_minus(r));
        out.extend(small(r).to_string().bytes());
    }
    out
}

/// Such as 3*t^4-2*t+7, its powers in any order, some twice.
fn by_powers(r: &mut Random, out: &mut Vec<u8>) {
    for n in 0..1 + r.below(7) {
        if n > 0 {
            out.push(plus_or_minus(r));
        }
        let factor = small(r);
        out.extend(match r.below(6) {
            0 => factor.to_string().into_bytes(),
            1 => b"t".to_vec(),
            2 => format!("{factor}*t").into_bytes(),
            3 => format!("t^{}", r.below(5)).into_bytes(),
            _ => format!("{factor}*t^{}", r.below(5)).into_bytes(),
        });
    }
}

/// Parts of which few make one beyond a limit.
const NEAR: [&str; 24] = [
    "t",
    "t",
    "t^2",
    "t^3",
    "t^4",
    "0",
    "1",
    "2",
    "(t+1)",
    "(t-t)",
    "(1-1)",
    "(t-1)^2",
    "(9*t)^4",
    "1000",
    "(1000*t)",
    "10000",
    "(10000*t)",
    "67108864",
    "94906265",
    "94906266",
    "134217728",
    "999999999",
    "(t^4-t^4+1)",
    "(999999*t^2+1)",
];

fn near_limits(r: &mut Random, out: &mut Vec<u8>) {
    let (mut open, parts) = (0, 1 + r.below(7));
    for n in 0..parts {
        if one_in(r, 6) {
            out.push(b'(');
            open += 1;
        }
        out.extend(one_of(r, &NEAR).bytes());
        // some of them have a power already
        if out[out.len().saturating_sub(2)] != b'^' && one_in(r, 5) {
            out.extend([b'^', b'0' + r.below(10) as u8]);
        }
        if open > 0 && one_in(r, 3) {
            out.push(b')');
            open -= 1;
            if one_in(r, 3) {
                out.extend([b'^', b'0' + r.below(4) as u8]);
            }
        }
        if n + 1 < parts {
            out.push(b"**+-"[r.below(4) as usize]);
        }
    }
    out.extend(vec![b')'; open]);
}

/// 2^53, or one or two more or less.
fn largest(r: &mut Random) -> u64 {
    (1 << 53) - 2 + r.below(5)
}

/// Such as 90071992*100000000+54740992: the number, or the size of a coefficient, is the largest one
/// or next to it.
fn about_largest(r: &mut Random, out: &mut Vec<u8>) {
    let (n, a) = (largest(r), 9_100_000 + r.below(990_000_000));
    let (b, c) = (n / a, n % a);
    let more = (b + 1) * a - n;
    let power = r.below(5);
    out.extend(
        match r.below(13) {
            0 => format!("{a}*{b}+{c}"),
            1 => format!("{c}+{b}*{a}"),
            2 => format!("0-{a}*{b}-{c}"),
            3 => format!("({a}*{b}+{c})*t^{power}"),
            4 => format!("{a}*{b}*t^{power}+t^2-1+{c}*t^{power}"),
            5 => format!("0-{a}*t^{power}*{b}-{c}*t^{power}"),
            // the middle coefficient of a product
            6 => format!("({a}*t+{c})*(t+{b})"),
            7 => format!("({a}-{c}*t)*(t-{b})"),
            8 => format!("(({a}*t+{c})*t+1)*({b}+t)"),
            // less than it, and more before that
            9 => format!("{a}*{}-{more}", b + 1),
            10 => format!("{a}*{b}+{c}+{}-{}", r.below(3), r.below(3)),
            11 => less_than_more(r, n),
            _ => of_powers(r),
        }
        .bytes(),
    );
}

/// The middle coefficient of a product is n, the difference of one that is mostly larger and a few.
fn less_than_more(r: &mut Random, n: u64) -> String {
    const PART: u64 = 100_000_000;
    let (factor, more) = (2 + r.below(998), r.below(1000));
    let first = (n + more).div_ceil(factor);
    let (high, low) = (first / PART, first % PART);
    let less = first * factor - n;
    format!("(({high}*{PART}+{low})*t+{less})*({factor}-t)")
}

/// The same as powers, and products of them.
fn of_powers(r: &mut Random) -> String {
    let power = one_of(r, &["0", "1", "3"]);
    match r.below(8) {
        0 => format!("2^9^{power}"),
        1 => "(2^9)^5*256".to_string(),
        2 => "(2^9)^5*257".to_string(),
        3 => "67108864*134217728".to_string(),
        4 => "(67108864*t+67108864)^2".to_string(),
        5 => "(67108864*t-67108865)^2".to_string(),
        6 => format!("{}^2*t^{power}", 94_906_264 + r.below(5)),
        _ => format!("(8*t^2-{})^{}", 1 + r.below(4), r.below(10)),
    }
}

/// Factors whose degrees add to 4 or 5, or would if nothing cancelled.
fn about_degree(r: &mut Random, out: &mut Vec<u8>) {
    let mut rest = 4 + r.below(2) as usize;
    while rest > 0 {
        let degree = from_to(r, 1, rest);
        rest -= degree;
        out.extend(
            match r.below(10) {
                0 => format!("(t^{degree}-t^{degree})"),
                1 => format!("(t^{degree}+1-t^{degree})"),
                2 => format!("0*t^{degree}"),
                3 => format!("(t-1)^{degree}"),
                4 => format!("(t^{degree})^{}", r.below(3)),
                5 => format!("(2*t^{degree}-t)"),
                6 => vec!["t"; degree].join("*"),
                7 => format!("(t^{degree}-{})", small(r)),
                _ => format!("t^{degree}"),
            }
            .bytes(),
        );
        if rest > 0 {
            out.push(if one_in(r, 8) { plus_or_minus(r) } else { b'*' });
        }
    }
    if one_in(r, 4) {
        out.splice(0..0, one_of(r, &["0*", "1-", "t^5*", "(t^4-t)*"]).bytes());
    }
}

/// Products of degree 5 or more with a coefficient above 2^53: 14 decides where one product meets
/// both, and else what is met first.
fn beyond_both(r: &mut Random, out: &mut Vec<u8>) {
    let [a, b] = [0; 2].map(|_| 90_000_000 + r.below(909_999_999));
    let (p, q) = (from_to(r, 1, 4), from_to(r, 1, 4));
    out.extend(
        match r.below(9) {
            0 => format!("({a}*t^{p})*({b}*t^{q})"),
            1 => format!("{a}*t^{p}*({b}*t^{q}+1)"),
            2 => format!("{a}*{b}*t^{p}*t^{q}"),
            3 => format!("t^{p}*t^{q}*{a}*{b}"),
            4 => format!("({a}*t^{p})*(t^{q}*{b}*{a})"),
            5 => format!("({}*t)^9", 10u64.pow(r.below(8) as u32) + r.below(3)),
            6 => format!("({a}*t^{p})^{}", r.below(10)),
            7 => format!("t^{p}*(t^{q}+{a}*{b})"),
            _ => format!("({a}*t^{p}-{a}*t^{p})*({b}*t^{q})*{b}"),
        }
        .bytes(),
    );
}

/// Numbers of one to ten digits, with zeros in front.
fn many_digits(r: &mut Random, out: &mut Vec<u8>) {
    for n in 0..1 + r.below(3) {
        if n > 0 {
            out.push(b"+-*"[r.below(3) as usize]);
        }
        let most = if one_in(r, 8) { 10 } else { 9 };
        let digits = from_to(r, 1, most);
        let zeros = if one_in(r, 2) { 0 } else { from_to(r, 0, digits) };
        let digit = |i| if i < zeros { b'0' } else { b'0' + r.below(10) as u8 };
        out.extend((0..digits).map(digit).collect::<Vec<u8>>());
        match r.below(4) {
            0 => out.extend(b"*t"),
            1 => out.extend([b'^', b'0' + r.below(10) as u8]),
            _ => {}
        }
    }
}

/// Up to 127 of them around little, now and then one too many or too few.
fn deep(r: &mut Random, out: &mut Vec<u8>) {
    let inner = one_of(r, &["t", "t-1", "t^2-2", "2", "", "t^5", "-t", "(t)*(t-3)"]);
    let most = (MOST_BYTES - inner.len()) / 2;
    let open = if one_in(r, 6) { most } else { from_to(r, 1, most) };
    let close = match r.below(8) {
        0 => open - 1,
        1 if 2 * open + inner.len() < MOST_BYTES => open + 1,
        _ => open,
    };
    out.extend(vec![b'('; open]);
    out.extend(inner.bytes());
    let powers = one_in(r, 4);
    for n in 0..close {
        out.push(b')');
        if powers && out.len() + 2 + close - n - 1 <= MOST_BYTES && one_in(r, 6) {
            out.extend([b'^', b'0' + r.below(3) as u8]);
        }
    }
    if one_in(r, 16) {
        out.clear();
        out.extend(vec![b'('; from_to(r, 128, MOST_BYTES)]);
    }
}

/// What stands in texts, these many, and what does not.
const LETTERS: &[u8] = b"t0123456789()+-*^ T[]/.,xX\t\n\0";
const OF_TEXTS: u64 = 17;

/// One of the others with a byte changed, put in, dropped, doubled, or the end cut off.
fn damaged(r: &mut Random, out: &mut Vec<u8>) {
    let which = r.below(10) as usize;
    text(r, which, out);
    for _ in 0..=r.below(3) / 2 {
        damage(r, out);
    }
}

/// One of the first, of all, or now and then any byte.
pub fn letter(r: &mut Random) -> u8 {
    match r.below(8) {
        0 => r.next() as u8,
        1..=3 => LETTERS[r.below(LETTERS.len() as u64) as usize],
        _ => LETTERS[r.below(OF_TEXTS) as usize],
    }
}

fn damage(r: &mut Random, out: &mut Vec<u8>) {
    let letter = letter(r);
    if out.is_empty() {
        return out.push(letter);
    }
    let at = r.below(out.len() as u64) as usize;
    match r.below(8) {
        0 | 1 => out[at] = letter,
        2 => out[at] ^= 0x80,
        3 => out.insert(at, letter),
        4 => out.push(letter),
        5 => drop(out.remove(at)),
        6 => out.insert(at, out[at]),
        _ => out.truncate(at),
    }
    out.truncate(MOST_BYTES);
}

/// By chance: letters of texts, or any.
fn any_bytes(r: &mut Random, out: &mut Vec<u8>) {
    let (n, any) = (length(r) - 1, one_in(r, 2));
    let few = if any { n } else { n % 9 };
    out.extend((0..few).map(|_| match any {
        true => r.next() as u8,
        false => LETTERS[r.below(OF_TEXTS) as usize],
    }));
}

/// Every text of up to `most` characters of these.
pub fn short_texts(most: u32) -> impl Iterator<Item = Vec<u8>> {
    const OF: &[u8; 8] = b"t2()+*^-";
    let text = |length: u32, n: usize| (0..length).map(|i| OF[(n >> (3 * i)) % 8]).collect();
    (0..=most).flat_map(move |length| (0..8usize.pow(length)).map(move |n| text(length, n)))
}

#[cfg(test)]
mod tests {
    use super::*;
    use crate::truth::formula::expanded;

    #[test]
    fn what_each_kind_is_there_for() {
        let (mut r, mut out) = (Random::new(6), Vec::new());
        for (which, kind) in KINDS.iter().enumerate() {
            let mut met = [0; 16];
            for _ in 0..4_000 {
                text(&mut r, which, &mut out);
                assert!(out.len() <= MOST_BYTES);
                met[match expanded(&out) {
                    Ok(coeffs) if coeffs.len() < 2 => 2,
                    Ok(_) => 0,
                    Err(fault) => fault.refusal() as usize,
                }] += 1;
            }
            let [answered, constant, none, degree, size] = [0, 2, 13, 14, 15].map(|n| met[n]);
            let right = match which {
                0 => answered.min(degree).min(size) > 500 && none == 0,
                1 => answered > 1_500 && answered + constant == 4_000,
                2 | 3 => answered > 3_500,
                4 => answered.min(degree).min(size) > 500,
                5 => answered.min(size) > 1_000,
                6 => answered.min(degree) > 1_000,
                7 => degree.min(size) > 1_000,
                8 => answered > 1_000 && none > 50,
                9 => answered.min(none) > 1_000,
                10 => answered > 200 && none > 2_000,
                _ => none > 3_000,
            };
            assert!(right, "{kind}: {met:?}");
        }
    }

    #[test]
    fn short_texts_are_all_different() {
        let mut all: Vec<Vec<u8>> = short_texts(4).collect();
        all.sort();
        all.dedup();
        assert_eq!(all.len(), 1 + 8 + 64 + 512 + 4096);
    }
}
