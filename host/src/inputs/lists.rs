//! Coefficient lists to compare on: as `Scaled::new` gets them, finite, the first and the last not
//! zero; and as halls hand them in.
use crate::inputs::polynomials::{polynomial, product};
use crate::inputs::random::{EDGES, Random};
use crate::truth::exact::{ldexp, thresholds};

/// The kinds of lists; the first eight are those of `polynomials`.
pub const KINDS: [&str; 16] = [
    "of any doubles",
    "with roots apart",
    "with multiple roots",
    "with near-multiple roots",
    "with tight triples",
    "with complex pairs",
    "with sizes far apart",
    "with zeros inside",
    "of every exponent",
    "with small roots",
    "with two sizes of small roots",
    "with gaps of 8 bits or nearly",
    "that underflow in the scaling",
    "of edges",
    "of small whole numbers",
    "of near squares",
];

const SIGN: u64 = 1 << 63;

/// Coefficients, ascending, with zeros above the degree, and the degree.
pub type List = ([f64; 5], u64);

/// A list of the kind with this number; those of one kind are told apart by `n`.
pub fn list(r: &mut Random, which: usize, n: u64) -> List {
    let d = [0, 1, 2, 3, 3, 3, 4, 4, 4, 4][r.below(10) as usize];
    let steep = 3 + r.below(2) as usize;
    match which {
        0..=7 => {
            let (p, _) = polynomial(r, which, d);
            let p = if r.below(2) == 0 { p } else { stretched(r, p) };
            usable(r, p, d)
        }
        8 => {
            let p = std::array::from_fn(|i| {
                of_exponent(r, if i == d { n % 2047 } else { n / 7 * i as u64 % 2047 })
            });
            usable(r, p, d)
        }
        9 => with_small_roots(r, steep),
        10 => {
            let p = grouped(r, 4, 2);
            usable(r, p, 4)
        }
        11 => {
            let p = stepped(r, steep);
            usable(r, p, steep)
        }
        12 => {
            let d = d.max(2);
            let p = underflowing(r, d);
            usable(r, p, d)
        }
        13 => {
            let edge = |r: &mut Random| EDGES[r.below(25) as usize] | r.next() & SIGN;
            let p = std::array::from_fn(|_| f64::from_bits(edge(r)));
            usable(r, p, d)
        }
        14 => {
            let p = std::array::from_fn(|_| r.below(13) as f64 - 6.0);
            usable(r, p, d)
        }
        _ => {
            let p = near_square(r);
            usable(r, p, 4)
        }
    }
}

/// A list of degree d, 3 or 4, some of whose roots are smaller by far than the others, or nearly so.
pub fn with_small_roots(r: &mut Random, d: usize) -> List {
    let p = grouped(r, d, 1);
    usable(r, p, d)
}

/// p up to the degree d; what is not finite becomes 1, and so does a first or last zero, or the
/// smallest double.
fn usable(r: &mut Random, p: [f64; 5], d: usize) -> List {
    let mut a = [0.0; 5];
    for i in 0..=d {
        a[i] = if p[i].is_finite() { p[i] } else { 1.0 };
    }
    for i in [0, d] {
        if a[i] == 0.0 {
            a[i] = if r.below(4) == 0 { f64::from_bits(1) } else { 1.0 };
        }
    }
    (a, d as u64)
}

/// With this exponent field, and a fraction of any number of digits.
fn of_exponent(r: &mut Random, field: u64) -> f64 {
    let fraction = r.next() >> 12 & u64::MAX << r.below(53);
    f64::from_bits(field << 52 | fraction | r.next() & SIGN)
}

/// From -k to k.
fn about(r: &mut Random, k: i32) -> i32 {
    r.below(2 * k as u64 + 1) as i32 - k
}

/// The same in another unit of x, and times a power of two.
fn stretched(r: &mut Random, p: [f64; 5]) -> [f64; 5] {
    let reach = [3, 40, 250, 520][r.below(4) as usize];
    let (k, c) = (about(r, reach), about(r, 900));
    std::array::from_fn(|i| ldexp(p[i], k * i as i32 + c))
}

/// A polynomial of degree d at most 4 with roots of size about 1, or complex pairs of that size.
fn group(r: &mut Random, d: usize) -> [f64; 5] {
    match r.below(4) {
        0 if d >= 2 => polynomial(r, 5, d).0,
        1 => {
            let which = 1 + r.below(4) as usize;
            polynomial(r, which, d).0
        }
        _ => {
            let x = std::array::from_fn(|_| {
                (1.0 + r.unit()) * if r.below(2) == 0 { 1.0 } else { -1.0 }
            });
            product(&x, d)
        }
    }
}

/// `small` groups of roots smaller by far than the others, or nearly so, one below the other.
fn grouped(r: &mut Random, d: usize, small: usize) -> [f64; 5] {
    let mut p = [1.0, 0.0, 0.0, 0.0, 0.0];
    let (mut at, mut size) = (0, 0);
    for left in (0..=small).rev() {
        let n = if left == 0 { d - at } else { 1 + r.below((d - at - left) as u64) as usize };
        let q = group(r, n);
        p = times(&p, at, &std::array::from_fn(|i| ldexp(q[i], -size * (n as i32 - i as i32))), n);
        at += n;
        let most = [12, 40, 200][r.below(3) as usize];
        size += 4 + r.below(most) as i32;
    }
    if r.below(2) == 0 { p } else { stretched(r, p) }
}

/// The product of p, of degree n, and q, of degree m.
fn times(p: &[f64; 5], n: usize, q: &[f64; 5], m: usize) -> [f64; 5] {
    let mut all = [0.0; 5];
    for i in 0..=n {
        for j in 0..=m {
            all[i + j] += p[i] * q[j];
        }
    }
    all
}

/// Logarithms on the grid of 1/256 whose hull has gaps of 8 bits, or one step more or less; points
/// inside an edge lie on it, below, or nowhere.
pub fn steps(r: &mut Random, d: usize) -> [Option<i32>; 5] {
    let mut lg = [None; 5];
    let (mut at, mut slope) = (0, about(r, 30 * 256));
    let mut height = about(r, 300 * 256);
    lg[0] = Some(height);
    while at < d {
        let width = 1 + r.below((d - at) as u64) as usize;
        for i in 1..width {
            let on = height - slope * i as i32;
            lg[at + i] = [None, Some(on), Some(on - about(r, 400).abs())][r.below(3) as usize];
        }
        at += width;
        height -= slope * width as i32;
        lg[at] = Some(height);
        slope += 8 * 256 + [0, 0, 0, 1, -1, 256, -256, 5000][r.below(8) as usize];
    }
    lg
}

/// Coefficients with such logarithms.
fn stepped(r: &mut Random, d: usize) -> [f64; 5] {
    steps(r, d).map(|l| match l {
        None => 0.0,
        Some(l) => {
            let least = thresholds()[l.rem_euclid(256) as usize];
            let a = ldexp(least as f64, l.div_euclid(256) - 52);
            if r.below(2) == 0 { a } else { -a }
        }
    })
}

/// A list of degree 3 or 4 with three roots near each other, as near as 2^-26 of their size or not at
/// all, and of degree 4 one up to 2^40 times as large.
pub fn near_triple(r: &mut Random) -> List {
    let a = (1.0 + r.unit()) * if r.below(2) == 0 { 1.0 } else { -1.0 };
    let apart = ldexp(1.0, -(r.below(27) as i32));
    let near = |r: &mut Random| a * (1.0 + apart * (2.0 * r.unit() - 1.0));
    let far = ldexp(1.0 + r.unit(), about(r, 40)) * if r.below(2) == 0 { 1.0 } else { -1.0 };
    let x = [near(r), near(r), near(r), far];
    let d = 3 + r.below(2) as usize;
    let p = product(&x, d);
    let p = if r.below(2) == 0 { p } else { stretched(r, p) };
    usable(r, p, d)
}

/// Coefficients of which those inside become subnormal in the scaling, or 0.
fn underflowing(r: &mut Random, d: usize) -> [f64; 5] {
    let n = d as i32;
    let e = about(r, 180);
    let t = about(r, 200) - e * n / 2;
    std::array::from_fn(|i| {
        let top = t + e * (n - i as i32);
        let down = if i == 0 || i == d { 0 } else { 1020 + r.below(70) as i32 };
        let x = ldexp(1.0 + r.unit(), top - down);
        if r.below(2) == 0 { x } else { -x }
    })
}

/// (x² + s)² for an s of either sign, with the odd coefficients a little off 0, and now and then the
/// others off theirs.
fn near_square(r: &mut Random) -> [f64; 5] {
    let s = ldexp([1.0, 1.0, -1.0, 3.0, 1.0 + r.unit()][r.below(5) as usize], about(r, 8));
    let off =
        |r: &mut Random| ldexp(if r.below(2) == 0 { 1.0 } else { -1.0 }, -(r.below(50) as i32));
    let mut p = [s * s, 0.0, 2.0 * s, 0.0, 1.0];
    for (i, x) in p.iter_mut().enumerate() {
        if r.below(if i % 2 == 1 { 2 } else { 16 }) == 0 {
            *x += off(r) * s.abs().sqrt();
        }
    }
    if r.below(2) == 0 { p } else { stretched(r, p) }
}

fn zero(r: &mut Random) -> f64 {
    if r.below(2) == 0 { 0.0 } else { -0.0 }
}

/// What makes a list of the kind with this number; `n` tells those of one kind apart.
pub type Maker = fn(&mut Random, usize, u64, &mut Vec<f64>);

/// A list of the kind with this number as a hall hands it in: some begin with zeros, some end with
/// zeros, a few are too long or not finite. At most 32, as the hall file has it.
pub fn handed_in(r: &mut Random, which: usize, n: u64, all: &mut Vec<f64>) {
    let (a, d) = list(r, which, n);
    let kept = &a[..=d as usize];
    all.clear();
    if r.below(8) == 0 {
        let most = if r.below(8) == 0 { 7 } else { 5 - kept.len() as u64 };
        all.extend((0..r.below(most + 1)).map(|_| zero(r)));
    }
    all.extend(kept);
    if r.below(8) == 0 {
        all.extend((0..r.below(8)).map(|_| zero(r)));
    }
    match r.below(128) {
        0 => {
            let more = (0..1 + r.below(24)).map(|_| r.any());
            all.extend(more.map(|x| if x.is_finite() { x } else { 0.0 }));
        }
        1 => {
            let at = r.below(all.len() as u64) as usize;
            all[at] = [f64::INFINITY, f64::NEG_INFINITY, f64::NAN][r.below(3) as usize];
        }
        2 => {
            all.extend((0..r.below(12)).map(|_| zero(r)));
            all.push([f64::INFINITY, f64::NEG_INFINITY, f64::NAN][r.below(3) as usize]);
        }
        3 => all.truncate(r.below(2) as usize),
        _ => (),
    }
    all.truncate(32);
}

/// The same with up to 100 zeros behind it, now and then thousands; among all of them, or at the very
/// end, now and then any number or one that is not finite.
pub fn long(r: &mut Random, which: usize, n: u64, all: &mut Vec<f64>) {
    handed_in(r, which, n, all);
    let most = if r.below(16) == 0 { 4_000 } else { 100 };
    all.extend((0..=r.below(most)).map(|_| zero(r)));
    let last = all.len() - 1;
    let at = [last, r.below(all.len() as u64) as usize][r.below(2) as usize];
    match r.below(8) {
        0 => all[at] = r.any(),
        1 => all[at] = [f64::INFINITY, f64::NEG_INFINITY, f64::NAN][r.below(3) as usize],
        _ => (),
    }
}

/// Lists of 33 to some thousand: a few coefficients and zeros behind them, and then each of these
/// with one other number at places up to the sixth and the 33rd, and at the end.
pub fn long_lists() -> Vec<Vec<f64>> {
    let fronts: [&[f64]; 7] = [
        &[],
        &[7.0],
        &[-0.0, -0.0, 3.0],
        &[2.0, -3.0, 1.0],
        &[1.0, 0.0, 1.0],
        &[0.0, 1.0, 1.5, 1.0],
        &[2.0, 0.0, 0.0, 0.0, -2.0],
    ];
    let others = [1.0, f64::from_bits(1), f64::INFINITY, f64::NEG_INFINITY, f64::NAN];
    let mut all = Vec::new();
    for len in [33, 34, 64, 65, 100, 1_000, 4_097] {
        for (front, zero) in fronts.iter().flat_map(|front| [(front, 0.0), (front, -0.0)]) {
            let mut list = front.to_vec();
            list.resize(len, zero);
            for at in [3, 4, 5, 6, 31, 32, len - 2, len - 1] {
                all.extend(others.map(|x| {
                    let mut list = list.clone();
                    list[at] = x;
                    list
                }));
            }
            all.push(list);
        }
    }
    all
}

/// Tolerances at which something changes.
pub const TOLERANCES: [f64; 14] = [
    f64::NAN,
    0.0,
    -0.0,
    -1.0,
    f64::INFINITY,
    f64::NEG_INFINITY,
    f64::from_bits(1),
    f64::from_bits(0x000F_FFFF_FFFF_FFFF),
    f64::MIN_POSITIVE,
    f64::MAX,
    -f64::MAX,
    1.0,
    0.125,
    1e-7,
];

/// 2^-30, another power of two, one of those, or any double.
pub fn tolerance(r: &mut Random) -> f64 {
    match r.below(8) {
        0..=2 => ldexp(1.0, -30),
        3 | 4 => ldexp(1.0 + r.unit(), -(r.below(60) as i32)),
        5 | 6 => TOLERANCES[r.below(TOLERANCES.len() as u64) as usize],
        _ => r.any(),
    }
}
