//! Inputs of the band, of quadratic factors and of the finished roots, and the ways that the
//! reference build goes on them.
use crate::compare::Shown;
use crate::compare::answer::ROOTS;
use crate::inputs::lists::{List, list};
use crate::inputs::random::Random;
use crate::truth::exact::{cbrt, ldexp};
use crate::truth::kind::Kind;
use crate::truth::methods;
use crate::truth::reference::patched::poly::{self, Candidates, Pairs, Scaled};

/// A list's polynomial.
pub fn scaled((a, d): List) -> Scaled {
    Scaled::new(&a[..=d as usize])
}

/// Of either sign, from 2^-60 to 2 in size, or a power of two.
fn small(r: &mut Random) -> f64 {
    let x = if r.below(2) == 0 { 1.0 } else { 1.0 + r.unit() };
    ldexp(if r.below(2) == 0 { x } else { -x }, -(r.below(61) as i32))
}

/// A few steps from x, a little beside it, or x itself.
pub fn near(r: &mut Random, x: f64) -> f64 {
    match r.below(4) {
        0 => x,
        1 => f64::from_bits(x.to_bits().wrapping_add(r.below(5)).wrapping_sub(2)),
        2 => x + small(r),
        _ => x * (1.0 + small(r)),
    }
}

/// The middles of the factors of s, roots and pairs of them.
fn middles(s: &Scaled) -> Vec<f64> {
    let all = poly::factorize(s, 0);
    let pairs = all.quad[..all.nquad].iter().map(|(al, _)| -0.5 * al);
    all.lin[..all.nlin].iter().copied().chain(pairs).collect()
}

/// A place: at a root or the middle of a pair, near one, within the roots' bound, or any double.
pub fn place(r: &mut Random, s: &Scaled) -> f64 {
    match r.below(8) {
        0..=3 => {
            let all = middles(s);
            let x = if all.is_empty() { 0.0 } else { all[r.below(all.len() as u64) as usize] };
            near(r, x)
        }
        4 | 5 => 4.0 * r.unit() - 2.0,
        6 => r.any(),
        _ => [0.0, -0.0, f64::INFINITY, f64::NEG_INFINITY, f64::NAN, r.subnormal()]
            [r.below(6) as usize],
    }
}

/// A list, and a place for its polynomial.
pub fn placed(r: &mut Random, which: usize, n: u64) -> (List, f64) {
    let l = list(r, which, n);
    let y = place(r, &scaled(l));
    (l, y)
}

/// tol * (unit + |y|)
pub fn base(s: &Scaled, y: f64, tol: f64) -> f64 {
    tol * (s.unit + y.abs())
}

/// Half a distance: at the caller's band, at the band, next to them, in between, small, or any.
pub fn half(r: &mut Random, s: &Scaled, y: f64, tol: f64) -> f64 {
    let base = base(s, y, tol);
    let noise = s.noise(y);
    match r.below(8) {
        0 => near(r, base),
        1 => near(r, noise),
        2 => near(r, base + noise),
        3 => base + noise * r.unit(),
        4 => base + noise * (1.0 + r.unit()),
        5 => r.unit(),
        6 => base + small(r),
        _ => r.any(),
    }
}

/// The ends of an interval about y, or not about it.
pub fn interval(r: &mut Random, y: f64) -> [f64; 2] {
    let reach = match r.below(8) {
        0..=3 => ldexp(1.0 + r.unit(), 1 - r.below(40) as i32),
        4 => f64::INFINITY,
        5 => 0.0,
        _ => r.any(),
    };
    if r.below(16) == 0 { [r.any(), r.any()] } else { [y - reach, y + reach] }
}

/// A distance to a neighbour.
pub fn gap(r: &mut Random) -> f64 {
    match r.below(4) {
        0 => f64::INFINITY,
        1 | 2 => ldexp(1.0 + r.unit(), 2 - r.below(50) as i32),
        _ => r.any(),
    }
}

/// A quadratic factor: one of s, two of its places together, one that is nearly a square, or any.
pub fn quadratic(r: &mut Random, s: &Scaled) -> [f64; 2] {
    match r.below(8) {
        0..=2 => {
            let all = poly::factorize(s, 0);
            match all.nquad {
                0 => [-2.0 * all.lin[0], all.lin[0] * all.lin[0]],
                n => {
                    let (al, be) = all.quad[r.below(n as u64) as usize];
                    [al, be]
                }
            }
        }
        3 | 4 => {
            let (x, y) = (place(r, s), place(r, s));
            [-x - y, x * y]
        }
        5 | 6 => {
            let y = place(r, s);
            let be = near(r, y * y);
            [-2.0 * y, be]
        }
        _ => [r.any(), r.any()],
    }
}

/// Candidates with their count, and complex pairs with theirs.
#[derive(Clone, Copy, Default)]
pub struct Handed {
    pub value: [f64; 4],
    pub mult: [u8; 4],
    pub n: u64,
    pub pair: [(f64, f64); 2],
    pub m: u64,
}

impl Handed {
    /// Four doubles, four bytes, and the pairs.
    pub fn bytes(&self) -> [u8; 68] {
        let mut out = [0; 68];
        let mut put = |at: usize, x: f64| out[at..at + 8].copy_from_slice(&f64::to_le_bytes(x));
        for i in 0..4 {
            put(8 * i, self.value[i]);
        }
        for (i, (centre, half)) in self.pair.into_iter().enumerate() {
            put(36 + 16 * i, centre);
            put(44 + 16 * i, half);
        }
        out[32..36].copy_from_slice(&self.mult);
        out
    }

    pub fn candidates(&self) -> Candidates {
        Candidates { value: self.value, mult: self.mult.map(u32::from), len: self.n as usize }
    }

    pub fn pairs(&self) -> Pairs {
        let [p, q] = self.pair;
        Pairs { centre: [p.0, q.0], half: [p.1, q.1], len: self.m as usize }
    }
}

impl Shown for Handed {
    fn shown(&self) -> String {
        let pair = self.pair.map(|(centre, half)| [centre, half].shown());
        format!(
            "{} of ({}) times {:?}, {} of {pair:?}",
            self.n,
            self.value.shown(),
            self.mult,
            self.m
        )
    }
}

/// The count, and each place with its multiplicity and the kind of a root that no yes helped to
/// form; behind so many the number of the kind is 0.
pub fn numbers(count: usize, value: [f64; 4], mult: [u32; 4], of_kind: usize) -> [f64; ROOTS] {
    let kind = |k| if k < of_kind { Kind::of(mult[k], false).number() } else { 0 };
    let each = (0..4).flat_map(|k| [value[k], f64::from(mult[k]), f64::from(kind(k))]);
    let mut all = [count as f64].into_iter().chain(each);
    std::array::from_fn(|_| all.next().expect("four places"))
}

/// Of finished roots.
pub fn root_numbers(c: &Candidates) -> [f64; ROOTS] {
    numbers(c.len, c.value, c.mult, c.len)
}

/// Of candidates, also of those behind the last, and of the pairs the count, and each centre and
/// half.
pub fn found_numbers(c: &Candidates, p: &Pairs) -> [f64; ROOTS + 5] {
    let pairs = [p.len as f64, p.centre[0], p.half[0], p.centre[1], p.half[1]];
    [&numbers(c.len, c.value, c.mult, 4)[..], &pairs].concat().try_into().unwrap()
}

/// Any candidates and pairs.
pub fn handed(r: &mut Random) -> Handed {
    let mut any = || std::array::from_fn(|_| if r.below(4) == 0 { r.any() } else { r.unit() });
    let (value, [a, b, c, d]) = (any(), any());
    let mult = std::array::from_fn(|_| match r.below(8) {
        0 => r.next() as u8,
        1 => 0,
        _ => 1 + r.below(4) as u8,
    });
    Handed { value, mult, n: r.below(5), pair: [(a, b), (c, d)], m: r.below(3) }
}

/// Candidates about the roots of s, many of them equal or near each other, and now and then not
/// finite; simple ones, or with multiplicities of 1 to 4, or of any byte.
pub fn candidates(r: &mut Random, s: &Scaled) -> Handed {
    let mut all = Handed { n: r.below(5).max(r.below(5)), ..Handed::default() };
    let how = r.below(8);
    for k in 0..4 {
        all.value[k] = match r.below(8) {
            0 => [0.0, -0.0][r.below(2) as usize],
            1..=4 if k > 0 => {
                let x = all.value[r.below(k as u64) as usize];
                near(r, x)
            }
            5 if r.below(4) == 0 => {
                [f64::INFINITY, f64::NEG_INFINITY, r.any()][r.below(3) as usize]
            }
            _ => place(r, s),
        };
        // one NaN: the Rust tells the signs of NaNs apart
        if all.value[k].is_nan() {
            all.value[k] = f64::NAN.abs();
        }
        all.mult[k] = match how {
            0..=3 => 1,
            4..=6 => 1 + r.below(4) as u8,
            _ => r.next() as u8,
        };
    }
    all
}

// ---- the ways

/// How `within_band` decides.
#[derive(Clone, Copy, PartialEq, Debug)]
pub enum Within {
    ByBase,
    BeyondCrude,
    ByNoise,
    BeyondNoise,
}

pub fn within(s: &Scaled, half: f64, y: f64, tol: f64) -> Within {
    let base = base(s, y, tol);
    if half <= base {
        return Within::ByBase;
    }
    if methods::powi(half - base, s.d as u32) * s.f[s.d].abs() > budget(s, y) {
        return Within::BeyondCrude;
    }
    if half <= base + s.noise(y) { Within::ByNoise } else { Within::BeyondNoise }
}

fn budget(s: &Scaled, y: f64) -> f64 {
    let mag = s.f[..=s.d].iter().rev().fold(0.0, |acc, c| acc * y.abs() + c.abs());
    4.0 * f64::EPSILON * mag
}

/// The radius that the Taylor coefficient k says, for k from 2 to the degree.
pub fn radius(s: &Scaled, y: f64, k: usize) -> Option<f64> {
    if k > s.d {
        return None;
    }
    let t = poly::taylor(&s.f, s.d, y)[k];
    let q = budget(s, y) / t.abs();
    let root = [f64::sqrt, cbrt, |q| f64::sqrt(q).sqrt()][k - 2];
    (t != 0.0).then(|| root(q))
}

/// Why Newton's turns end, on f' (`critical_point`) or on f (`polish`).
#[derive(Clone, Copy, PartialEq, Debug)]
pub enum Ends {
    Flat,
    Outside,
    Long,
    NotANumber,
    Still,
    NoGain,
    Small,
    AllTurns,
}

/// How many turns `critical_point` takes, and why it ends.
pub fn critical_way(s: &Scaled, mut y: f64, [lo, hi]: [f64; 2]) -> (usize, Ends) {
    for turn in 0..4 {
        let (d1, d2) = poly::derivs12(&s.f, s.d, y);
        if d1 == 0.0 || d2 == 0.0 {
            return (turn, Ends::Flat);
        }
        let next = y - d1 / d2;
        if !(lo <= next && next <= hi) {
            return (turn, Ends::Outside);
        }
        let (n1, _) = poly::derivs12(&s.f, s.d, next);
        if n1.abs() >= d1.abs() || n1.is_nan() {
            return (turn, Ends::NoGain);
        }
        y = next;
    }
    (4, Ends::AllTurns)
}

/// How many turns `polish` takes, and why it ends.
pub fn polish_way(s: &Scaled, mut y: f64, gap: f64) -> (usize, Ends) {
    for turn in 0..4 {
        let (fy, dy) = poly::value_slope_compensated(&s.f, s.d, y);
        if fy == 0.0 || dy == 0.0 {
            return (turn, Ends::Flat);
        }
        let step = fy / dy;
        if step.is_nan() {
            return (turn, Ends::NotANumber);
        }
        if step.abs() > 0.25 * gap {
            return (turn, Ends::Long);
        }
        let next = y - step;
        if next == y {
            return (turn, Ends::Still);
        }
        let (nf, _) = poly::value_slope_compensated(&s.f, s.d, next);
        if nf.abs() >= fy.abs() || nf.is_nan() {
            return (turn, Ends::NoGain);
        }
        y = next;
        if step.abs() <= f64::EPSILON * y.abs() {
            return (turn + 1, Ends::Small);
        }
    }
    (4, Ends::AllTurns)
}
