//! The pair of a third angle, in both modes of its sine, on whole numbers. Nothing here calls the
//! port. As in `exact`, a number is guessed in floats, and exact tests of the middles decide.
use crate::truth::exact::{Wide, digits, near_root, nearest};

/// Of which c the sine s is: of the rounded one, as document 01 has it and the reference build, or
/// of the exact one, as document 02 has it ('A sharper sine in the third-angle pair').
#[derive(Clone, Copy, Debug, PartialEq, Eq)]
pub enum Sine {
    OfRounded,
    OfExact,
}

impl Sine {
    pub const BOTH: [Sine; 2] = [Sine::OfRounded, Sine::OfExact];

    /// In C; every other number than 0 is that of the rounded c.
    pub const fn number(self) -> u32 {
        match self {
            Sine::OfExact => 0,
            Sine::OfRounded => 1,
        }
    }

    pub fn words(self) -> &'static str {
        match self {
            Sine::OfRounded => "s of the rounded c",
            Sine::OfExact => "s of the exact c",
        }
    }
}

const ONE: u64 = 1 << 53;

/// 2^160 * (1 + v), rounded down, for |v| ≤ 1.
fn bound(v: f64) -> Wide {
    let one = Wide::shifted(1, 160);
    let Some(d) = digits(v) else { return one };
    let up = d.k + 160;
    if up >= 0 {
        let size = Wide::shifted(d.w, up);
        return if d.negative { one.minus(size) } else { one.plus(size) };
    }
    let down = (-up).min(63);
    let size = d.w >> down;
    if d.negative {
        one.minus(Wide::shifted(size + (size << down != d.w) as u64, 0))
    } else {
        one.plus(Wide::shifted(size, 0))
    }
}

/// 2^53 * c rounded to a whole number, where c is the greatest solution of 4c³ - 3c = v. With t =
/// 2^53 + y, t / 2^54 is at most c where y²(y + 3 * 2^53) ≤ 2^160 (1 + v); c is 1/2 at least.
fn cos_digits(v: f64) -> u64 {
    let bound = bound(v);
    let at_most = |t: u64| {
        let y = t - ONE;
        Wide::product(y as u128 * y as u128, y + 3 * ONE) <= bound
    };
    let guess = ((v.acos() / 3.0).cos() * ONE as f64) as u64;
    let mut m = guess.clamp(ONE / 2, ONE);
    while m < ONE && at_most(2 * m + 1) {
        m += 1;
    }
    while m > ONE / 2 && !at_most(2 * m - 1) {
        m -= 1;
    }
    m
}

/// The double nearest to √(1 - c²), where c is m / 2^53: 1 - c² is n / 2^106.
fn sin_of_rounded(m: u64) -> f64 {
    let n = (ONE - m) as u128 * (ONE + m) as u128;
    let half = (n.leading_zeros() as i32 - 22) / 2;
    match n {
        0 => 0.0,
        _ => nearest(near_root(n << (2 * half)), -53 - half),
    }
}

/// Below this size of v the double nearest to s, which is 1/2 - v / (2√3) and terms in v² and on,
/// is 1/2.
const TINY: f64 = 1.0 / (1u64 << 60) as f64;

/// For a v below 1, s is from here to √3/2.
const LEAST: f64 = 1.0 / (1u64 << 28) as f64;

/// The double nearest to √(1 - c²) for the c before it is rounded. Never a tie: with m of 54 digits
/// and v² = (1 - m²)(1 - 4m²)², 1 - m² would be the square of a finite binary fraction, which it is
/// for m = 0 alone.
fn sin_of_exact(v: f64) -> f64 {
    if v == 1.0 || v.abs() < TINY {
        return if v == 1.0 { 0.0 } else { 0.5 };
    }
    let given = Given::new(v);
    let middle_above = |s: f64| (units(s) + units(s.next_up())) / 2;
    let mut s = (v.acos() / 3.0).sin().clamp(LEAST, 1.0);
    while given.above(middle_above(s)) {
        s = s.next_up();
    }
    while s > LEAST && !given.above(middle_above(s.next_down())) {
        s = s.next_down();
    }
    s
}

/// 2^81 * s, which is whole and even from `LEAST` to 1.
fn units(s: f64) -> u128 {
    digits(s).map_or(0, |d| (d.w as u128) << (d.k + 81))
}

/// A whole number, the lowest 64 digits first.
type Digits<const N: usize> = [u64; N];

/// v below zero, and 2^486 v².
struct Given {
    negative: bool,
    square: Digits<9>,
}

impl Given {
    /// For a v from `TINY` to 1 in size.
    fn new(v: f64) -> Given {
        let d = digits(v).expect("a size");
        let (square, up) = (d.w as u128 * d.w as u128, (2 * d.k + 486) as usize);
        let digits = [square as u64, (square >> 64) as u64];
        let mut all = [0; 9];
        all[up / 64..up / 64 + 3].copy_from_slice(&times::<2, 1, 3>(digits, [1 << (up % 64)]));
        Given { negative: d.negative, square: all }
    }

    /// Whether s is above m = t / 2^81: v < √(1 - m²)(1 - 4m²), where m is below √3/2; there the
    /// right side falls as m grows, and behind it s never is. By squares, times 2^486.
    fn above(&self, t: u128) -> bool {
        let one: Digits<3> = [0, 0, 1 << 34];
        let digits = [t as u64, (t >> 64) as u64];
        let square: Digits<3> = low(times::<2, 2, 4>(digits, digits));
        let four: Digits<3> = low(times::<3, 1, 4>(square, [4]));
        if !less(four, low(times::<3, 1, 4>(one, [3]))) {
            return false;
        }
        let left = !less(one, four);
        let part = if left { minus(one, four) } else { minus(four, one) };
        let right = times::<3, 6, 9>(minus(one, square), times(part, part));
        match (self.negative, left) {
            (false, true) => less(self.square, right),
            (true, false) => less(right, self.square),
            (negative, _) => negative,
        }
    }
}

/// C is A + B.
fn times<const A: usize, const B: usize, const C: usize>(a: Digits<A>, b: Digits<B>) -> Digits<C> {
    let mut product = [0; C];
    for i in 0..A {
        let mut carry = 0u128;
        for j in 0..B {
            carry += product[i + j] as u128 + a[i] as u128 * b[j] as u128;
            product[i + j] = carry as u64;
            carry >>= 64;
        }
        product[i + B] = carry as u64;
    }
    product
}

/// The same number, where it has so few digits.
fn low<const A: usize, const B: usize>(a: Digits<A>) -> Digits<B> {
    std::array::from_fn(|i| a[i])
}

fn less<const N: usize>(a: Digits<N>, b: Digits<N>) -> bool {
    a.iter().rev().lt(b.iter().rev())
}

/// a - b, where b is at most a.
fn minus<const N: usize>(a: Digits<N>, b: Digits<N>) -> Digits<N> {
    let mut borrow = false;
    std::array::from_fn(|i| {
        let (first, one) = a[i].overflowing_sub(b[i]);
        let (second, two) = first.overflowing_sub(borrow as u64);
        borrow = one || two;
        second
    })
}

/// c and s: c nearest to the greatest real solution of 4c³ - 3c = v, s nearest to √(1 - c²) for
/// that c, or for the one before it is rounded. NaN twice where v is not from -1 to 1.
pub fn third_angle(sine: Sine, v: f64) -> (f64, f64) {
    if !(-1.0..=1.0).contains(&v) {
        return (f64::NAN, f64::NAN);
    }
    let m = cos_digits(v);
    let s = match sine {
        Sine::OfRounded => sin_of_rounded(m),
        Sine::OfExact => sin_of_exact(v),
    };
    (nearest(m, -53), s)
}
