//! Inputs whose root lies very near a middle between two doubles: nearly ties. How near is told
//! exactly.
use crate::inputs::leaves::{cube_middles, square_middles, third_middles};
use crate::inputs::random::Random;
use crate::truth::angle::{self, Sine};
use crate::truth::big::Big;
use crate::truth::exact::{self, digits};

/// |a - b|
fn apart(a: &Big, b: &Big) -> Big {
    if a < b { b.sub(a) } else { a.sub(b) }
}

/// a / b to a few digits.
fn ratio(a: &Big, b: &Big) -> f64 {
    let part = |n: &Big| {
        let down = n.size().saturating_sub(60);
        (n.shr(down).low() as f64, down as i32)
    };
    let ((a, i), (b, j)) = (part(a), part(b));
    exact::ldexp(a / b, i - j)
}

/// How far, in steps of the result, an exact root is from the nearer of the middles (2m ± 1) / 2
/// around the m it rounds to. `power` gives the left side for 2m, `goal` is what it should be,
/// `slope` how much the left side grows with 2m.
fn margin(m: u64, goal: &Big, power: impl Fn(u64) -> Big, slope: &Big) -> f64 {
    let at = |t: u64| ratio(&apart(&power(t), goal), slope);
    at(2 * m - 1).min(at(2 * m + 1)) / 2.0
}

/// For a positive finite x.
fn sqrt_margin(x: f64) -> f64 {
    let (d, root) = (digits(x).unwrap(), digits(exact::sqrt(x)).unwrap());
    let square = |t: u64| Big::from(t as u128 * t as u128);
    let goal = Big::from(d.w).shl((d.k - 2 * root.k + 2) as usize);
    margin(root.w, &goal, square, &Big::from(4 * root.w))
}

/// For a finite x that is not 0.
fn cbrt_margin(x: f64) -> f64 {
    let (d, root) = (digits(x).unwrap(), digits(exact::cbrt(x)).unwrap());
    let cube = |t: u64| Big::from(t as u128 * t as u128).mul(&Big::from(t));
    let goal = Big::from(d.w).shl((d.k - 3 * root.k + 3) as usize);
    margin(root.w, &goal, cube, &square_times(2 * root.w, 3))
}

fn square_times(t: u64, n: u64) -> Big {
    Big::from(t as u128 * t as u128).mul(&Big::from(n))
}

/// For a v between -1 and 1, neither of them nor 0. With y = t - 2^53 as in `exact`: y²(y + 3 *
/// 2^53) against 2^160 (1 + v), both times 2^914.
fn third_margin(v: f64) -> f64 {
    let c = angle::third_angle(Sine::OfRounded, v).0;
    let m = (c * (1u64 << 53) as f64) as u64;
    let one = Big::power_of_two(160 + 914);
    let size = crate::truth::plain::units(v);
    let goal = if v < 0.0 { one.sub(&size) } else { one.add(&size) };
    let left = |t: u64| {
        let y = t.saturating_sub(1 << 53);
        square_times(y, 1).mul(&Big::from(y + (3 << 53))).shl(914)
    };
    let y = 2 * m - (1 << 53);
    let slope = square_times(y, 3).add(&Big::from(y).mul(&Big::from(6u64 << 53))).shl(914);
    margin(m, &goal, left, &slope)
}

/// The `n` inputs of least margin among those tried, least first.
fn least(tried: Vec<f64>, n: usize, margin: impl Fn(f64) -> f64) -> Vec<f64> {
    let normal = tried.into_iter().filter(|x| x.is_normal());
    let mut all: Vec<(f64, f64)> = normal.map(|x| (margin(x), x)).collect();
    all.sort_by(|a, b| a.0.total_cmp(&b.0).then(a.1.total_cmp(&b.1)));
    all.dedup();
    all.truncate(n);
    all.into_iter().map(|(_, x)| x).collect()
}

/// Square roots nearest a middle: the odd t with t² = 4n + rest, where n is what a double from 1 to
/// 4 stands for in `exact` and |rest| is small. Least rest first.
pub fn sqrt_ties(most: i128) -> Vec<f64> {
    let mut all = Vec::new();
    // An odd square is 1 more than a multiple of 8.
    for rest in (0..=most / 8).flat_map(|i| [8 * i + 1, -8 * i - 7]) {
        for zeros in [54, 55] {
            let roots = square_roots_modulo(rest, zeros);
            let fitting = roots.iter().filter_map(|&t| tie(t, rest, zeros));
            all.extend(fitting);
        }
    }
    all
}

/// The double with 4n = t² - rest, where that is w * 2^zeros with w of 53 digits.
fn tie(t: u64, rest: i128, zeros: u32) -> Option<f64> {
    let four = t as i128 * t as i128 - rest;
    let w = (four >> zeros) as u64;
    assert_eq!((w as i128) << zeros, four);
    let x = exact::nearest(w, zeros as i32 - 106);
    (w >> 52 == 1).then_some(x)
}

/// All odd t below 2^j with t² = rest modulo 2^j: a digit at a time; with t also -t, t ± 2^(j - 1).
fn square_roots_modulo(rest: i128, j: u32) -> [u64; 4] {
    let mut t = 1i128;
    for i in 3..j {
        // t² = rest modulo 2^i; the digit 2^(i - 1) of t moves t² by 2^i.
        if (t * t - rest) >> i & 1 == 1 {
            t += 1 << (i - 1);
        }
    }
    let all = 1i128 << j;
    [t, -t, t + all / 2, all / 2 - t].map(|t| t.rem_euclid(all) as u64)
}

/// Square roots near a middle, among three times `tried` doubles next to one.
pub fn sqrt(r: &mut Random, tried: usize, n: usize) -> Vec<f64> {
    least(square_middles(r, tried), n, sqrt_margin)
}

/// Cube roots nearest a middle, likewise.
pub fn cbrt(r: &mut Random, tried: usize, n: usize) -> Vec<f64> {
    least(cube_middles(r, tried), n, cbrt_margin)
}

/// Third angles nearest a middle, among five times `tried`.
pub fn third(r: &mut Random, tried: usize, n: usize) -> Vec<f64> {
    let inside = third_middles(r, tried).into_iter().filter(|v| v.abs() < 1.0);
    least(inside.collect(), n, third_margin)
}

#[cfg(test)]
mod tests {
    use super::*;

    #[test]
    fn margins() {
        // √(1 + 2^-52) is 1 + 2^-53 - 2^-107 + ..: 2^-55 of a step below the middle.
        let x = f64::from_bits(0x3FF0_0000_0000_0001);
        assert!((sqrt_margin(x) * 2f64.powi(55) - 1.0).abs() < 1e-9);
        // 27 is a cube: half a step from either middle.
        assert!((cbrt_margin(27.0) - 0.5).abs() < 1e-9);
        assert!(third_margin(0.5) <= 0.5);
    }

    #[test]
    fn nearly_ties() {
        let mut r = Random::new(3);
        for (inputs, margin) in [
            (sqrt(&mut r, 20_000, 9), sqrt_margin as fn(f64) -> f64),
            (cbrt(&mut r, 20_000, 9), cbrt_margin),
            (third(&mut r, 20_000, 9), third_margin),
        ] {
            assert_eq!(inputs.len(), 9);
            assert!(margin(inputs[8]) < 1e-3, "{}", margin(inputs[8]));
            println!("{:?}", inputs.iter().map(|&x| margin(x)).collect::<Vec<_>>());
        }
    }
}
