//! The crank equation of a slider-crank from its lengths. A crank of radius R turns by t about the
//! origin, a rod of length L joins its end to a slider at (X, Y): (X - R cos t)² + (Y - R sin t)² =
//! L², so that -2XR cos t - 2YR sin t + R² + X² + Y² - L² = 0.
use crate::truth::big::Big;
use crate::truth::exact::{digits, nearest};

/// The word that such a line begins with.
pub const WORD: &str = "slider";

pub const FORM: &str = "slider R L X, slider R L X Y, or slider CONFUSION R L X Y";

/// Where no other is given.
pub const CONFUSION: f64 = 1.0 / (1u64 << 30) as f64;

/// a2, b2, c1, d1 and e for R, L, X and Y, which are finite: each is rounded once.
pub fn terms([r, l, x, y]: [f64; 4]) -> [f64; 5] {
    // A zero added makes +0 of -0.
    [0.0, 0.0, -2.0 * x * r + 0.0, -2.0 * y * r + 0.0, squares(&[r, x, y], l)]
}

/// The double nearest to the sum of the squares of `above`, less the square of `below`.
fn squares(above: &[f64], below: f64) -> f64 {
    let unit = above.iter().chain([&below]).filter_map(|x| digits(*x)).map(|d| 2 * d.k).min();
    let Some(unit) = unit else {
        return 0.0;
    };
    let square = |x: &f64| match digits(*x) {
        Some(d) => Big::from(u128::from(d.w) * u128::from(d.w)).shl((2 * d.k - unit) as usize),
        None => Big::from(0u64),
    };
    let above = above.iter().map(square).fold(Big::from(0u64), |all, more| all.add(&more));
    let below = square(&below);
    match below > above {
        true => -rounded(&below.sub(&above), unit),
        false => rounded(&above.sub(&below), unit),
    }
}

/// The double nearest to n * 2^k: of what is behind 62 digits, only whether it is 0 counts.
fn rounded(n: &Big, k: i32) -> f64 {
    let behind = n.size().saturating_sub(62);
    let top = n.shr(behind);
    let rest = top.shl(behind) != *n;
    nearest(2 * top.low() + u64::from(rest), k + behind as i32 - 1)
}

#[cfg(test)]
mod tests {
    use super::*;

    #[test]
    fn known_terms() {
        let plain = [0.0, 0.0, -6.0, 0.0, 1.0];
        assert_eq!(terms([1.0, 3.0, 3.0, 0.0]).map(f64::to_bits), plain.map(f64::to_bits));
        assert_eq!(terms([2.0, 5.0, 4.0, 1.0]), [0.0, 0.0, -16.0, -4.0, -4.0]);
        assert_eq!(terms([3.0, 5.0, 4.0, 0.0])[4].to_bits(), 0);
        assert_eq!(terms([1e200, 1.0, 1.0, 0.0])[4], f64::INFINITY);
    }

    /// Where doubles cancel, the whole numbers do not: (1 + 2^-40)² - 1 = 2^-39 + 2^-80.
    #[test]
    fn rounded_once() {
        let small = |k: i32| nearest(1, k);
        assert_eq!(squares(&[1.0 + small(-40)], 1.0), small(-39) + small(-80));
        assert_eq!(squares(&[1.0], 1.0 + small(-40)), -(small(-39) + small(-80)));
        assert_eq!(squares(&[1.0, small(-500)], 1.0), small(-1000));
        // beside a half of the last place, that which is behind it decides
        let half = [1.0, small(-27), small(-27)];
        assert_eq!(squares(&half, 0.0), 1.0);
        assert_eq!(squares(&[&half[..], &[small(-600)]].concat(), 0.0), 1.0 + small(-52));
        assert_eq!(squares(&half, small(-600)), 1.0);
        assert_eq!(squares(&[f64::MAX], 0.0), f64::INFINITY);
        assert_eq!(squares(&[small(-1074)], 0.0), 0.0);
    }
}
