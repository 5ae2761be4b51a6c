//! Numbers beside a picture: a few digits, and round ones.
use crate::people::number::rounded;

/// x to four digits.
pub fn rough(x: f64) -> String {
    rounded(x, 4)
}

/// x to six digits, and as many more as it takes to see steps of this size.
fn figure(x: f64, step: f64) -> String {
    let wanted = x.abs().log10().floor() - step.log10().floor() + 1.0;
    rounded(x, if wanted.is_finite() { wanted.clamp(6.0, 17.0) as usize } else { 6 })
}

/// These numbers, each with digits enough to tell it from the others.
pub fn figures(all: &[f64]) -> Vec<String> {
    let next = |x: f64| {
        let gaps = all.iter().map(|y| (y - x).abs()).filter(|gap| *gap > 0.0);
        gaps.fold(f64::INFINITY, f64::min)
    };
    all.iter().map(|x| figure(*x, next(*x) / 10.0)).collect()
}

/// The largest of 1, 2 and 5 times a power of ten that is at most x; none where there is no such
/// double.
pub fn round_below(x: f64) -> Option<f64> {
    let power = format!("1e{}", x.log10().floor()).parse::<f64>().ok()?;
    let round = [5.0, 2.0, 1.0].map(|n| n * power).into_iter().find(|round| *round <= x)?;
    (round.is_normal() && x.is_finite()).then_some(round)
}

/// Round numbers from lo to hi, three to nine of them; none where doubles are too few there.
pub fn ticks(lo: f64, hi: f64) -> Vec<f64> {
    let Some(step) = round_below(hi / 3.5 - lo / 3.5) else {
        return vec![];
    };
    let (first, last) = ((lo / step).ceil(), (hi / step).floor());
    if first.abs().max(last.abs()) > 1e13 {
        return vec![];
    }
    (0..=(last - first) as usize).map(|i| (first + i as f64) * step).collect()
}

#[cfg(test)]
mod tests {
    use super::*;

    #[test]
    fn few_digits() {
        assert_eq!(figures(&[1.0 / 3.0, -0.0, 1e-20]), ["0.333333", "0", "1e-20"]);
        assert_eq!(figures(&[1.0, 1.000000001]), ["1", "1.000000001"]);
        assert_eq!(figures(&[999999.5, 1000000.5]), ["999999.5", "1000000.5"]);
        assert_eq!(figures(&[f64::MAX, -f64::MAX, 5e-324])[2], "5e-324");
        assert_eq!(figures(&[f64::MAX]), ["1.79769e308"]);
        // four digits of it would be beyond the largest double
        assert_eq!(rough(f64::MAX), "1.7976931348623157e308");
        assert_eq!([2e12, 1234.56, 0.0].map(rough), ["2e12", "1235", "0"]);
    }

    #[test]
    fn round_numbers() {
        assert_eq!([0.7, 1.0, 4.9, 30.0].map(round_below), [0.5, 1.0, 2.0, 20.0].map(Some));
        assert_eq!([0.0, f64::INFINITY, 5e-324, -1.0].map(round_below), [None; 4]);
        assert_eq!(ticks(-1.0, 11.0), [0.0, 2.0, 4.0, 6.0, 8.0, 10.0]);
        assert_eq!(ticks(1.0, 1.0 + 1e-15), [] as [f64; 0]);
        assert_eq!(ticks(-f64::MAX, f64::MAX).len(), 3);
    }
}
