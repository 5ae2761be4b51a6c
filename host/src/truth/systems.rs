//! How many square systems the reference build solves, on this thread: build/patches.rs puts the call
//! at the front of its `solve_square`, so that calls that find no step count too.
use crate::truth::lister::trimmed;
use std::cell::Cell;

/// No list takes more (document 02).
pub const MOST: u32 = 32;

thread_local! {
    static SOLVED: Cell<u64> = const { Cell::new(0) };
}

/// One call.
pub fn solved() {
    SOLVED.set(SOLVED.get() + 1);
}

/// All that count.
pub fn so_far() -> u64 {
    SOLVED.get()
}

/// Those since then do not count.
pub fn back_to(before: u64) {
    SOLVED.set(before);
}

/// A run, and how many systems it solves.
pub fn counted<R>(run: impl FnOnce() -> R) -> (R, u32) {
    let before = so_far();
    let result = run();
    let systems = so_far() - before;
    (result, u32::try_from(systems).expect("a count of one answer"))
}

/// A run whose systems do not count.
pub fn uncounted<R>(run: impl FnOnce() -> R) -> R {
    let before = so_far();
    let result = run();
    back_to(before);
    result
}

/// The most that this list may take, by its degree once the roots 0 are removed.
pub fn most(coeffs: &[f64]) -> u32 {
    let zeros = coeffs.iter().take_while(|c| **c == 0.0).count();
    match trimmed(coeffs).saturating_sub(zeros + 1) {
        0..=2 => 0,
        3 => 8,
        _ => MOST,
    }
}

#[cfg(test)]
mod tests {
    use super::*;

    #[test]
    fn counts() {
        let twice = || {
            solved();
            solved();
        };
        let (inner, all) = counted(|| {
            uncounted(twice);
            solved();
            counted(twice).1
        });
        assert_eq!((inner, all), (2, 3));
        assert_eq!(counted(|| ()).1, 0);
    }

    #[test]
    fn bounds() {
        assert_eq!([&[][..], &[7.0], &[0.0; 9], &[2.0, -3.0, 1.0, 0.0]].map(most), [0; 4]);
        assert_eq!(most(&[0.0, 0.0, 2.0, -3.0, 1.0]), 0);
        assert_eq!(most(&[-0.0, 1.0, 0.0, 0.0, 1.0]), 8);
        assert_eq!(most(&[1.0, 0.0, 0.0, 0.0, 1.0, -0.0]), 32);
    }
}
