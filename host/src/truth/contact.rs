//! Pin contacts: a ball's path and a circle, and the equation that document 02 makes of them. Each
//! operation is rounded once.
use crate::truth::lister::{finite, trimmed};
use crate::truth::refusals;

/// The names of a record's numbers, in the file's order.
pub const NAMES: [&str; 10] = ["confusion", "x0", "x1", "x2", "y0", "y1", "y2", "cx", "cy", "R"];

/// a + b t + c t², as document 02 groups it.
fn along([a, b, c]: [f64; 3], t: f64) -> f64 {
    a + t * (b + t * c)
}

/// A record of the kind.
#[derive(Clone, Copy, Debug, PartialEq)]
pub struct Contact {
    pub confusion: f64,
    /// The ball is at x0 + x1 t + x2 t² across,
    pub x: [f64; 3],
    /// and at y0 + y1 t + y2 t² along.
    pub y: [f64; 3],
    /// Of the circle: cx and cy,
    pub centre: [f64; 2],
    /// and R.
    pub radius: f64,
}

impl Contact {
    /// From the numbers in the file's order.
    pub fn new([confusion, x0, x1, x2, y0, y1, y2, cx, cy, radius]: [f64; 10]) -> Contact {
        Contact { confusion, x: [x0, x1, x2], y: [y0, y1, y2], centre: [cx, cy], radius }
    }

    /// The numbers in the file's order.
    pub fn numbers(&self) -> [f64; 10] {
        let Contact { confusion, x: [x0, x1, x2], y: [y0, y1, y2], centre: [cx, cy], radius } =
            *self;
        [confusion, x0, x1, x2, y0, y1, y2, cx, cy, radius]
    }

    /// X0, X1, X2 and Y0, Y1, Y2: the path seen from the circle's centre.
    pub fn about_centre(&self) -> [[f64; 3]; 2] {
        let ([x0, x1, x2], [y0, y1, y2], [cx, cy]) = (self.x, self.y, self.centre);
        [[x0 - cx, x1, x2], [y0 - cy, y1, y2]]
    }

    /// Of X² + Y² - R², ascending.
    pub fn coefficients(&self) -> [f64; 5] {
        let [[x0, x1, x2], [y0, y1, y2]] = self.about_centre();
        [
            (x0 * x0 + y0 * y0) - self.radius * self.radius,
            2.0 * (x0 * x1 + y0 * y1),
            (x1 * x1 + y1 * y1) + 2.0 * (x0 * x2 + y0 * y2),
            2.0 * (x1 * x2 + y1 * y2),
            x2 * x2 + y2 * y2,
        ]
    }

    /// The ball's place at t: x and y.
    pub fn ball(&self, t: f64) -> [f64; 2] {
        [self.x, self.y].map(|path| along(path, t))
    }

    /// X and Y: the ball's place at t, seen from the circle's centre.
    pub fn place(&self, t: f64) -> [f64; 2] {
        self.about_centre().map(|path| along(path, t))
    }

    /// D: its distance from there.
    pub fn distance(&self, t: f64) -> f64 {
        let [x, y] = self.place(t);
        (x * x + y * y).sqrt()
    }

    /// D - R: how far outside of the circle it is.
    pub fn beyond(&self, t: f64) -> f64 {
        self.distance(t) - self.radius
    }

    /// The reply to a question at t.
    pub fn touches(&self, t: f64) -> bool {
        self.beyond(t).abs() <= self.confusion
    }

    /// Under which number it is refused, 0 where it is not.
    pub fn refusal(&self) -> u8 {
        let coeffs = self.coefficients();
        match trimmed(&coeffs) {
            _ if !finite(&self.numbers()) => refusals::RECORD_NOT_FINITE,
            _ if self.radius <= 0.0 => refusals::NO_RADIUS,
            _ if !finite(&coeffs) => refusals::MADE_NOT_FINITE,
            0 | 1 => refusals::TOO_FEW,
            _ => 0,
        }
    }
}

#[cfg(test)]
mod tests {
    use super::*;

    /// A ball that rolls along the line x = 3 past a pin of radius 5 about the origin.
    const ROLLING: [f64; 10] = [0.5, 4.0, 0.0, 0.0, -10.0, 2.0, 0.0, 1.0, 0.0, 5.0];

    #[test]
    fn numbers_come_back() {
        let numbers = std::array::from_fn(|i| i as f64);
        assert_eq!(Contact::new(numbers).numbers(), numbers);
        assert_eq!(Contact::new(numbers).radius, 9.0);
    }

    #[test]
    fn equation_and_replies() {
        let rolling = Contact::new(ROLLING);
        assert_eq!(rolling.coefficients(), [84.0, -40.0, 4.0, 0.0, 0.0]);
        assert_eq!([3.0, 5.0, 7.0].map(|t| rolling.distance(t)), [5.0, 3.0, 5.0]);
        // |D - R| is 2 at 5, where the ball is nearest to the centre
        for (confusion, yes) in [(2.0, true), (1.9999999999999998, false), (-2.0, false)] {
            assert_eq!(Contact { confusion, ..rolling }.touches(5.0), yes, "{confusion}");
        }
        assert!(Contact { confusion: 0.0, ..rolling }.touches(3.0));
        assert!(!Contact { confusion: -0.5, ..rolling }.touches(3.0));
    }

    #[test]
    fn refusals_in_order() {
        let with = |changes: &[(usize, f64)]| {
            let mut numbers = ROLLING;
            changes.iter().for_each(|&(i, x)| numbers[i] = x);
            Contact::new(numbers).refusal()
        };
        assert_eq!(with(&[]), 0);
        for i in 0..10 {
            assert_eq!(with(&[(5, 1e300), (9, -1.0), (i, f64::NAN)]), 10);
        }
        assert_eq!(with(&[(0, -1.0)]), 0);
        assert_eq!(with(&[(9, 0.0), (5, 1e300)]), 11);
        assert_eq!(with(&[(9, -0.0), (5, 0.0)]), 11);
        assert_eq!(with(&[(5, 1e300)]), 12);
        assert_eq!(with(&[(4, f64::MAX), (8, -f64::MAX), (5, 0.0)]), 12);
        assert_eq!(with(&[(5, 0.0)]), 2);
        assert_eq!(with(&[(5, 1e-200)]), 0);
    }
}
