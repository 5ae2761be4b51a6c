//! The circle of a crank, with its positions.
use super::canvas::{Canvas, Point};
use super::figures::figures;
use super::{Mark, places};

const RADIUS: f64 = 190.0;

/// Positions in degrees: 0 is to the right, 90 at the top.
pub fn draw(canvas: &mut Canvas, positions: &[Mark]) {
    let [x, y] = canvas.room.middle();
    let towards = |degrees: f64| [degrees.to_radians().cos(), -degrees.to_radians().sin()];
    let at = |degrees: f64, r: f64| -> Point {
        let [u, v] = towards(degrees);
        [x + r * u, y + r * v]
    };
    canvas.circle("axis", [x, y], RADIUS);
    for eighth in 0..8 {
        let degrees = f64::from(eighth * 45);
        let inner = if eighth % 2 == 0 { RADIUS - 10.0 } else { RADIUS - 5.0 };
        canvas.line("axis", &[at(degrees, inner), at(degrees, RADIUS)]);
        if eighth % 2 == 0 {
            canvas.anchored(at(degrees, RADIUS - 28.0), false, &format!("{degrees}°"));
        }
    }
    for mark in positions {
        canvas.line("curve", &[[x, y], at(mark.place, RADIUS)]);
    }
    canvas.circle("pin", [x, y], 4.0);
    for (mark, name) in positions.iter().zip(figures(&places(positions))) {
        canvas.mark(at(mark.place, RADIUS), mark, towards(mark.place), &format!("{name}°"));
    }
    if positions.is_empty() {
        canvas.anchored([x, y + 24.0], false, "no position");
    }
}
