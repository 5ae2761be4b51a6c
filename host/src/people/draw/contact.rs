//! A pin's circle, the ball's path past it, and their contacts. Lengths are in radii of the circle,
//! places are seen from its centre.
use super::Mark;
use super::around::{around, value};
use super::canvas::{Area, Canvas, Point, SIZE};
use super::curve::lowest;
use super::figures::{figures, rough, round_below};
use crate::truth::contact::Contact;

/// How much of the picture the pin and the contacts take, at most.
const FILL: f64 = 0.62;
/// Points of a pass that are joined.
const POINTS: usize = 160;
/// A contact that is further away is left out: the pin could not be seen beside it.
const FAR: f64 = 50.0;
/// The least radius of the pin in the picture.
const LEAST: f64 = 2.0;
/// Where the picture ends, and the scale stands.
const EDGE: f64 = 12.0;
const BOTTOM: f64 = 558.0;
const SCALE: Point = [20.0, 582.0];

/// The ball's place at t.
fn place(contact: &Contact, t: f64) -> Point {
    let radius = contact.radius.log2();
    contact.about_centre().map(|path| around(&path, t)[0].over(radius))
}

fn distance([x, y]: Point) -> f64 {
    x.hypot(y)
}

/// What is seen: the place in the middle, and pixels for a radius.
struct View {
    area: Area,
    middle: Point,
    scale: f64,
}

impl View {
    /// Of the pin and these places.
    fn new(area: Area, places: &[Point]) -> View {
        let ends = [0, 1].map(|i| {
            places.iter().fold([-1.0f64, 1.0f64], |[lo, hi], at| [lo.min(at[i]), hi.max(at[i])])
        });
        let room = [area.right - area.left, area.bottom - area.top];
        let scales = [0, 1].map(|i| FILL * room[i] / (ends[i][1] - ends[i][0]));
        let middle = ends.map(|[lo, hi]| (lo + hi) / 2.0);
        View { area, middle, scale: scales[0].min(scales[1]) }
    }

    fn point(&self, at: Point) -> Point {
        let [x, y] = self.area.middle();
        [x + (at[0] - self.middle[0]) * self.scale, y - (at[1] - self.middle[1]) * self.scale]
    }

    /// The lowest and the highest place that is seen, across and along.
    fn ends(&self) -> [[f64; 2]; 2] {
        let Area { left, top, right, bottom } = self.area;
        let halves = [right - left, bottom - top].map(|length| length / 2.0 / self.scale);
        [0, 1].map(|i| [self.middle[i] - halves[i], self.middle[i] + halves[i]])
    }
}

/// The path around a time, in powers of the time since then, in units of 2^unit.
struct Pass {
    t: f64,
    unit: f64,
    path: [Vec<f64>; 2],
    /// When it comes into view, and when it leaves.
    stay: [f64; 2],
}

impl Pass {
    fn new(contact: &Contact, t: f64, view: &View) -> Pass {
        let path = contact.about_centre().map(|path| around(&path, t));
        let radius = contact.radius.log2();
        // in one unit the ball is carried about as far as the view is wide
        let across = radius + ((view.area.right - view.area.left) / view.scale).log2();
        let powers = path.iter().flat_map(|of| of.iter().enumerate().skip(1));
        let units = powers.map(|(i, a)| (across - a.log2()) / i as f64);
        let unit = units.fold(f64::INFINITY, f64::min);
        let unit = if unit.is_finite() { unit } else { 0.0 };
        let path = path.map(|of| {
            of.iter().enumerate().map(|(i, a)| a.over(radius - i as f64 * unit)).collect()
        });
        let mut pass = Pass { t, unit, path, stay: [0.0; 2] };
        pass.stay = pass.stay_in(view);
        pass
    }

    fn at(&self, time: f64) -> Point {
        self.path.each_ref().map(|of| value(of, time))
    }

    fn stay_in(&self, view: &View) -> [f64; 2] {
        let mut all: Vec<f64> = Vec::new();
        for (of, edges) in self.path.iter().zip(view.ends()) {
            all.extend(edges.iter().flat_map(|edge| solved([of[0] - edge, of[1], of[2]])));
        }
        let before =
            all.iter().copied().filter(|time| *time < 0.0).fold(f64::NEG_INFINITY, f64::max);
        let after = all.iter().copied().filter(|time| *time > 0.0).fold(f64::INFINITY, f64::min);
        [before, after].map(|time| if time.is_finite() { time } else { 0.0 })
    }

    /// Whether the ball is in view from then to t.
    fn has(&self, t: f64) -> bool {
        let time = (t - self.t) / self.unit.exp2();
        (self.stay[0]..=self.stay[1]).contains(&time)
    }

    /// The path while it is in view, with an arrow before the marks and one at its end.
    fn draw(&self, canvas: &mut Canvas, view: &View, marks: &[Point]) {
        let [from, to] = self.stay;
        let time = |part: f64| from + (to - from) * part;
        let point = |part: f64| view.point(self.at(time(part)));
        let points: Vec<Point> = (0..=POINTS).map(|i| point(i as f64 / POINTS as f64)).collect();
        canvas.line("curve", &points);
        let free = |part: &f64| {
            let [x, y] = point(*part);
            marks.iter().all(|mark| (mark[0] - x).hypot(mark[1] - y) > 26.0)
        };
        let mut arrow = |part: &f64| {
            let ([x, y], [u, v]) = (point(*part), point(*part - 0.01));
            canvas.arrow([x, y], [x - u, y - v])
        };
        [0.15, 0.2, 0.1, 0.25, 0.3].iter().filter(|part| free(part)).any(&mut arrow);
        [1.0, 0.98, 0.96, 0.94].iter().any(&mut arrow);
    }
}

/// The real roots of a quadratic, its coefficients ascending, but for 0.
fn solved([c, b, a]: [f64; 3]) -> Vec<f64> {
    let q = -(b + (b * b - 4.0 * a * c).sqrt().copysign(b)) / 2.0;
    [q / a, c / q].into_iter().filter(|time| time.is_finite() && *time != 0.0).collect()
}

/// The pin, the path and these contacts.
pub fn draw(canvas: &mut Canvas, contact: &Contact, contacts: &[Mark]) -> Result<(), String> {
    let near = |mark: &&Mark| distance(place(contact, mark.place)) <= FAR;
    let near: Vec<&Mark> = contacts.iter().filter(near).collect();
    let nearest = lowest(&contact.coefficients());
    let seen: Vec<f64> = match &near[..] {
        [] => vec![nearest],
        near => near.iter().map(|mark| mark.place).collect(),
    };
    let balls: Vec<Point> = seen.iter().map(|t| place(contact, *t)).collect();
    if !balls.iter().all(|at| distance(*at) < 1e100) {
        return Err("the path is too far from the circle for a picture".to_string());
    }
    let area = Area { left: EDGE, right: SIZE[0] - EDGE, bottom: BOTTOM, ..canvas.room };
    let view = View::new(area, &balls);
    canvas.circle("pin", view.point([0.0, 0.0]), view.scale.max(LEAST));
    canvas.circle("centre", view.point([0.0, 0.0]), 1.5);
    path(canvas, &view, contact, &seen);
    for ((mark, at), name) in near.iter().zip(&balls).zip(figures(&seen)) {
        canvas.mark(view.point(*at), mark, outward(*at), &format!("t = {name}"));
    }
    if near.is_empty() {
        miss(canvas, &view, contact, nearest);
    }
    scale(canvas, &view, contact, contacts.len() - near.len());
    Ok(())
}

/// The path where it is in view around these times, and the ball at 0 where that is on it.
fn path(canvas: &mut Canvas, view: &View, contact: &Contact, seen: &[f64]) {
    let mut passes: Vec<Pass> = Vec::new();
    for t in seen {
        if !passes.iter().any(|pass| pass.has(*t)) {
            passes.push(Pass::new(contact, *t, view));
        }
    }
    let marks: Vec<Point> = seen.iter().map(|t| view.point(place(contact, *t))).collect();
    passes.iter().for_each(|pass| pass.draw(canvas, view, &marks));
    if passes.iter().any(|pass| pass.has(0.0)) && !seen.contains(&0.0) {
        let start = view.point(place(contact, 0.0));
        canvas.circle("start", start, 3.0);
        canvas.label(start, [0.0, 1.0], "t = 0".to_string());
    }
}

/// The direction from the pin, in the picture.
fn outward(at: Point) -> Point {
    match distance(at) {
        0.0 => [0.0, -1.0],
        far => [at[0] / far, -at[1] / far],
    }
}

/// How near the ball comes.
fn miss(canvas: &mut Canvas, view: &View, contact: &Contact, t: f64) {
    let at = place(contact, t);
    let edge = at.map(|x| x / distance(at).max(1.0));
    canvas.line("dashed", &[view.point(edge), view.point(at)]);
    canvas.circle("pin", view.point(at), 4.0);
    let gap = contact.beyond(t).abs();
    let [t, gap] = [t, gap].map(|x| figures(&[x]).concat());
    canvas.label(view.point(at), outward(at), format!("nearest at t = {t}: gap {gap}"));
}

/// A length to compare with, the pin's, and how far the ball is away at 0.
fn scale(canvas: &mut Canvas, view: &View, contact: &Contact, left_out: usize) {
    let [x, y] = SCALE;
    let radius = contact.radius;
    if let Some(length) = round_below(130.0 / view.scale * radius) {
        let end = x + length / radius * view.scale;
        let [up, down] = [y - 4.0, y + 4.0];
        canvas.line("axis", &[[x, up], [x, down], [x, y], [end, y], [end, up], [end, down]]);
        canvas.text([end + 8.0, y + 4.0], "faint", &rough(length));
    }
    let far = contact.distance(0.0);
    let widths = far / radius / 2.0;
    let mut words = format!("R = {}", rough(radius));
    if widths.is_finite() {
        let [far, widths] = [far, widths].map(rough);
        words += &format!("; at t = 0 it is {far} from the centre, {widths} pin widths");
    }
    canvas.text([x + 210.0, y + 4.0], "faint", &words);
    if left_out > 0 {
        let words = format!("contacts outside the picture: {left_out}");
        canvas.text([x, BOTTOM + 4.0], "faint", &words);
    }
}
