//! The curve of a polynomial, with its roots on the axis.
use super::around::{Scaled, around, in_halves, value};
use super::canvas::{Area, Canvas, Point};
use super::figures::{figures, rough, ticks};
use super::{Mark, places};
use crate::people::svg::WIDTH;
use crate::port;
use crate::truth::angle::Sine;
use crate::truth::lister::trimmed;

/// Pixels across the curve, each of which is looked at.
const ACROSS: usize = 680;
const LEFT: f64 = 96.0;
/// Of the height is free above and below the part that is seen.
const FREE: f64 = 0.3;
/// A hill between two roots is cut off where it is so many times higher than the lowest one.
const HILLS: f64 = 12.0;

/// The part of the axis that is seen: its middle, and the logarithm of half its length.
struct Part {
    middle: f64,
    half: f64,
}

impl Part {
    /// Of p, so that all roots are seen; where there is none, what is nearest to one.
    fn new(p: &[f64], roots: &[Mark]) -> Part {
        let places = places(roots);
        let first = places.iter().copied().fold(f64::INFINITY, f64::min);
        let last = places.iter().copied().fold(f64::NEG_INFINITY, f64::max);
        match roots {
            [] => Part::reach(p, lowest(p), 0),
            _ if first == last => {
                Part::reach(p, first, roots.iter().map(|root| root.multiplicity as usize).sum())
            }
            _ => {
                let middle = first / 2.0 + last / 2.0;
                let half = [first, last].map(|end| less(end, middle).log2());
                Part { middle, half: half[0].max(half[1]) + 0.5 }
            }
        }
    }

    /// Around m, as far as the term of this order is not yet small beside the later ones.
    fn reach(p: &[f64], m: f64, order: usize) -> Part {
        let logs: Vec<f64> = around(p, m).into_iter().map(Scaled::log2).collect();
        let own = logs.get(order).copied().unwrap_or(f64::NEG_INFINITY);
        let later = logs.iter().enumerate().skip(order + 1).filter(|log| log.1.is_finite());
        let reach = later.map(|(j, log)| (own - log) / (j - order) as f64);
        let reach = reach.fold(f64::INFINITY, f64::min) + 1.0;
        let size = if m == 0.0 { 0.0 } else { m.abs().log2() };
        Part { middle: m, half: if reach.is_finite() { reach } else { size } }
    }

    /// From -1 to 1 across the part.
    fn share(&self, x: f64) -> f64 {
        less(x, self.middle).over(self.half)
    }

    /// Both ends; none where they are not doubles, or not two of them.
    fn ends(&self) -> Option<[f64; 2]> {
        let half = self.half.exp2();
        let ends = [self.middle - half, self.middle + half];
        (ends.iter().all(|end| end.is_finite()) && half.is_normal()).then_some(ends)
    }
}

/// x - m
fn less(x: f64, m: f64) -> Scaled {
    around(&[x, -1.0], m)[0]
}

/// Where |p| is smallest, among the places without slope.
pub fn lowest(p: &[f64]) -> f64 {
    // a quarter of the slope, so that nothing is beyond the largest double
    let slope: Vec<f64> = (1..p.len()).map(|i| p[i] * (i as f64 / 4.0)).collect();
    let flat = port::real_roots(Sine::OfExact, &slope, 0.0);
    let height = |x: f64| around(p, x).first().map_or(0.0, |a| a.log2());
    let places = flat.roots().iter().map(|root| root.value);
    places.min_by(|a, b| height(*a).total_cmp(&height(*b))).unwrap_or(0.0)
}

/// A polynomial over a part of its axis, as s goes from -1 to 1, and the logarithm of its unit.
struct Curve {
    q: Vec<f64>,
    unit: f64,
    seen: Area,
}

impl Curve {
    fn samples(&self) -> impl Iterator<Item = [f64; 2]> {
        let s = |i: usize| 2.0 * i as f64 / ACROSS as f64 - 1.0;
        (0..=ACROSS).map(move |i| [s(i), value(&self.q, s(i))])
    }

    /// The highest |q| from here to there.
    fn hill(&self, from: f64, to: f64) -> f64 {
        let own = self.samples().filter(|[s, _]| (from..=to).contains(s));
        own.map(|[_, y]| y.abs()).fold(0.0, f64::max)
    }

    /// Which heights are seen, for roots at these places, ascending.
    fn heights(&self, roots: &[f64]) -> [f64; 2] {
        let gaps = roots.windows(2).filter(|gap| gap[1] - gap[0] > 8.0 / ACROSS as f64);
        let hills: Vec<f64> = gaps.map(|gap| self.hill(gap[0], gap[1])).collect();
        let (from, to, most) = match (roots, &hills[..]) {
            ([first, .., last], [_, ..]) => {
                let highest = hills.iter().copied().fold(0.0, f64::max);
                let least = hills.iter().copied().fold(f64::INFINITY, f64::min);
                (*first, *last, highest.min(HILLS * least).max(1e-13))
            }
            _ => (-0.5, 0.5, f64::INFINITY),
        };
        let own = self.samples().filter(|[s, _]| (from..=to).contains(s));
        let (lo, hi) = own.fold((0.0f64, 0.0f64), |(lo, hi), [_, y]| (lo.min(y), hi.max(y)));
        let (lo, hi) = (lo.max(-most), hi.min(most));
        match FREE * (hi - lo) {
            0.0 => [-1.0, 1.0],
            free => [lo - free, hi + free],
        }
    }

    /// The place in the picture, for heights from lo to hi.
    fn point(&self, [s, y]: [f64; 2], [lo, hi]: [f64; 2]) -> Point {
        let Area { left, top, right, bottom } = self.seen;
        let across = (left + right) / 2.0 + s * (right - left) / 2.0;
        [across, bottom - (y - lo) / (hi - lo) * (bottom - top)]
    }
}

/// The lines of what of a curve lies between two heights: a piece for each way in and out.
fn cut(points: &[[f64; 2]], [lo, hi]: [f64; 2]) -> Vec<Vec<[f64; 2]>> {
    let mut pieces: Vec<Vec<[f64; 2]>> = Vec::new();
    for pair in points.windows(2) {
        let ([from, a], [t, b]) = (pair[0], pair[1]);
        if a.max(b) < lo || a.min(b) > hi {
            continue;
        }
        let within = |s: f64, y: f64| match y.clamp(lo, hi) {
            edge if edge == y => [s, y],
            edge => [from + (t - from) * (edge - a) / (b - a), edge],
        };
        let (first, last) = (within(from, a), within(t, b));
        match pieces.last_mut() {
            Some(piece) if piece.last() == Some(&first) => piece.push(last),
            _ => pieces.push(vec![first, last]),
        }
    }
    pieces
}

/// The curve of the polynomial with these coefficients, ascending, in the variable of this name, and
/// its roots.
pub fn draw(
    canvas: &mut Canvas,
    coeffs: &[f64],
    variable: &str,
    roots: &[Mark],
) -> Result<(), String> {
    let p = &coeffs[..trimmed(coeffs)];
    let part = Part::new(p, roots);
    let ends = part.ends().ok_or("its places are too far apart, or too near, for a picture")?;
    let (q, unit) = in_halves(&around(p, part.middle), part.half);
    let room = canvas.room;
    let seen =
        Area { left: LEFT, right: LEFT + ACROSS as f64, bottom: 556.0, top: room.top + 12.0 };
    let curve = Curve { q, unit, seen };
    let mut shares: Vec<f64> = roots.iter().map(|root| part.share(root.place)).collect();
    shares.sort_by(f64::total_cmp);
    let heights = curve.heights(&shares);
    grid(canvas, &curve, &part, ends, heights);
    let Area { left, top, right, bottom } = seen;
    canvas.text([right - 4.0, bottom + 34.0], "faint", variable);
    canvas.text([left, top - 5.0], "faint", &format!("p({variable})"));
    for piece in cut(&curve.samples().collect::<Vec<_>>(), heights) {
        let points: Vec<Point> = piece.into_iter().map(|at| curve.point(at, heights)).collect();
        canvas.line("curve", &points);
    }
    for (root, name) in roots.iter().zip(figures(&places(roots))) {
        let at = curve.point([part.share(root.place), 0.0], heights);
        canvas.mark(at, root, [0.0, -1.0], &format!("{variable} = {name}"));
    }
    if roots.is_empty() {
        no_root(canvas, &curve, &part, heights, variable);
    }
    Ok(())
}

/// Round numbers along both axes, and the axis on which the roots lie.
fn grid(canvas: &mut Canvas, curve: &Curve, part: &Part, ends: [f64; 2], heights: [f64; 2]) {
    let Area { left, top, right, bottom } = curve.seen;
    let across = ticks(ends[0], ends[1]);
    let names = figures(&across);
    let wide = names.iter().map(String::len).max().unwrap_or(0) as f64 * WIDTH + 12.0;
    let every = (wide * across.len() as f64 / ACROSS as f64).ceil().max(1.0) as usize;
    for (i, (x, name)) in across.iter().zip(names).enumerate() {
        let [at, _] = curve.point([part.share(*x), 0.0], heights);
        canvas.line("grid", &[[at, top], [at, bottom]]);
        if i % every == 0 {
            canvas.anchored([at, bottom + 14.0], false, &name);
        }
    }
    let unit = curve.unit.exp2();
    let up = ticks(heights[0] * unit, heights[1] * unit);
    for (y, name) in up.iter().zip(figures(&up)) {
        let [_, at] = curve.point([0.0, y / unit], heights);
        canvas.line("grid", &[[left, at], [right, at]]);
        canvas.anchored([left - 6.0, at], true, &name);
    }
    canvas.line("grid", &[[left, top], [right, top], [right, bottom], [left, bottom], [left, top]]);
    let [zero, one] = [-1.0, 1.0].map(|s| curve.point([s, 0.0], heights));
    canvas.line("axis", &[zero, one]);
}

/// How near the curve comes to the axis.
fn no_root(canvas: &mut Canvas, curve: &Curve, part: &Part, heights: [f64; 2], variable: &str) {
    let low = value(&curve.q, 0.0);
    let [axis, at] = [0.0, low].map(|y| curve.point([0.0, y], heights));
    canvas.line("dashed", &[axis, at]);
    let x = figures(&[part.middle]).concat();
    let y = low * curve.unit.exp2();
    let text = match y.is_finite() {
        true => format!("nearest to 0 at {variable} = {x}: p({variable}) = {}", rough(y)),
        false => format!("nearest to 0 at {variable} = {x}"),
    };
    canvas.label(at, [0.0, if low < 0.0 { -1.0 } else { 1.0 }], text);
}
