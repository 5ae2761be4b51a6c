//! A picture of 800 by 600 with a title, marks, and labels that keep clear of each other.
use super::{Form, Mark};
use crate::people::svg::{WIDTH, document, escaped, wrapped};
use crate::truth::kind::Kind;
use std::fmt::Write;

pub const SIZE: [f64; 2] = [800.0, 600.0];

const STYLE: &str = "\
text { font: 12px monospace; fill: #1c2733; }
.title { font-size: 14px; font-weight: bold; }
.faint { fill: #5c6975; }
.halo { stroke: #ffffff; stroke-width: 4; stroke-linejoin: round; paint-order: stroke; }
.grid { fill: none; stroke: #dde2e7; }
.axis { fill: none; stroke: #5c6975; stroke-width: 1.2; }
.curve { fill: none; stroke: #1b4f7d; stroke-width: 2; }
.dashed { fill: none; stroke: #5c6975; stroke-dasharray: 5 4; }
.pin { fill: #e8ebee; stroke: #5c6975; stroke-width: 1.5; }
.centre { fill: #5c6975; }
.start { fill: #1b4f7d; }
.arrow { fill: #1b4f7d; }
.crossing { fill: #a3241c; stroke: #ffffff; }
.brush { fill: #e69f00; stroke: #1c2733; stroke-width: 1.5; stroke-linecap: square; }
.flat { fill: #ffffff; stroke: #1c2733; stroke-width: 2.5; }
.doubtful { fill: #ffffff; stroke: #5c6975; stroke-width: 2; stroke-dasharray: 3 2; }
";

/// Characters of the title in a line.
const TITLE: usize = 88;
const LINE: f64 = 16.0;

pub type Point = [f64; 2];

/// A rectangle: left, top, right and bottom.
#[derive(Clone, Copy, Debug, PartialEq)]
pub struct Area {
    pub left: f64,
    pub top: f64,
    pub right: f64,
    pub bottom: f64,
}

impl Area {
    fn around([x, y]: Point, width: f64, height: f64) -> Area {
        let (w, h) = (width / 2.0, height / 2.0);
        Area { left: x - w, top: y - h, right: x + w, bottom: y + h }
    }

    pub fn has(&self, [x, y]: Point) -> bool {
        (self.left..=self.right).contains(&x) && (self.top..=self.bottom).contains(&y)
    }

    pub fn meets(&self, other: &Area) -> bool {
        self.left < other.right
            && other.left < self.right
            && self.top < other.bottom
            && other.top < self.bottom
    }

    fn within(&self, other: &Area) -> bool {
        other.has([self.left, self.top]) && other.has([self.right, self.bottom])
    }

    fn distance(&self, [x, y]: Point) -> f64 {
        (x - x.clamp(self.left, self.right)).hypot(y - y.clamp(self.top, self.bottom))
    }

    pub fn middle(&self) -> Point {
        [(self.left + self.right) / 2.0, (self.top + self.bottom) / 2.0]
    }
}

/// A text beside a place, in a direction where there is room.
struct Label {
    at: Point,
    towards: Point,
    text: String,
}

/// A line from beside a mark to a label.
fn leader([x, y]: Point, to: &Area) -> [Point; 2] {
    let end = [x.clamp(to.left, to.right), y.clamp(to.top, to.bottom)];
    let part = 7.0 / (end[0] - x).hypot(end[1] - y);
    [[x + part * (end[0] - x), y + part * (end[1] - y)], end]
}

pub struct Canvas {
    body: String,
    /// What no label may cover, and what it should not.
    taken: Vec<Area>,
    ink: Vec<Point>,
    labels: Vec<Label>,
    /// Below the title.
    pub room: Area,
}

impl Canvas {
    /// The equation, and what is said of it in a line.
    pub fn new(title: &str, below: &str) -> Canvas {
        let room = Area { left: 0.0, top: 0.0, right: SIZE[0], bottom: SIZE[1] };
        let body = format!(
            "<title>{}</title>\n<rect width=\"800\" height=\"600\" fill=\"#ffffff\"/>\n",
            escaped(title)
        );
        let mut canvas = Canvas { body, taken: vec![], ink: vec![], labels: vec![], room };
        let mut y = 10.0;
        for line in wrapped(title, TITLE) {
            y += 18.0;
            canvas.text([20.0, y], "title", &line);
        }
        for line in wrapped(below, TITLE) {
            y += 17.0;
            canvas.text([20.0, y], "faint", &line);
        }
        canvas.room.top = y + 12.0;
        canvas
    }

    /// A text from its left end on; labels keep off.
    pub fn text(&mut self, [x, y]: Point, class: &str, text: &str) {
        let width = WIDTH * text.chars().count() as f64;
        let (top, bottom) = (y + 4.0 - LINE, y + 4.0);
        self.taken.push(Area { left: x, top, right: x + width, bottom });
        let _ = writeln!(
            self.body,
            "<text class=\"{class}\" x=\"{x:.1}\" y=\"{y:.1}\">{}</text>",
            escaped(text)
        );
    }

    /// A text whose middle, or whose right end, is here.
    pub fn anchored(&mut self, [x, y]: Point, right: bool, text: &str) {
        let width = WIDTH * text.chars().count() as f64;
        let left = x - if right { width } else { width / 2.0 };
        self.text([left.clamp(2.0, SIZE[0] - width - 2.0), y + 4.0], "faint", text);
    }

    /// Lines from point to point; labels keep off the curve and what else is not of the grid.
    pub fn line(&mut self, class: &str, points: &[Point]) {
        let mut path = String::new();
        for (i, [x, y]) in points.iter().enumerate() {
            let _ = write!(path, "{}{x:.1} {y:.1}", if i == 0 { "M" } else { "L" });
        }
        let _ = writeln!(self.body, "<path class=\"{class}\" d=\"{path}\"/>");
        if class != "grid" {
            points.windows(2).for_each(|pair| self.cover(pair[0], pair[1]));
        }
    }

    fn cover(&mut self, a: Point, b: Point) {
        let steps = ((b[0] - a[0]).hypot(b[1] - a[1]) / 4.0).ceil().max(1.0);
        let at = |i: usize, k: f64| a[i] + (b[i] - a[i]) * k / steps;
        self.ink.extend((0..=steps as usize).map(|k| [at(0, k as f64), at(1, k as f64)]));
    }

    pub fn circle(&mut self, class: &str, [x, y]: Point, r: f64) {
        let _ = writeln!(
            self.body,
            "<circle class=\"{class}\" cx=\"{x:.1}\" cy=\"{y:.1}\" r=\"{r:.1}\"/>"
        );
        let turn = |k: usize| (k as f64 * 6.0).to_radians();
        let edge = (0..60).map(|k| [x + r * turn(k).cos(), y + r * turn(k).sin()]);
        self.ink.extend(edge);
    }

    /// A square on its corner; r is from there to its middle.
    fn diamond(&mut self, class: &str, [x, y]: Point, r: f64) {
        self.line(class, &[[x, y - r], [x + r, y], [x, y + r], [x - r, y], [x, y - r]]);
    }

    /// A dot, a diamond or a ring, which is dashed where it is doubtful.
    fn form(&mut self, class: &str, at: Point, form: Form) {
        match form {
            Form::Of(Kind::Crossing) => self.circle(class, at, 4.5),
            Form::Of(Kind::Brush) => self.diamond(class, at, 7.0),
            Form::Of(Kind::Flat) | Form::Doubtful => self.circle(class, at, 5.5),
        }
    }

    /// Below the title, the forms of these marks, each with its word.
    pub fn legend(&mut self, marks: &[Mark]) {
        let here = |form: &Form| marks.iter().any(|mark| mark.form() == *form);
        let [mut x, y] = [26.0, self.room.top + 5.0];
        for form in Form::ALL.into_iter().filter(here) {
            let word = form.word();
            self.form(&format!("key {word}"), [x, y - 4.0], form);
            self.text([x + 12.0, y], "faint", word);
            x += 36.0 + WIDTH * word.len() as f64;
            self.room.top = y + 12.0;
        }
    }

    /// A mark, with a label behind whose name stand its own words.
    pub fn mark(&mut self, at: Point, mark: &Mark, towards: Point, name: &str) {
        let form = mark.form();
        self.form(form.word(), at, form);
        self.taken.push(Area::around(at, 12.0, 12.0));
        self.label(at, towards, format!("{name}{}", mark.words()));
    }

    pub fn label(&mut self, at: Point, towards: Point, text: String) {
        self.labels.push(Label { at, towards, text });
    }

    /// An arrow's head with its tip here, if there is room for it.
    pub fn arrow(&mut self, [x, y]: Point, along: Point) -> bool {
        let size = along[0].hypot(along[1]);
        let [u, v] = along.map(|n| n / size);
        let (back, side) = (12.0, 4.5);
        let [bx, by] = [x - back * u, y - back * v];
        let [p, q] = [[bx - side * v, by + side * u], [bx + side * v, by - side * u]];
        if !size.is_normal() || ![p, q].iter().all(|corner| self.room.has(*corner)) {
            return false;
        }
        let _ = writeln!(
            self.body,
            "<path class=\"arrow\" d=\"M{x:.1} {y:.1}L{:.1} {:.1}L{:.1} {:.1}Z\"/>",
            p[0], p[1], q[0], q[1]
        );
        self.taken.push(Area::around([bx, by], 14.0, 14.0));
        true
    }

    /// Where a label has room: near its place, on no other one, and off the lines.
    fn placed(&self, label: &Label) -> (Area, f64) {
        let width = WIDTH * label.text.chars().count() as f64;
        let mut best = (Area::around(label.at, width, LINE), 0.0, f64::INFINITY);
        for far in [9.0, 18.0, 30.0, 44.0, 60.0, 78.0, 98.0, 120.0, 150.0, 190.0, 240.0] {
            for turn in 0..16 {
                let (v, u) = (f64::from(turn) * std::f64::consts::FRAC_PI_8).sin_cos();
                let middle =
                    [label.at[0] + u * (far + width / 2.0), label.at[1] + v * (far + LINE / 2.0)];
                let area = Area::around(middle, width, LINE);
                let hidden = self.taken.iter().filter(|other| other.meets(&area)).count();
                let near = Area::around(middle, width + 4.0, LINE + 4.0);
                let crossed = self.ink.iter().filter(|point| near.has(**point)).count();
                let own = area.distance(label.at);
                let nearer =
                    self.labels.iter().filter(|other| area.distance(other.at) < own).count();
                let away = 1.0 - (u * label.towards[0] + v * label.towards[1]);
                let blocked = usize::from(self.blocked(label.at, &area));
                let outside = usize::from(!area.within(&self.room));
                let faults = 14 * crossed.min(12) + 60 * nearer + 300 * blocked;
                let faults = faults + 10_000 * hidden + 1_000_000 * outside;
                let cost = far + 12.0 * away + faults as f64;
                if cost < best.2 {
                    best = (area, far, cost);
                }
            }
        }
        (best.0, best.1)
    }

    /// Whether the line from a mark to its label goes over something else.
    fn blocked(&self, at: Point, to: &Area) -> bool {
        let [from, end] = leader(at, to);
        let step = |k: u32, i: usize| from[i] + (end[i] - from[i]) * f64::from(k) / 16.0;
        let over = |other: &&Area| (0..16).any(|k| other.has([step(k, 0), step(k, 1)]));
        self.taken.iter().filter(|other| !other.has(at)).any(|other| over(&other))
    }

    /// The labels, each with a line to its place where that is not beside it.
    fn put_labels(&mut self) {
        for i in 0..self.labels.len() {
            let (area, far) = self.placed(&self.labels[i]);
            let Label { at, text, .. } = &self.labels[i];
            let (at, text) = (*at, text.clone());
            if far > 20.0 {
                self.line("axis", &leader(at, &area));
            }
            self.text([area.left, area.bottom - 4.0], "halo", &text);
        }
    }

    pub fn finish(mut self) -> String {
        self.put_labels();
        document(SIZE, "Made by `hall draw`.", STYLE, &self.body)
    }
}
