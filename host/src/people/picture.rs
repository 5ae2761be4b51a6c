//! The layers as a picture: the lowest at the foot, a crate above all that it rests on, and from each
//! crate one line up to those that rest on it.
use crate::people::architecture::Layers;
use crate::people::svg::{WIDTH, document, escaped, wrapped};
use std::fmt::Write;

/// From row to row, the height of a box, and the room for the titles.
const PITCH: f64 = 46.0;
const HEIGHT: f64 = 22.0;
const TITLES: f64 = 245.0;
/// Between two boxes or lines of a row, and at the edges.
const APART: f64 = 16.0;
const COLOURS: [&str; 7] =
    ["#1b6ca8", "#b3541e", "#2e7d32", "#7b3fa0", "#a8862b", "#b0305a", "#3f6f75"];

const STYLE: &str = "\
text { font: 12px monospace; text-anchor: middle; fill: #1c2733; }
.title { font: 11px sans-serif; text-anchor: start; fill: #4a5866; }
.box { fill: #ffffff; stroke-width: 1.4; }
path { fill: none; stroke-width: 1.4; }
";

/// Where a row has the box of a crate, or its line on the way up.
struct Spot {
    of: usize,
    boxed: bool,
    x: f64,
    half: f64,
}

#[derive(Default)]
struct Graph {
    spots: Vec<Spot>,
    /// Of each row, from left to right; the lowest row first.
    rows: Vec<Vec<usize>>,
    below: Vec<Vec<usize>>,
    above: Vec<Vec<usize>>,
}

/// The row of each crate: above all of its own layer that it rests on, and above the layers before.
fn row_of_each(layers: &Layers) -> Vec<usize> {
    let (mut rows, mut first, mut next, mut layer) = (Vec::<usize>::new(), 0, 0, 0);
    for c in &layers.crates {
        if c.layer != layer {
            (first, layer) = (next, c.layer);
        }
        let own = c.needs.iter().map(|need| rows[*need] + 1);
        let row = own.fold(first, usize::max);
        next = next.max(row + 1);
        rows.push(row);
    }
    rows
}

impl Graph {
    fn new(layers: &Layers, row: &[usize]) -> Graph {
        let mut graph = Graph::default();
        graph.rows.resize(row.iter().max().map_or(0, |last| last + 1), Vec::new());
        for (c, &r) in row.iter().enumerate() {
            let half = WIDTH * layers.crates[c].name.len() as f64 / 2.0 + 7.0;
            graph.put(Spot { of: c, boxed: true, x: 0.0, half }, r);
        }
        for (c, &from) in row.iter().enumerate() {
            let users = (0..row.len()).filter(|user| layers.crates[*user].direct.contains(&c));
            let mut line = vec![c];
            for user in users {
                while from + line.len() < row[user] {
                    let spot = Spot { of: c, boxed: false, x: 0.0, half: 1.0 };
                    let spot = graph.put(spot, from + line.len());
                    graph.link(line[line.len() - 1], spot);
                    line.push(spot);
                }
                graph.link(line[row[user] - from - 1], user);
            }
        }
        graph
    }

    fn put(&mut self, spot: Spot, row: usize) -> usize {
        let number = self.spots.len();
        self.rows[row].push(number);
        self.spots.push(spot);
        self.below.push(Vec::new());
        self.above.push(Vec::new());
        number
    }

    fn link(&mut self, lower: usize, upper: usize) {
        self.above[lower].push(upper);
        self.below[upper].push(lower);
    }

    /// The place of each spot in its row.
    fn places(&self) -> Vec<f64> {
        let mut places = vec![0.0; self.spots.len()];
        for row in &self.rows {
            row.iter().enumerate().for_each(|(at, spot)| places[*spot] = at as f64);
        }
        places
    }

    /// How often lines cross.
    fn crossings(&self) -> usize {
        let places = self.places();
        let crossed = |row: &Vec<usize>| {
            let ends =
                |spot: &usize| self.above[*spot].iter().map(|up| (*spot, *up)).collect::<Vec<_>>();
            let ends: Vec<(usize, usize)> = row.iter().flat_map(ends).collect();
            let cross = |(i, (a, up)): (usize, &(usize, usize))| {
                let later = ends[i + 1..].iter().filter(|(b, _)| places[*a] < places[*b]);
                later.filter(|(_, over)| places[*over] < places[*up]).count()
            };
            ends.iter().enumerate().map(cross).sum::<usize>()
        };
        self.rows.iter().map(crossed).sum()
    }

    /// Orders each row by the mean place of what is next to it, up and down in turn, and keeps the
    /// order with the fewest crossings.
    fn order(&mut self) {
        let mut best = (self.crossings(), self.rows.clone());
        for turn in 0..60 {
            let count = self.rows.len();
            for n in 0..count {
                let (row, next) = match turn % 2 {
                    0 => (n, &self.below),
                    _ => (count - 1 - n, &self.above),
                };
                let places = self.places();
                let key = |spot: &usize| mean(&next[*spot], &places).unwrap_or(places[*spot]);
                let mut sorted = self.rows[row].clone();
                sorted.sort_by(|a, b| key(a).total_cmp(&key(b)));
                self.rows[row] = sorted;
            }
            self.exchange();
            let crossings = self.crossings();
            if crossings < best.0 {
                best = (crossings, self.rows.clone());
            }
        }
        self.rows = best.1;
    }

    /// Exchanges neighbours while that takes crossings away.
    fn exchange(&mut self) {
        let mut now = self.crossings();
        loop {
            let before = now;
            for row in 0..self.rows.len() {
                for at in 1..self.rows[row].len() {
                    self.rows[row].swap(at - 1, at);
                    match self.crossings() {
                        fewer if fewer < now => now = fewer,
                        _ => self.rows[row].swap(at - 1, at),
                    }
                }
            }
            if now == before {
                return;
            }
        }
    }

    /// What a spot is linked with; a line's own next spots several times, so that it goes straight.
    fn pulled(&self, spot: usize) -> Vec<usize> {
        let all = || self.below[spot].iter().chain(&self.above[spot]).copied();
        let own = all().filter(|next| !self.spots[spot].boxed && !self.spots[*next].boxed);
        all().chain(own.flat_map(|next| [next; 7])).collect()
    }

    /// Moves each spot towards those that it is linked with, as far as its row lets it.
    fn move_together(&mut self) {
        for turn in 0..200 {
            for n in 0..self.rows.len() {
                let row = if turn % 2 == 0 { n } else { self.rows.len() - 1 - n };
                let x: Vec<f64> = self.spots.iter().map(|spot| spot.x).collect();
                let wanted = |spot: &usize| mean(&self.pulled(*spot), &x).unwrap_or(x[*spot]);
                let wanted: Vec<f64> = self.rows[row].iter().map(wanted).collect();
                let half: Vec<f64> = self.rows[row].iter().map(|s| self.spots[*s].half).collect();
                for (spot, x) in self.rows[row].iter().zip(apart(&wanted, &half)) {
                    self.spots[*spot].x = x;
                }
            }
        }
        let left = self.spots.iter().map(|s| s.x - s.half).fold(f64::INFINITY, f64::min);
        self.spots.iter_mut().for_each(|s| s.x += TITLES + APART - left);
    }
}

fn mean(spots: &[usize], of: &[f64]) -> Option<f64> {
    let sum: f64 = spots.iter().map(|spot| of[*spot]).sum();
    (!spots.is_empty()).then(|| sum / spots.len() as f64)
}

/// The places nearest to the wanted ones, in their order, that leave room between any two: what is
/// too near is pooled, and a pool stands at its mean.
fn apart(wanted: &[f64], half: &[f64]) -> Vec<f64> {
    let mut room = vec![0.0];
    for pair in half.windows(2) {
        room.push(room[room.len() - 1] + pair[0] + pair[1] + APART);
    }
    let mut pools: Vec<(f64, usize)> = Vec::new();
    for (x, before) in wanted.iter().zip(&room) {
        pools.push((x - before, 1));
        while let [.., a, b] = pools[..] {
            if a.0 < b.0 {
                break;
            }
            let size = a.1 + b.1;
            let both = (a.0 * a.1 as f64 + b.0 * b.1 as f64) / size as f64;
            pools.truncate(pools.len() - 2);
            pools.push((both, size));
        }
    }
    let pooled = pools.iter().flat_map(|(x, size)| vec![*x; *size]);
    pooled.zip(&room).map(|(x, before)| x + before).collect()
}

/// The y of a row's middle.
fn middle(rows: usize, row: usize) -> f64 {
    PITCH * ((rows - 1 - row) as f64 + 0.5)
}

/// A stripe for each layer, with its title.
fn stripes(layers: &Layers, row: &[usize], width: f64) -> String {
    let rows = row.iter().max().map_or(0, |last| last + 1);
    let mut text = String::new();
    for (layer, (title, words)) in layers.titles.iter().enumerate() {
        let own = || (0..row.len()).filter(|c| layers.crates[*c].layer == layer).map(|c| row[c]);
        let (Some(low), Some(high)) = (own().min(), own().max()) else { continue };
        let (y, height) = (middle(rows, high) - PITCH / 2.0, PITCH * (high + 1 - low) as f64);
        let fill = ["#f4f6f8", "#ffffff"][layer % 2];
        let _ = writeln!(
            text,
            "<rect x=\"0\" y=\"{y}\" width=\"{width:.0}\" height=\"{height}\" fill=\"{fill}\"/>"
        );
        for (n, line) in wrapped(&format!("{title}: {words}"), 38).iter().enumerate() {
            let y = y + 14.0 + 13.0 * n as f64;
            let line = escaped(line);
            let _ = writeln!(text, "<text class=\"title\" x=\"8\" y=\"{y}\">{line}</text>");
        }
    }
    text
}

/// The lines up from each crate, in one colour.
fn lines(graph: &Graph) -> String {
    let mut paths = vec![String::new(); graph.spots.iter().filter(|s| s.boxed).count()];
    let rows = graph.rows.len();
    for (row, spots) in graph.rows.iter().enumerate() {
        let (top, y) = (middle(rows, row) - HEIGHT / 2.0, middle(rows, row) + HEIGHT / 2.0);
        for &spot in spots {
            let Spot { of, boxed, x, .. } = graph.spots[spot];
            if !boxed {
                let _ = write!(paths[of], "M{x:.0} {y}V{top}");
            }
            for &up in &graph.above[spot] {
                let (to, end) = (graph.spots[up].x, top - PITCH + HEIGHT);
                let bend = (top + end) / 2.0;
                let _ =
                    write!(paths[of], "M{x:.0} {top}C{x:.0} {bend} {to:.0} {bend} {to:.0} {end}");
            }
        }
    }
    let mut text = String::new();
    for (c, path) in paths.iter().enumerate().filter(|(_, path)| !path.is_empty()) {
        let _ = writeln!(text, "<path stroke=\"{}\" d=\"{path}\"/>", COLOURS[c % COLOURS.len()]);
    }
    text
}

fn boxes(layers: &Layers, graph: &Graph, row: &[usize]) -> String {
    let mut text = String::new();
    for Spot { of, x, half, .. } in graph.spots.iter().filter(|spot| spot.boxed) {
        let (y, name) = (middle(graph.rows.len(), row[*of]), &layers.crates[*of].name);
        let (left, top, width, foot) = (x - half, y - HEIGHT / 2.0, 2.0 * half, y + 4.0);
        let colour = COLOURS[of % COLOURS.len()];
        let _ = writeln!(
            text,
            "<rect class=\"box\" stroke=\"{colour}\" x=\"{left:.0}\" y=\"{top}\" width=\"{width:.0}\" height=\"{HEIGHT}\" rx=\"4\"/>\
             <text x=\"{x:.0}\" y=\"{foot}\">{name}</text>"
        );
    }
    text
}

/// docs/layers.svg
pub fn drawn(layers: &Layers) -> String {
    let row = row_of_each(layers);
    let mut graph = Graph::new(layers, &row);
    graph.order();
    graph.move_together();
    let width = graph.spots.iter().map(|s| s.x + s.half).fold(0.0, f64::max) + APART;
    let height = PITCH * graph.rows.len() as f64;
    let body = [stripes(layers, &row, width), lines(&graph), boxes(layers, &graph, &row)].concat();
    document([width, height], "Made by `hall documents` from crates.txt.", STYLE, &body)
}

#[cfg(test)]
mod tests {
    use super::*;
    use crate::people::documents::root;

    #[test]
    fn nothing_lies_over_a_box() {
        let text = std::fs::read_to_string(root().join("crates.txt")).expect("crates.txt");
        let layers = Layers::read(&text);
        let mut graph = Graph::new(&layers, &row_of_each(&layers));
        graph.order();
        graph.move_together();
        for row in &graph.rows {
            for pair in row.windows(2) {
                let [a, b] = [&graph.spots[pair[0]], &graph.spots[pair[1]]];
                assert!(a.x + a.half + APART <= b.x - b.half + 0.001);
            }
        }
    }

    #[test]
    fn a_line_for_each_dependency() {
        let layers = Layers::read("# A: a.\na:\nb: a\n# B: b.\nc: a\nd: a b c\n");
        let rows = row_of_each(&layers);
        assert_eq!(rows, [0, 1, 2, 3]);
        let graph = Graph::new(&layers, &rows);
        let up = |spot: usize| graph.above[spot].iter().map(|up| graph.spots[*up].of);
        assert_eq!(up(0).collect::<Vec<_>>(), [1, 0]);
        assert_eq!(up(1).collect::<Vec<_>>(), [1]);
        assert_eq!(up(2).collect::<Vec<_>>(), [3]);
    }
}
