//! `hall draw`: the pictures as text.
mod run;

use host::inputs::hall_files::records;
use host::inputs::random::Random;
use host::people::draw::drawn;
use host::people::show::shown;
use host::people::svg::WIDTH;
use host::port::list_file;
use host::truth::hall_file::file;
use run::{hall, made, said, scratch, text};
use std::collections::HashMap;
use std::fs;

/// An element without its children: what it has, and the text behind its start.
#[derive(Debug)]
struct Element {
    name: String,
    has: HashMap<String, String>,
    text: String,
}

impl Element {
    fn class(&self) -> &str {
        self.has.get("class").map_or("", |class| class)
    }

    fn number(&self, name: &str) -> f64 {
        self.has[name].parse().unwrap()
    }

    /// The middle of a circle, or of a path that ends where it began.
    fn place(&self) -> [f64; 2] {
        if self.name == "circle" {
            return [self.number("cx"), self.number("cy")];
        }
        let path = points(&self.has["d"]);
        [0, 1].map(|i| path.iter().skip(1).map(|p| p[i]).sum::<f64>() / (path.len() - 1) as f64)
    }

    /// Left, top, right and bottom of a text.
    fn area(&self) -> [f64; 4] {
        let [x, y] = ["x", "y"].map(|name| self.number(name));
        let wide = if self.class() == "title" { WIDTH * 7.0 / 6.0 } else { WIDTH };
        [x, y - 9.0, x + wide * self.text.chars().count() as f64, y + 3.0]
    }
}

/// A text of XML without its entities.
fn plain(text: &str) -> String {
    assert!(!text.contains(['<', '>']), "{text}");
    for entity in text.split('&').skip(1) {
        assert!(["amp;", "lt;", "gt;"].iter().any(|known| entity.starts_with(known)), "{text}");
    }
    text.replace("&lt;", "<").replace("&gt;", ">").replace("&amp;", "&")
}

fn attributes(tag: &str) -> HashMap<String, String> {
    let mut all = HashMap::new();
    let mut rest = tag.trim();
    while !rest.is_empty() {
        let (name, behind) = rest.split_once("=\"").expect(tag);
        let (value, behind) = behind.split_once('"').expect(tag);
        assert!(all.insert(name.to_string(), plain(value)).is_none(), "{name} twice: {tag}");
        rest = behind.trim_start();
    }
    all
}

/// The elements of a well-formed picture, in order.
fn elements(svg: &str) -> Vec<Element> {
    let (mut all, mut open): (Vec<Element>, Vec<usize>) = (Vec::new(), Vec::new());
    assert!(svg.starts_with("<svg ") && svg.ends_with("</svg>\n"), "{svg}");
    for part in svg.split('<').skip(1) {
        let (tag, behind) = part.split_once('>').expect("an end of the tag");
        if tag.starts_with("!--") {
            assert!(tag.ends_with("--"), "{tag}");
        } else if let Some(name) = tag.strip_prefix('/') {
            assert_eq!(open.pop().map(|i: usize| all[i].name.clone()), Some(name.to_string()));
        } else {
            let whole = tag.strip_suffix('/');
            let (name, has) = whole.unwrap_or(tag).split_once(' ').unwrap_or((tag, ""));
            let element =
                Element { name: name.to_string(), has: attributes(has), text: plain(behind) };
            if whole.is_none() {
                open.push(all.len());
            }
            all.push(element);
        }
    }
    assert!(open.is_empty());
    all
}

/// The points of a path.
fn points(path: &str) -> Vec<[f64; 2]> {
    let pair = |pair: &str| {
        let (x, y) = pair.split_once(' ').expect(path);
        [x, y].map(|n| n.parse().expect(path))
    };
    path.trim_end_matches('Z').split(['M', 'L']).skip(1).map(pair).collect()
}

/// Well formed, all of it within the picture, and no label on another text.
fn checked(svg: &str) -> Vec<Element> {
    let all = elements(svg);
    assert_eq!(all[0].has["viewBox"], "0 0 800 600");
    let inside = |[x, y]: [f64; 2]| (0.0..=800.0).contains(&x) && (0.0..=600.0).contains(&y);
    for element in &all {
        // a tolerance may be infinite
        let own = element.text.starts_with("record ");
        for value in element.has.values().chain([&element.text]).filter(|_| !own) {
            assert!(!["NaN", "nan", "inf"].iter().any(|no| value.contains(no)), "{element:?}");
        }
        match &element.name[..] {
            "circle" => {
                let ([x, y], r) = (element.place(), element.number("r"));
                assert!(inside([x - r, y - r]) && inside([x + r, y + r]), "{element:?}");
            }
            "path" => assert!(points(&element.has["d"]).into_iter().all(inside), "{element:?}"),
            "text" => {
                let [left, top, right, bottom] = element.area();
                assert!(inside([left, top]) && inside([right, bottom]), "{element:?}");
            }
            "svg" | "style" | "title" | "rect" => {}
            name => panic!("{name}"),
        }
    }
    let texts: Vec<&Element> = all.iter().filter(|element| element.name == "text").collect();
    for (i, a) in texts.iter().enumerate().filter(|(_, a)| a.class() == "halo") {
        for b in texts.iter().take(i) {
            let ([l, t, r, m], [left, top, right, bottom]) = (a.area(), b.area());
            assert!(r <= left || right <= l || m <= top || bottom <= t, "{a:?} on {b:?}\n{svg}");
        }
    }
    all
}

/// The picture of a line of text.
fn picture(line: &str) -> Vec<Element> {
    let out = hall(&["draw", "-", "1"], &made(line));
    assert_eq!((out.status.code(), said(&out)), (Some(0), String::new()), "{line}");
    checked(&text(&out.stdout))
}

fn of_class<'a>(all: &'a [Element], class: &str) -> Vec<&'a Element> {
    all.iter().filter(|element| element.class() == class).collect()
}

/// What the labels say.
fn labels(all: &[Element]) -> Vec<&str> {
    of_class(all, "halo").iter().map(|element| &element.text[..]).collect()
}

/// How many crossings, brushes and flat places are marked; above the picture are those alone.
fn marked(all: &[Element]) -> [usize; 3] {
    let words = ["crossing", "brush", "flat"];
    for word in words {
        let key = of_class(all, &format!("key {word}"));
        let marks = of_class(all, word);
        assert_eq!(key.len(), marks.len().min(1), "{word}");
        for (mark, key) in marks.iter().zip(key) {
            assert_eq!((&mark.name, mark.has.get("r")), (&key.name, key.has.get("r")), "{word}");
            let own = all.iter().filter(|text| text.name == "text" && text.text == word);
            let beside = |text: &Element| (text.number("x") - key.place()[0]).round();
            assert!(own.map(beside).eq([12.0]), "{word}");
        }
    }
    words.map(|word| of_class(all, word).len())
}

/// Whether two places are within a pixel.
fn near(a: [f64; 2], b: [f64; 2]) -> bool {
    (a[0] - b[0]).hypot(a[1] - b[1]) < 1.0
}

/// The height at which some curve passes here, in pixels.
fn heights(all: &[Element], x: f64) -> Vec<f64> {
    let curves = of_class(all, "curve");
    let pieces = curves.iter().map(|curve| points(&curve.has["d"]));
    let pairs = pieces.flat_map(|p| p.windows(2).map(|w| [w[0], w[1]]).collect::<Vec<_>>());
    let over = pairs.filter(|[a, b]| a[0].min(b[0]) <= x && x <= a[0].max(b[0]));
    over.flat_map(|[a, b]| [a[1], b[1]]).collect()
}

/// The curve goes through each dot, and on both sides of the axis near one that counts once.
#[test]
fn curves() {
    let known: [(&str, &[&str], usize, usize); 8] = [
        ("list 2^-30 24 -50 35 -10 1", &["x = 1", "x = 2", "x = 3", "x = 4"], 4, 0),
        ("list 2^-30 -18 21 -8 1", &["x = 2", "x = 3, flat, twice"], 1, 1),
        ("list 2^-30 0 0 0 -2 1", &["x = 0, flat, 3 times", "x = 2"], 1, 1),
        ("list 2^-30 0 100 -101 1", &["x = 0", "x = 1", "x = 100"], 3, 0),
        ("list 2^-30 -1e300 0 1e-300", &["x = -1e300", "x = 1e300"], 2, 0),
        ("list 2^-30 1e-320 1e-310", &["x = -9.99989e-11"], 1, 0),
        ("quad 1e-9 1e-9 1 2 1", &["x = -1, flat, twice"], 0, 1),
        ("quad 1e-9 1e-9 1e-12 2 1", &["x = -0.5"], 1, 0),
    ];
    for (line, names, crossings, flats) in known {
        let all = picture(line);
        assert_eq!(labels(&all), names, "{line}");
        assert_eq!(marked(&all), [crossings, 0, flats], "{line}");
        let axis = points(&of_class(&all, "axis")[0].has["d"])[0][1];
        for dot in of_class(&all, "crossing") {
            let [x, y] = dot.place();
            let around = heights(&all, x);
            let (up, down) = (around.iter().any(|h| *h <= y), around.iter().any(|h| *h >= y));
            assert!((y - axis).abs() < 0.1 && up && down, "{line}: {dot:?} {around:?}");
        }
    }
}

#[test]
fn no_roots() {
    let all = picture("list 2^-30 5 -4 1");
    assert_eq!(labels(&all), ["nearest to 0 at x = 2: p(x) = 1"]);
    assert_eq!(of_class(&all, "dashed").len(), 1);
    assert_eq!(labels(&picture("list 1e-9 1e308 0 0 0 1e308")), ["nearest to 0 at x = 0"]);
    assert_eq!(labels(&picture("quad 1e-9 1e-9 0 0 5")), ["nearest to 0 at x = 0: p(x) = 5"]);
}

/// A place that exact arithmetic does not confirm is marked otherwise.
#[test]
fn doubtful_places() {
    let all = picture("list 2^-30 -6 11 -6 1 2^-359");
    assert_eq!(labels(&all), ["x = -1.17427e108", "x = 3.52138, doubtful"]);
    assert_eq!(marked(&all), [1, 0, 0]);
    assert_eq!(["doubtful", "key doubtful"].map(|class| of_class(&all, class).len()), [1, 1]);
    let joined = picture("list 2^-30 5e-20 -6e-10 1");
    assert_eq!(labels(&joined), ["x = 3e-10, flat, twice, doubtful"]);
    assert_eq!(marked(&joined), [0; 3]);
}

#[test]
fn the_title_is_the_equation() {
    let all = picture("list 2^-30 2 -3 1");
    assert_eq!(of_class(&all, "title")[0].text, "x^2 - 3 x + 2 = 0");
    assert_eq!(of_class(&all, "faint")[0].text, "record 1, list, tol 2^-30: 2 roots");
}

/// A formula is drawn as the list of its coefficients is, in t, below its text.
#[test]
fn formulas() {
    let all = picture("formula 2^-30 (t-2)^2*(t+1)");
    assert_eq!(labels(&all), ["t = -1", "t = 2, flat, twice"]);
    assert_eq!(marked(&all), [1, 0, 1]);
    assert_eq!(of_class(&all, "title")[0].text, "(t-2)^2*(t+1) = 0");
    assert_eq!(of_class(&all, "faint")[0].text, "record 1, formula, tol 2^-30: 2 roots");
    let list = picture("list 2^-30 4 0 -3 1");
    for class in ["curve", "grid", "axis", "crossing", "flat"] {
        let all = [&all, &list].map(|picture| of_class(picture, class).len());
        assert!(all[0] == all[1] && all[0] > 0, "{class}");
    }
    let path = |all: &[Element]| of_class(all, "curve")[0].has["d"].clone();
    assert_eq!(path(&all), path(&list));
    let axes =
        |all: &[Element]| ["x", "p(x)", "t", "p(t)"].map(|t| all.iter().any(|e| e.text == t));
    assert_eq!([axes(&all), axes(&list)], [[false, false, true, true], [true, true, false, false]]);
    let none = picture("formula 2^-30 t^2-4*t+5");
    assert_eq!(labels(&none), ["nearest to 0 at t = 2: p(t) = 1"]);
    // three lines of a title
    let long = format!("t{}", "+t".repeat(127));
    let all = picture(&format!("formula 1 {long}"));
    let title: Vec<&str> = of_class(&all, "title").iter().map(|line| &line.text[..]).collect();
    assert_eq!((title.len(), title.concat()), (3, format!("{long} = 0")));
}

/// 0 is to the right, and they count anticlockwise.
#[test]
fn cranks() {
    let all = picture("crank 2^-30 1 0 0 0 0.5");
    assert_eq!(labels(&all), ["60°", "120°", "240°", "300°"]);
    let circle = of_class(&all, "axis").into_iter().find(|axis| axis.name == "circle").unwrap();
    let ([x, y], r) = (circle.place(), circle.number("r"));
    assert_eq!(marked(&all), [4, 0, 0]);
    for (dot, degrees) in of_class(&all, "crossing").iter().zip([60f64, 120.0, 240.0, 300.0]) {
        let (sin, cos) = degrees.to_radians().sin_cos();
        assert!(near(dot.place(), [x + r * cos, y - r * sin]), "{degrees}");
    }
    let none = picture("crank 2^-30 0 0 1 0 3");
    assert_eq!(marked(&none), [0; 3]);
    assert!(none.iter().any(|element| element.text == "no position"));
    let straight = picture("slider 1 2 3");
    assert_eq!((labels(&straight), marked(&straight)), (vec!["0°, flat, twice"], [0, 0, 1]));
}

/// The circle and its radius.
fn pin(all: &[Element]) -> ([f64; 2], f64) {
    let pin = of_class(all, "pin")[0];
    (pin.place(), pin.number("r"))
}

/// Each contact is so many radii outside of the circle; the path goes through it.
fn beyond_the_circle(all: &[Element], radii: f64) {
    let ([x, y], r) = pin(all);
    let path: Vec<[f64; 2]> =
        of_class(all, "curve").iter().flat_map(|curve| points(&curve.has["d"])).collect();
    for mark in ["crossing", "brush", "flat"].into_iter().flat_map(|kind| of_class(all, kind)) {
        let [u, v] = mark.place();
        assert!(((u - x).hypot(v - y) - r - radii * r).abs() < 1.0, "{mark:?}");
        assert!(path.iter().any(|p| (p[0] - u).hypot(p[1] - v) < 6.0), "{mark:?}");
    }
}

#[test]
fn contacts() {
    let known: [(&str, &[&str], usize, usize); 6] = [
        ("1e-9 4 0 0 -10 2 0 1 0 5", &["t = 3", "t = 7"], 2, 0),
        ("1e-9 0.06 0 0 -1 0.5 0 0 0 0.06", &["t = 2, flat, twice"], 0, 1),
        // 10^6 times longer than the pin is wide
        ("1e-9 0.01 1e-6 0 -120000 3 0 0 0 0.06", &["t = 39999.989", "t = 40000.011"], 2, 0),
        (
            "1e-9 -3 0 1 0 0.3 0 0 0 2",
            &["t = 0", "t = -2.21062", "t = -1.01151", "t = 1.01151", "t = 2.21062"],
            4,
            0,
        ),
        // in and out again, a million later
        (
            "1e-9 0.3 0 0 0 1 -1e-6 0 0 1",
            &["t = 0", "t = -0.953938", "t = 0.95394", "t = 999999", "t = 1000001"],
            4,
            0,
        ),
        ("1e-9 4e150 0 0 -1e151 2e150 0 1e150 0 5e150", &["t = 3", "t = 7"], 2, 0),
    ];
    for (numbers, names, crossings, flats) in known {
        let all = picture(&format!("contact {numbers}"));
        assert_eq!(labels(&all), names, "{numbers}");
        assert_eq!(marked(&all), [crossings, 0, flats], "{numbers}");
        assert!(pin(&all).1 > 100.0 && !of_class(&all, "arrow").is_empty(), "{numbers}");
        beyond_the_circle(&all, 0.0);
    }
}

/// Past the pin, and over its edge and back, by as much as confusion.
#[test]
fn brushes() {
    for (across, beyond) in [(5.25, 0.05), (4.75, -0.05)] {
        let all = picture(&format!("contact 0.25 {across} 0 0 -3 1 0 0 0 5"));
        assert_eq!((labels(&all), marked(&all)), (vec!["t = 0", "t = 3, brush, twice"], [0, 1, 0]));
        beyond_the_circle(&all, beyond);
    }
}

/// A miss shows the gap, whose line is as long as the scale says.
#[test]
fn misses() {
    let all = picture("contact 1e-9 0.08 0 0 -1 0.5 0 0 0 0.06");
    assert_eq!(labels(&all), ["nearest at t = 2: gap 0.02"]);
    let gap = points(&of_class(&all, "dashed")[0].has["d"]);
    let (_, r) = pin(&all);
    assert!(((gap[1][0] - gap[0][0]) / r - 1.0 / 3.0).abs() < 0.01);
    let far = picture("contact 1e-9 1e9 1 0 0 1 0 0 0 1");
    assert_eq!(labels(&far), ["nearest at t = -5e8: gap 707107000"]);
}

#[test]
fn made_records() {
    let mut r = Random::new(7);
    let (mut pictures, mut none) = (0, 0);
    for _ in 0..40 {
        let bytes = file(&records(&mut r, 50));
        for record in shown(&bytes, list_file).unwrap().0 {
            match drawn(&record) {
                Ok(svg) => {
                    pictures += 1;
                    checked(&svg);
                }
                Err(why) => {
                    none += 1;
                    assert!(why.starts_with("it is refused") || why.contains("for a picture"));
                }
            }
        }
    }
    assert!(pictures > 1000, "{pictures} pictures, {none} none");
}

#[test]
fn no_pictures() {
    let path = scratch("drawn.hall");
    let lines = "list 1 2 -3 1\nlist 1 5\nlist 1 -1.7e308 1\nformula 1 t^5\nformula 1 0x3274";
    fs::write(&path, [&made(lines)[..], b"XX"].concat()).unwrap();
    let path = path.to_str().unwrap();
    let known: [(&[&str], u8, &str); 11] = [
        (&["draw", path, "2"], 1, "record 2 is not drawn: it is refused under 2: no equation"),
        (&["draw", path, "3"], 1, "record 3 is not drawn: its places are too far apart"),
        (&["draw", path, "4"], 1, "record 4 is not drawn: it is refused under 14: `t^5` comes to"),
        (&["draw", path, "5"], 1, "record 5 is not drawn: it is refused under 13: no sum: `t`"),
        (&["draw", path, "6"], 1, "record 6 is not drawn: it is refused under 6: byte"),
        (&["draw", path, "7"], 2, "no record 7: the file has 6"),
        (&["draw", path, "0"], 2, "no record 0"),
        (&["draw", path, "x"], 2, "`x` is no whole number"),
        (&["draw", path], 2, "a word is missing after `hall draw"),
        (&["draw", path, "1", "2"], 2, "unknown word `2`"),
        (&["draw", "/no/such/file", "1"], 1, "hall: /no/such/file: "),
    ];
    for (words, status, why) in known {
        let out = hall(words, b"");
        assert_eq!((out.status.code(), &out.stdout[..]), (Some(status.into()), &b""[..]));
        assert!(said(&out).contains(why), "{words:?}: {}", said(&out));
    }
    assert!(text(&hall(&["draw", "--help"], b"").stdout).starts_with("hall draw FILE RECORD"));
}
