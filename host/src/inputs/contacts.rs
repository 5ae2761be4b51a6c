//! Paths and circles to compare on: far from the pin, through it and grazing it, by a few doubles
//! more or less, and what is refused.
use crate::inputs::leaves::step;
use crate::inputs::random::Random;
use crate::truth::contact::Contact;
use crate::truth::exact::ldexp;

/// The kinds of records.
pub const KINDS: [&str; 15] = [
    "of any doubles",
    "far from the pin",
    "through it",
    "grazing it exactly",
    "nearly grazing it",
    "grazing it at the start",
    "nearly grazing it twice",
    "on a lane",
    "from the pin's centre",
    "with a tiny or huge circle",
    "standing or nearly so",
    "about to overflow",
    "not finite",
    "with no radius",
    "of edges",
];

/// The kinds before this one, but for the first, are hardly ever refused.
const SCALED: u64 = 9;

/// A record of a kind.
pub fn contact(r: &mut Random, which: usize) -> Contact {
    match which {
        0 => any(r),
        1 => far(r),
        2 => through(r),
        3 => grazing_exactly(r),
        4 => grazing(r),
        5 => grazing_at_start(r),
        6 => grazing_twice(r),
        7 => on_a_lane(r),
        8 => from_centre(r),
        9 => scaled(r),
        10 => standing(r),
        11 => about_to_overflow(r),
        12 => not_finite(r),
        13 => with_no_radius(r),
        _ => Contact::new(std::array::from_fn(|_| r.edge())),
    }
}

/// One of those kinds.
fn plain(r: &mut Random) -> Contact {
    let which = 1 + r.below(SCALED - 1) as usize;
    contact(r, which)
}

/// From -1 to 1.
fn within_one(r: &mut Random) -> f64 {
    2.0 * r.unit() - 1.0
}

/// Of few digits, so that products of a few are exact.
fn short(r: &mut Random) -> f64 {
    (r.below(33) as f64 - 16.0) / 8.0
}

const CONFUSIONS: [f64; 10] = [
    0.0,
    -0.0,
    -1.0,
    -f64::from_bits(1),
    f64::from_bits(1),
    f64::MIN_POSITIVE,
    f64::MAX,
    -f64::MAX,
    1.0,
    0.125,
];

/// 2^-30, 1e-7, 0, another power of two with either sign, or one of those.
fn confusion(r: &mut Random) -> f64 {
    match r.below(8) {
        0 | 1 => ldexp(1.0, -30),
        2 => 1e-7,
        3 => 0.0,
        4 => -ldexp(1.0 + r.unit(), -(r.below(60) as i32)),
        5 | 6 => ldexp(1.0 + r.unit(), -(r.below(60) as i32)),
        _ => CONFUSIONS[r.below(CONFUSIONS.len() as u64) as usize],
    }
}

/// A number that moves the radius: 0, a few doubles, about the confusion, or more.
fn off(r: &mut Random, radius: f64, confusion: f64) -> f64 {
    match r.below(4) {
        0 => 0.0,
        1 => step(radius, r.below(9) as i64 - 4) - radius,
        2 => 2.0 * within_one(r) * confusion,
        _ => within_one(r) * ldexp(radius, -(r.below(50) as i32)),
    }
}

/// The path at `place` at the time t, with this speed there, bent by so much.
fn path(place: f64, speed: f64, bend: f64, t: f64) -> [f64; 3] {
    [place - speed * t + bend * t * t, speed - 2.0 * bend * t, bend]
}

/// A bend, often none.
fn bend(r: &mut Random) -> f64 {
    if r.below(3) == 0 { 0.0 } else { within_one(r) }
}

/// Slow or fast.
fn speed(r: &mut Random) -> f64 {
    within_one(r) * ldexp(1.0, r.below(20) as i32 - 12)
}

fn any(r: &mut Random) -> Contact {
    let numbers = match r.below(2) {
        0 => std::array::from_fn(|_| r.any()),
        _ => std::array::from_fn(|_| ldexp(within_one(r), r.below(600) as i32 - 300)),
    };
    let radius = numbers[9].abs();
    Contact { radius, ..Contact::new(numbers) }
}

/// At some time at this place, seen from the centre.
fn passing(r: &mut Random, [x, y]: [f64; 2], radius: f64) -> Contact {
    let (t, centre) = (4.0 * within_one(r), [within_one(r), within_one(r)]);
    let [x, y] = [x + centre[0], y + centre[1]].map(|place| path(place, speed(r), bend(r), t));
    Contact { confusion: confusion(r), x, y, centre, radius }
}

fn far(r: &mut Random) -> Contact {
    let (away, radius) = ([10.0 + 90.0 * r.unit(), 100.0 * within_one(r)], 0.01 + r.unit());
    passing(r, away, radius)
}

fn through(r: &mut Random) -> Contact {
    let radius = 0.01 + r.unit();
    let inside = [0.7 * radius * within_one(r), 0.7 * radius * within_one(r)];
    passing(r, inside, radius)
}

/// Whole triangles with a right angle, so that the distance is exact.
const RIGHT: [[f64; 3]; 5] =
    [[3.0, 4.0, 5.0], [5.0, 12.0, 13.0], [8.0, 15.0, 17.0], [1.0, 0.0, 1.0], [0.0, 1.0, 1.0]];

fn grazing_exactly(r: &mut Random) -> Contact {
    let [a, b, c] = RIGHT[r.below(5) as usize];
    let (size, fast, t) = (0.125 + short(r).abs(), short(r), short(r));
    let centre = [short(r), short(r)];
    let bends = if r.below(2) == 0 { [0.0; 2] } else { [a, b].map(|x| x * short(r)) };
    let x = path(centre[0] + a * size, -b * fast, bends[0], t);
    let y = path(centre[1] + b * size, a * fast, bends[1], t);
    Contact { confusion: confusion(r), x, y, centre, radius: c * size }
}

fn grazing(r: &mut Random) -> Contact {
    let (sin, cos) = (6.3 * r.unit()).sin_cos();
    let (size, fast, t) = (0.05 + r.unit(), speed(r), 4.0 * within_one(r));
    let (centre, confusion) = ([within_one(r), within_one(r)], confusion(r));
    let x = path(centre[0] + size * cos, -sin * fast, bend(r), t);
    let y = path(centre[1] + size * sin, cos * fast, bend(r), t);
    Contact { confusion, x, y, centre, radius: size + off(r, size, confusion) }
}

/// The ball is nearest, or nearly, at 0, and the speed's angle is right to the last digit: what is
/// rounded in the distance and in the equation's constant decides.
fn grazing_at_start(r: &mut Random) -> Contact {
    let [x, y] = [within_one(r), within_one(r)];
    let fast = ldexp(1.0, r.below(12) as i32 - 8);
    let bends = if r.below(2) == 0 { [0.0; 2] } else { [0.25 * x, 0.25 * y] };
    let (x, y) = ([x, -y * fast, bends[0]], [y, x * fast, bends[1]]);
    let still = Contact { confusion: 0.0, x, y, centre: [0.0; 2], radius: 0.0 };
    let radius = step(still.distance(0.0), r.below(5) as i64 - 2);
    let confusion = match r.below(3) {
        0 => 0.0,
        1 => -ldexp(1.0, -(r.below(80) as i32)),
        _ => confusion(r),
    };
    Contact { confusion, radius, ..still }
}

/// X = a + b t² and Y = c t, which graze where t² = u: there a² - R² = b² u² and c² = -2ab - 2b² u.
fn grazing_twice(r: &mut Random) -> Contact {
    let (size, b, u, confusion) = (0.05 + r.unit(), 0.05 + r.unit(), 4.0 * r.unit(), confusion(r));
    let a = -(size * size + b * b * (u * u)).sqrt();
    let c = (-2.0 * a * b - 2.0 * b * b * u).sqrt();
    let centre = if r.below(2) == 0 { [0.0; 2] } else { [within_one(r), within_one(r)] };
    let (x, y) = ([centre[0] + a, 0.0, b], [centre[1], c, 0.0]);
    Contact { confusion, x, y, centre, radius: size + off(r, size, confusion) }
}

/// In metres and seconds: a ball with some hook, and one of the pins.
pub fn on_a_lane(r: &mut Random) -> Contact {
    let x = [1.05 * r.unit(), 0.3 * within_one(r), 0.15 * within_one(r)];
    let y = [0.0, 6.0 + 3.0 * r.unit(), -0.4 * r.unit()];
    let centre = [0.07 + 0.15 * r.below(7) as f64, 18.29 + 0.264 * r.below(4) as f64];
    Contact { confusion: confusion(r), x, y, centre, radius: 0.168 + 0.004 * r.unit() }
}

fn from_centre(r: &mut Random) -> Contact {
    let mut from = through(r);
    from.centre = [from.x[0], from.y[0]];
    from
}

/// Another one with all lengths, or the circle alone, times a power of two.
fn scaled(r: &mut Random) -> Contact {
    let (of, by) = (plain(r), ldexp(1.0, r.below(1000) as i32 - 500));
    let by_all = |a: [f64; 3]| a.map(|x| x * by);
    let radius = of.radius * by;
    match r.below(2) {
        0 => Contact { radius, ..of },
        _ => {
            let (x, y, centre) = (by_all(of.x), by_all(of.y), of.centre.map(|x| x * by));
            Contact { x, y, centre, radius, confusion: of.confusion * by }
        }
    }
}

/// Without speed, or with one whose square is 0 or nearly.
fn standing(r: &mut Random) -> Contact {
    let mut still = |place: f64| {
        let mut none = || match r.below(8) {
            0..=3 => 0.0,
            4 | 5 => -0.0,
            6 => within_one(r) * ldexp(1.0, -530),
            _ => r.subnormal(),
        };
        [place, none(), none()]
    };
    let (x, y) = (still(0.5), still(-0.25));
    Contact { x, y, ..plain(r) }
}

/// Squares and products on either side of 2^1024.
fn about_to_overflow(r: &mut Random) -> Contact {
    let size = ldexp(1.0, 512 - [0, 0, 0, 1, 2, 40][r.below(6) as usize]);
    let mut number = || match r.below(8) {
        0 => 0.0,
        1 => 0.01 * within_one(r) * size,
        _ => (0.4 + 0.5 * r.unit()) * if r.below(2) == 0 { size } else { -size },
    };
    let (x, y) = (std::array::from_fn(|_| number()), std::array::from_fn(|_| number()));
    let (radius, centre) = (number().abs(), [number(), number()]);
    let centre = if r.below(2) == 0 { [0.0; 2] } else { centre };
    let confusion = if r.below(2) == 0 { confusion(r) } else { size * r.unit() };
    Contact { confusion, x, y, centre, radius }
}

const NOT_FINITE: [f64; 3] = [f64::INFINITY, f64::NEG_INFINITY, f64::NAN];

fn not_finite(r: &mut Random) -> Contact {
    let mut numbers = plain(r).numbers();
    for _ in 0..=r.below(2) {
        numbers[r.below(10) as usize] = NOT_FINITE[r.below(3) as usize];
    }
    Contact::new(numbers)
}

/// Zeros of both signs and what is below, now and then with what is refused before or behind it.
fn with_no_radius(r: &mut Random) -> Contact {
    let from = match r.below(8) {
        0 => not_finite(r),
        1 => standing(r),
        2 => about_to_overflow(r),
        _ => plain(r),
    };
    let sizes = [0.0, -0.0, -from.radius.abs(), -f64::from_bits(1), -f64::MAX];
    Contact { radius: sizes[r.below(5) as usize], ..from }
}

#[cfg(test)]
mod tests {
    use super::*;

    #[test]
    fn what_is_said_to_graze_does() {
        let mut r = Random::new(3);
        for _ in 0..1_000 {
            let exact = grazing_exactly(&mut r);
            let t = -exact.coefficients()[1] / (2.0 * exact.coefficients()[2]);
            let straight = exact.x[2] == 0.0 && exact.y[2] == 0.0;
            if straight && exact.refusal() == 0 {
                assert_eq!(exact.distance(t), exact.radius, "{exact:?}");
            }
            let start = grazing_at_start(&mut r);
            assert_eq!(start.coefficients()[1], 0.0, "{start:?}");
        }
    }

    #[test]
    fn every_refusal() {
        let mut r = Random::new(4);
        let mut met = [0; 13];
        for n in 0..15_000 {
            met[contact(&mut r, n % KINDS.len()).refusal() as usize] += 1;
        }
        assert!([0, 2, 10, 11, 12].iter().all(|&n| met[n] > 100), "{met:?}");
    }
}
