//! Inputs of the functions below whole lists, one of each, as the tests compare them on their own.
use crate::inputs::clustering::{
    self, Handed, candidates, gap, half, interval, near, place, scaled,
};
use crate::inputs::lists::{KINDS, List, list, steps, tolerance};
use crate::inputs::polynomials::{self, evaluated, monic, polynomial, quadratics, system};
use crate::inputs::random::Random;
use crate::port::{self, clustering as of_port, forty};
use crate::truth::angle::Sine;
use crate::truth::methods::max;

type System<const N: usize> = ([[f64; N]; N], [f64; N], f64);

pub struct Pieces {
    pub list: List,
    pub depth: u32,
    pub tol: f64,
    pub y: f64,
    pub half: f64,
    pub ends: [f64; 2],
    pub gap: f64,
    pub factor: [f64; 2],
    pub handed: Handed,
    pub quads: [f64; 4],
    pub three: System<3>,
    pub four: System<4>,
    /// A polynomial of any kind, its degree, and where to evaluate it; a cubic, and where Newton's
    /// method on it begins.
    pub at: ([f64; 5], u64, f64),
    pub start: ([f64; 5], f64),
    /// The coefficients of monic ones, highest first, and about a root of the quartic.
    pub cubic: [f64; 3],
    pub quartic: [f64; 4],
    pub about: f64,
    /// Logarithms of sizes.
    pub logs: [f64; 5],
}

/// On the grid of L with gaps of about 8 bits, beside it or anywhere; now and then one that is not
/// finite.
fn logarithms(r: &mut Random, d: u64) -> [f64; 5] {
    let which = r.below(4);
    steps(r, d as usize).map(|l| {
        let l = l.map_or(f64::NEG_INFINITY, |l| f64::from(l) / 256.0);
        match (r.below(16), which) {
            (0, _) => [f64::NAN, f64::INFINITY, f64::NEG_INFINITY, 0.0][r.below(4) as usize],
            (_, 0 | 1) => l,
            (_, 2) => f64::from_bits(l.to_bits().wrapping_add(r.below(3)).wrapping_sub(1)),
            _ => 60.0 * r.unit() - 30.0,
        }
    })
}

impl Pieces {
    pub fn made(r: &mut Random, n: u64) -> Pieces {
        let list = list(r, (n % KINDS.len() as u64) as usize, n);
        let (s, tol) = (scaled(list), max(tolerance(r), 0.0));
        let y = place(r, &s);
        let which = (n % polynomials::KINDS.len() as u64) as usize;
        let mut handed = candidates(r, &s);
        handed.pair = [(r.unit(), r.unit()), (r.unit(), r.unit())];
        handed.m = r.below(3);
        let (p, root) = polynomial(r, which, 4);
        Pieces {
            list,
            depth: if r.below(2) == 0 { 0 } else { r.below(5) as u32 },
            tol,
            y,
            half: half(r, &s, y, tol),
            ends: interval(r, y),
            gap: gap(r),
            factor: clustering::quadratic(r, &s),
            handed,
            quads: quadratics(r, which),
            three: system(r, which),
            four: system(r, which),
            at: evaluated(r, which),
            start: polynomial(r, which, 3),
            cubic: monic(r, which),
            quartic: [p[3], p[2], p[1], p[0]],
            about: near(r, root),
            logs: logarithms(r, list.1),
        }
    }

    /// What the port answers.
    pub fn by_port(&self, sine: Sine) -> Vec<f64> {
        let ((a, d), [lo, hi], [al, be]) = (self.list, self.ends, self.factor);
        let (bytes, given) = (forty(a), self.handed.bytes());
        let three = port::solve_square3(self.three.0, self.three.1, self.three.2);
        let four = port::solve_square4(self.four.0, self.four.1, self.four.2);
        let lone = port::isolated_root(self.quads);
        let within = of_port::within_band(&bytes, d, self.half, self.y, self.tol);
        [
            &port::factorize(sine, a, d, self.depth)[..],
            &[lone.0 as u8 as f64, lone.1, three.0 as u8 as f64],
            &three.1,
            &[four.0 as u8 as f64],
            &four.1,
            &[of_port::noise(&bytes, d, self.y), within as u8 as f64],
            &[of_port::band(&bytes, d, self.y, self.tol)],
            &[of_port::critical_point(&bytes, d, self.y, lo, hi)],
            &[of_port::extremum(&bytes, d, self.y, lo, hi, self.tol)],
            &[of_port::polish(&bytes, d, self.y, self.gap)],
            &of_port::push_quadratic(
                &bytes,
                d,
                [al, be, self.tol],
                &given,
                [self.handed.n, self.handed.m],
            ),
            &of_port::finish(&bytes, d, &given[..36], self.handed.n, self.tol),
            &self.below_by_port(sine),
        ]
        .concat()
    }

    /// The same of evaluation, factors and scaling.
    fn below_by_port(&self, sine: Sine) -> Vec<f64> {
        let (p, d, y) = self.at;
        let ([c0, c1, c2, c3, c4], x) = self.start;
        let (closed, n) = port::cubic_closed_form(sine, self.cubic);
        [
            &port::two_prod(p[0], y)[..],
            &[port::discriminant(self.quads[0], self.quads[1])],
            &port::value_slope(p, d, y),
            &port::compensated(p, d, y),
            &port::derivs12(p, d, y),
            &port::taylor(p, d, y),
            &[port::newton_cubic(c0, c1, c2, c3, c4, x), n as f64],
            &closed,
            &port::cubic_factor(sine, self.cubic),
            &port::quartic_factor(sine, self.quartic),
            &port::peel_root(self.quartic, self.about),
            &port::scaled_new(self.list.0, self.list.1),
            &port::magnitude_split(self.logs, self.list.1),
        ]
        .concat()
    }
}

/// What a copy answers.
macro_rules! pieces {
    ($tree:ident) => {
        |p: &crate::inputs::pieces::Pieces| -> Vec<f64> {
            use crate::truth::reference::$tree::{poly, solve};
            let ((a, d), [lo, hi], [al, be]) = (p.list, p.ends, p.factor);
            let s = poly::Scaled::new(&a[..=d as usize]);
            let f = poly::factorize(&s, p.depth);
            let [q0, q1] = f.quad.map(|(al, be)| [al, be]);
            let three = solve::solve_square(p.three.0, p.three.1, p.three.2);
            let four = solve::solve_square(p.four.0, p.four.1, p.four.2);
            let lone = poly::isolated_root(&[(p.quads[0], p.quads[1]), (p.quads[2], p.quads[3])]);
            let h = &p.handed;
            let candidates = || poly::Candidates {
                value: h.value,
                mult: h.mult.map(u32::from),
                len: h.n as usize,
            };
            let [(c0, h0), (c1, h1)] = h.pair;
            let mut pairs = poly::Pairs { centre: [c0, c1], half: [h0, h1], len: h.m as usize };
            let mut found = candidates();
            s.push_quadratic(al, be, p.tol, &mut found, &mut pairs);
            let done = s.finish(candidates(), p.tol);
            let numbers = |c: &poly::Candidates, of_kind| {
                crate::inputs::clustering::numbers(c.len, c.value, c.mult, of_kind)
            };
            let pair = |(a, b): (f64, f64)| [a, b];
            let (at, n, y) = (p.at.0, p.at.1 as usize, p.at.2);
            let [b2, b1, b0] = p.cubic;
            let [e3, e2, e1, e0] = p.quartic;
            let (closed, count) = poly::cubic_closed_form(b2, b1, b0);
            let factor: [f64; 3] = poly::cubic_factor(b2, b1, b0).into();
            let factors = poly::quartic_factor(e3, e2, e1, e0).map(pair);
            let peeled: [f64; 4] = poly::peel_root(e3, e2, e1, e0, p.about).into();
            let gap = poly::magnitude_split(&p.logs, d as usize);
            let (small, threshold) = gap.unwrap_or((0, 0.0));
            // lg is read at degree 3 and 4 alone, and the port leaves it at minus infinity below
            let lg = if d < 3 { [f64::NEG_INFINITY; 5] } else { s.lg };
            [
                &[f.nlin as f64][..],
                &f.lin,
                &[f.nquad as f64],
                &q0,
                &q1,
                &[lone.is_some() as u8 as f64, lone.unwrap_or(f64::NAN)],
                &[three.is_some() as u8 as f64],
                &three.unwrap_or([0.0; 3]),
                &[four.is_some() as u8 as f64],
                &four.unwrap_or([0.0; 4]),
                &[s.noise(p.y), s.within_band(p.half, p.y, p.tol) as u8 as f64],
                &[s.band(p.y, p.tol), s.critical_point(p.y, lo, hi)],
                &[s.extremum(p.y, lo, hi, p.tol).unwrap_or(f64::NAN), s.polish(p.y, p.gap)],
                &numbers(&found, 4),
                &[pairs.len as f64, pairs.centre[0], pairs.half[0], pairs.centre[1], pairs.half[1]],
                &numbers(&done, done.len),
                &pair(poly::two_prod(at[0], y)),
                &[poly::discriminant(p.quads[0], p.quads[1])],
                &pair(poly::value_slope(&at, n, y)),
                &pair(poly::value_slope_compensated(&at, n, y)),
                &pair(poly::derivs12(&at, n, y)),
                &poly::taylor(&at, n, y),
                &[poly::newton_cubic(&p.start.0, p.start.1), count as f64],
                &closed,
                &factor,
                factors.as_flattened(),
                &peeled,
                &s.f,
                &s.g,
                &lg,
                &[s.d as f64, s.e as f64, s.unit],
                &[gap.is_some() as u8 as f64, small as f64, threshold],
            ]
            .concat()
        }
    };
}
pub(crate) use pieces;
