//! Lists that take many square systems, searched for in both modes: made ones, and from these and
//! from the best so far on by small changes, each kept where it takes no fewer. Port and reference
//! build are compared on every list.
use crate::compare::answer::Answer;
use crate::compare::say;
use crate::compare::ways;
use crate::inputs::lists::{KINDS, list, near_triple};
use crate::inputs::quadratics::TOL;
use crate::inputs::random::Random;
use crate::people::table::wrapped;
use crate::people::text;
use crate::port;
use crate::runs::lists::reference;
use crate::truth::angle::Sine;
use crate::truth::exact::ldexp;
use crate::truth::hall_file::Record;
use std::thread;

/// How a list is factored: its degree once the roots 0 are removed, whether a root is peeled off,
/// and whether a part is scaled once more.
pub const SORTS: [&str; 6] = [
    "degree 3",
    "degree 3, scaled once more",
    "degree 4",
    "degree 4, a root peeled off",
    "degree 4, scaled once more",
    "degree 4, both",
];

/// What the loop limits of each allow.
pub const LIMITS: [u32; SORTS.len()] = [8, 8, 8, 24, 16, 32];

/// Of which sort a list of degree 3 or 4 is, and the reference build's answer.
pub fn sort(sine: Sine, a: &[f64]) -> (usize, Answer) {
    let before = ways::counts();
    let answer = reference(sine, a, TOL);
    let gone = ways::since(&before);
    let names = ["second scaling at depth 0", "root peeled off"];
    let [again, peeled] = ways::named(&gone, names).map(|way| usize::from(way.1 > 0));
    (if a.len() == 4 { again } else { 2 + peeled + 2 * again }, answer)
}

/// The sort, and how many systems are solved; `wrong` counts where the port answers otherwise.
fn solved(sine: Sine, a: &[f64], wrong: &mut u64) -> (usize, u32) {
    let (sort, wanted) = sort(sine, a);
    *wrong += !port::real_roots(sine, a, TOL).same(&wanted) as u64;
    (sort, wanted.systems)
}

/// What was found of a sort.
#[derive(Clone, Default)]
pub struct Found {
    pub lists: u64,
    /// Those that were made, and not changed ones: how many, and how many systems they took.
    made: (u64, u64),
    pub most: u32,
    /// The first list that takes so many.
    pub list: Vec<f64>,
}

impl Found {
    fn add(&mut self, list: &[f64], systems: u32, made: bool) {
        self.lists += 1;
        if made {
            self.made = (self.made.0 + 1, self.made.1 + u64::from(systems));
        }
        if systems > self.most || self.list.is_empty() {
            (self.most, self.list) = (systems, list.to_vec());
        }
    }

    pub fn text(&self, sort: usize) -> String {
        let (made, systems) = self.made;
        let mean = systems as f64 / made.max(1) as f64;
        let record = Record::List { tolerance: TOL, coeffs: self.list.clone() };
        format!(
            "{}: {} lists, {made} of them made, with a mean of {mean:.2} systems; the most are {} of {}: {}",
            SORTS[sort],
            self.lists,
            self.most,
            LIMITS[sort],
            text::line(&record)
        )
    }
}

/// A list of degree 3 or 4: of the usual kinds, or with three roots near each other.
fn made(r: &mut Random, n: u64) -> Vec<f64> {
    loop {
        let (a, d) = match r.below(2) {
            0 => list(r, (n % KINDS.len() as u64) as usize, n),
            _ => near_triple(r),
        };
        if d >= 3 {
            return a[..=d as usize].to_vec();
        }
    }
}

/// A cubic times 1 - x/y for a y of 2^10 to 2^90.
fn with_far_root(r: &mut Random, a: &[f64]) -> Vec<f64> {
    let far = ldexp(1.0 + r.unit(), 10 + r.below(80) as i32);
    let far = if r.below(2) == 0 { far } else { -far };
    let all: Vec<f64> = (0..=a.len())
        .map(|i| a.get(i).unwrap_or(&0.0) - if i == 0 { 0.0 } else { a[i - 1] / far })
        .collect();
    if all[4] == 0.0 { a.to_vec() } else { all }
}

/// A list with a bit of a coefficient changed, or a coefficient a little larger or smaller, and
/// now and then a second one.
fn changed(r: &mut Random, a: &[f64]) -> Vec<f64> {
    let mut b = a.to_vec();
    for _ in 0..1 + r.below(4) / 3 {
        let x = &mut b[r.below(a.len() as u64) as usize];
        let bits = x.to_bits();
        *x = match r.below(4) {
            0 => f64::from_bits(bits ^ 1 << r.below(52)),
            1 => f64::from_bits(bits.wrapping_add(r.below(17)).wrapping_sub(8)),
            2 => *x * (1.0 + (r.unit() - 0.5) / (1u64 << r.below(52)) as f64),
            _ => [*x * 2.0, *x * 0.5, -*x, 1.5 * *x][r.below(4) as usize],
        };
    }
    let usable = b.iter().all(|x| x.is_finite()) && b[0] != 0.0 && b[b.len() - 1] != 0.0;
    if usable { b } else { a.to_vec() }
}

/// So many changes are tried from a list on, and after so many lists the best are forgotten.
const STEPS: u64 = 200;
const ROUND: u64 = 1_000_000;

/// What `count` lists show of each sort, and on how many of them port and reference build differ.
pub fn search(sine: Sine, count: u64, seed: u64) -> ([Found; SORTS.len()], u64) {
    let (mut r, mut wrong, mut tried) = (Random::new(seed), 0, 0);
    let mut all: [Found; SORTS.len()] = Default::default();
    while tried < count {
        let end = count.min(tried + ROUND);
        // of each sort the last list that takes the most of the round
        let mut best: [(u32, Vec<f64>); SORTS.len()] = Default::default();
        while tried < end {
            let chosen = &best[r.below(SORTS.len() as u64) as usize].1;
            let fresh = chosen.is_empty() || r.below(2) == 0;
            let mut from = match (fresh, chosen.len()) {
                (true, _) => made(&mut r, tried),
                (_, 4) if r.below(2) == 0 => with_far_root(&mut r, chosen),
                _ => chosen.clone(),
            };
            let (sort, mut most) = solved(sine, &from, &mut wrong);
            all[sort].add(&from, most, fresh);
            for _ in 0..STEPS.min(end - tried - 1) {
                let next = changed(&mut r, &from);
                let (its, systems) = solved(sine, &next, &mut wrong);
                all[its].add(&next, systems, false);
                tried += 1;
                if its == sort && systems >= most {
                    (from, most) = (next, systems);
                }
            }
            tried += 1;
            if most >= best[sort].0 {
                best[sort] = (most, from);
            }
        }
    }
    (all, wrong)
}

/// The long run, a thread for each mode; whether all were equal.
pub fn run(count: u64, seed: u64) -> bool {
    let searched = thread::scope(|scope| {
        let spawn = |sine| scope.spawn(move || search(sine, count, seed));
        Sine::BOTH.map(spawn).map(|found| found.join().expect("a search that ends"))
    });
    for (sine, (all, wrong)) in Sine::BOTH.into_iter().zip(&searched) {
        say(&format!("{count} lists, seed {seed}, {}, {wrong} differ", sine.words()));
        for (sort, found) in all.iter().enumerate().filter(|(_, found)| found.lists > 0) {
            say(wrapped(&found.text(sort)).trim_end());
        }
    }
    searched.iter().all(|(_, wrong)| *wrong == 0)
}
