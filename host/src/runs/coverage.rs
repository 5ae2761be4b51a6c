//! How often each branch of poly.rs, equation.rs and `solve_square` was taken: counters that
//! build/branches.rs puts into a copy of the reference build, and the run that reads them.
use crate::compare::say;
use crate::inputs::lists::{self, handed_in, tolerance};
use crate::inputs::pieces::Pieces;
use crate::inputs::polynomials::{self, monic};
use crate::inputs::quadratics::{quadratic, solution};
use crate::inputs::random::Random;
use crate::runs::cranks;
use crate::runs::inquiries::REPLIES;
use crate::runs::lists::{reference, tolerance_for};
use crate::runs::trees::{Tree, tree};
use crate::truth::angle::Sine;
use crate::truth::reference::covered::poly;
use std::cell::Cell;

/// A branch of geomcore's text and its counter, one of the functions below.
pub struct Branch {
    pub file: &'static str,
    pub function: &'static str,
    pub line: usize,
    pub text: &'static str,
    pub counter: &'static str,
}

include!(concat!(env!("OUT_DIR"), "/branches.rs"));

type Counts = Vec<[u64; 2]>;

thread_local! {
    static COUNTS: [[Cell<u64>; 2]; BRANCHES.len()] =
        const { [const { [const { Cell::new(0) }; 2] }; BRANCHES.len()] };
}

fn count(id: usize, way: usize) {
    COUNTS.with(|all| all[id][way].set(all[id][way].get() + 1));
}

/// A test that said yes or no.
pub fn test(id: usize, yes: bool) -> bool {
    count(id, !yes as usize);
    yes
}

/// Something or nothing.
pub fn some<T>(id: usize, value: Option<T>) -> Option<T> {
    count(id, value.is_none() as usize);
    value
}

/// An arm that was taken.
pub fn arm(id: usize) {
    count(id, 0);
}

/// Each turn of a loop, and its end.
pub fn turns<T: IntoIterator>(id: usize, all: T) -> impl Iterator<Item = T::Item> {
    let mut all = all.into_iter();
    std::iter::from_fn(move || some(id, all.next()))
}

impl Branch {
    /// The names of its ways.
    pub fn ways(&self) -> &'static [&'static str] {
        match self.counter {
            "test" => &["yes", "no"],
            "some" => &["some", "none"],
            "turns" => &["turn", "end"],
            _ => &["taken"],
        }
    }
}

const COVERED: Tree = tree!(covered);

fn all_counts() -> Counts {
    COUNTS.with(|all| all.iter().map(|ways| ways.each_ref().map(Cell::get)).collect())
}

/// What a run counts.
fn counted(run: impl FnOnce()) -> Counts {
    let before = all_counts();
    run();
    let both = all_counts().into_iter().zip(before);
    both.map(|(now, before)| [now[0] - before[0], now[1] - before[1]]).collect()
}

/// Made lists, with and without replies. The copy answers what the reference build answers.
fn of_lists(count: u64, seed: u64) {
    let (mut r, mut a) = (Random::new(seed), Vec::new());
    for n in 0..count {
        handed_in(&mut r, (n % lists::KINDS.len() as u64) as usize, n, &mut a);
        let tol = tolerance_for(&mut r, Sine::OfRounded, &a);
        let wanted = reference(Sine::OfRounded, &a, tol);
        assert!((COVERED.list)(&a, tol).same(&wanted), "{a:?} at {tol:e}");
        for touches in &REPLIES {
            (COVERED.touching)(&a, tol, touches);
        }
    }
}

fn of_cranks(count: u64, seed: u64) {
    let mut r = Random::new(seed);
    for n in 0..count {
        let (terms, tol) = (cranks::terms(&mut r, n), tolerance(&mut r));
        for touches in &REPLIES {
            (COVERED.crank)(terms, tol, touches);
        }
    }
}

fn of_quadratics(count: u64, seed: u64) {
    let mut r = Random::new(seed);
    for n in 0..count {
        let (abc, tol) = quadratic(&mut r, (n % polynomials::KINDS.len() as u64) as usize);
        (COVERED.quadratic)(abc, tol);
        (COVERED.centre)(abc[0], abc[1], tol[1]);
        let (s, x) = solution(&mut r);
        (COVERED.shifted)(s, x);
        (COVERED.touching_at)(s, x, n % 2 == 0);
    }
}

/// Functions on their own, as the tests compare them: depths, tolerances of systems, places,
/// candidates and polynomials that no list brings.
fn of_functions(count: u64, seed: u64) {
    let mut r = Random::new(seed);
    for n in 0..count {
        let pieces = Pieces::made(&mut r, n);
        (COVERED.pieces)(&pieces);
        poly::ldexp(pieces.y, r.next() as i32 >> r.below(32));
        let which = (n % polynomials::KINDS.len() as u64) as usize;
        let [b, c, d] = monic(&mut r, which);
        poly::cubic_factor(b, c, d);
        let [b, c, d, e] = monic(&mut r, which);
        poly::quartic_factor(b, c, d, e);
        poly::peel_root(b, c, d, e, pieces.y);
    }
}

/// A row: the line, the text, and each way with its counts.
fn row(branch: &Branch, whole: [u64; 2], alone: [u64; 2]) -> String {
    let way = |(i, name): (usize, &&str)| match (whole[i], alone[i]) {
        (0, 0) => format!("{name} **0**"),
        (0, n) => format!("{name} **0**, {n} on its own"),
        (n, _) => format!("{name} {n}"),
    };
    let ways: Vec<String> = branch.ways().iter().enumerate().map(way).collect();
    let text = branch.text.replace('|', "\\|");
    format!("| {} | `{text}` | {} |", branch.line, ways.join("; "))
}

/// The long run and its table; true, as nothing is compared here.
pub fn run(count: u64, seed: u64) -> bool {
    let mut runs: [fn(u64, u64); 3] = [of_lists, of_cranks, of_quadratics];
    let mut whole = vec![[0; 2]; BRANCHES.len()];
    for run in &mut runs {
        for (sum, more) in whole.iter_mut().zip(counted(|| run(count, seed))) {
            *sum = [sum[0] + more[0], sum[1] + more[1]];
        }
    }
    let alone = counted(|| of_functions(count, seed));
    let mut function = "";
    let (mut met, mut never) = ([0; 2], Vec::new());
    for ((branch, whole), alone) in BRANCHES.iter().zip(whole).zip(alone) {
        if branch.function != function {
            function = branch.function;
            say(&format!(
                "\n`{function}` ({})\n\n| line | branch | met |\n|---|---|---|",
                branch.file
            ));
        }
        say(&row(branch, whole, alone));
        for (i, way) in branch.ways().iter().enumerate() {
            met[(whole[i] == 0) as usize] += 1;
            if whole[i] == 0 {
                never.push(format!("{} {}: {way} of `{}`", branch.file, branch.line, branch.text));
            }
        }
    }
    say(&format!(
        "\n{} branches, {} ways: {} met, {} never",
        BRANCHES.len(),
        met[0] + met[1],
        met[0],
        met[1]
    ));
    never.iter().for_each(|line| say(line));
    true
}
