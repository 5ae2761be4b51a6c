//! Why the untouched Rust departs from the reference build: one leaf at a time put back
//! (build/causes.rs), over made lists.
use crate::compare::answer::Answer;
use crate::compare::say;
use crate::compare::ways;
use crate::inputs::lists::{KINDS, handed_in, tolerance};
use crate::inputs::quadratics::TOL;
use crate::inputs::random::Random;
use crate::people::differences::steps;
use crate::runs::lists::{beside, reference, shown};
use crate::truth::angle::Sine;

include!(concat!(env!("OUT_DIR"), "/causes.rs"));

/// What a cause makes.
#[derive(Default)]
struct Made {
    bits: u64,
    count: u64,
    multiplicity: u64,
    /// Departures that the untouched Rust has alike.
    alike: u64,
    /// The largest distances of places, in doubles and in parts of the larger one.
    steps: u64,
    relative: f64,
    /// Departures in bits alone by more than 2^-40 of the place.
    far: u64,
    /// Departures at the tolerance 2^-30: all, and those that a mechanic could notice, in count, in
    /// multiplicity or by more than the band `tol * (1 + |x|)`.
    usual: u64,
    noticed: u64,
    /// The shortest input of each sort of departure that the untouched Rust has alike.
    shown: [Option<Line>; 3],
}

/// A line about an input, and how many digits other than 0 the input has.
type Line = (usize, String);

fn digits(input: &str) -> usize {
    input.bytes().filter(|b| b.is_ascii_hexdigit() && *b != b'0').count()
}

impl Made {
    /// What the list is answered with the leaf put back, and by the reference build.
    fn add(&mut self, answer: &Answer, wanted: &Answer, untouched: &Answer, input: (&[f64], f64)) {
        if answer.same_roots(wanted) {
            return;
        }
        let sort = match () {
            _ if answer.len != wanted.len => 1,
            _ if answer.multiplicities().ne(wanted.multiplicities()) => 2,
            _ => 0,
        };
        *[&mut self.bits, &mut self.count, &mut self.multiplicity][sort] += 1;
        let alike = answer.same_roots(untouched);
        self.alike += alike as u64;
        let pairs = || answer.roots().iter().zip(wanted.roots()).map(|(a, b)| (a.value, b.value));
        if sort == 0 {
            let apart = |(a, b): (f64, f64)| {
                let size = a.abs().max(b.abs());
                if a == b { 0.0 } else { (a - b).abs() / size }
            };
            let relative = pairs().map(apart).fold(0.0, f64::max);
            self.far += (relative > 2f64.powi(-40)) as u64;
            self.relative = self.relative.max(relative);
            self.steps = pairs().map(|(a, b)| steps(a, b)).max().unwrap_or(0).max(self.steps);
        }
        if input.1 == TOL {
            let moved = || pairs().any(|(a, b)| (a - b).abs() > TOL * (1.0 + b.abs()));
            self.usual += 1;
            self.noticed += (sort > 0 || moved()) as u64;
        }
        let text = shown(input.0, input.1);
        if alike && self.shown[sort].as_ref().is_none_or(|line| digits(&text) < line.0) {
            let (here, there) = (answer.text(), wanted.text());
            let line = format!("{text}: {here}, reference build {there}");
            self.shown[sort] = Some((digits(&text), line));
        }
    }

    fn row(&self, title: &str) -> String {
        let Made { bits, count, multiplicity, alike, steps, relative, far, usual, noticed, .. } =
            self;
        format!(
            "| {title} | {bits} | {count} | {multiplicity} | {alike} | {steps} | {relative:.1e} | {far} | {noticed} of {usual} |"
        )
    }
}

/// The long run; true, as nothing is compared with the port here.
pub fn run(count: u64, seed: u64) -> bool {
    let (mut r, mut list) = (Random::new(seed), Vec::new());
    let mut all: Vec<Made> = ALL.iter().map(|_| Made::default()).collect();
    let mut whole = Made::default();
    let (mut answered, mut departed, mut by_none) = (0, 0, 0);
    let mut beyond: Vec<Line> = Vec::new();
    for n in 0..count {
        handed_in(&mut r, (n % KINDS.len() as u64) as usize, n, &mut list);
        let tol = tolerance(&mut r);
        let before = ways::counts();
        let wanted = reference(Sine::OfRounded, &list, tol);
        if wanted.refusal != 0 {
            continue;
        }
        answered += 1;
        if ways::since(&before)[11] > 0 {
            far_place(&mut beyond, &shown(&list, tol), &wanted);
        }
        let untouched = beside(Sine::OfRounded, &list, tol);
        whole.add(&untouched, &wanted, &untouched, (&list, tol));
        let mut one = false;
        for (made, (_, _, _, tree)) in all.iter_mut().zip(&ALL) {
            let answer = (tree.list)(&list, tol);
            one |= !answer.same_roots(&wanted);
            made.add(&answer, &wanted, &untouched, (&list, tol));
        }
        departed += !untouched.same_roots(&wanted) as u64;
        by_none += (!one && !untouched.same_roots(&wanted)) as u64;
    }
    say(&format!(
        "{answered} answered of {count} lists, seed {seed}; {departed} depart, {by_none} of them by no leaf alone"
    ));
    say(
        "| put back | in bits alone | in count | in multiplicity | as the untouched Rust | most doubles apart | most in parts | beyond 2^-40 | to notice \
         at 2^-30 |\n|---|---|---|---|---|---|---|---|---|",
    );
    for (made, (title, what, ..)) in all.iter().zip(&ALL) {
        say(&made.row(&format!("{title}: {what}")));
    }
    say(&whole.row("all of them: the untouched Rust"));
    for (made, (title, ..)) in all.iter().zip(&ALL) {
        for (sort, line) in ["bits", "count", "multiplicity"].iter().zip(&made.shown) {
            if let Some((_, line)) = line {
                say(&format!("{title}, {sort}: {line}"));
            }
        }
    }
    beyond.iter().for_each(|(_, line)| say(&format!("polished beyond 4: {line}")));
    true
}

/// Keeps the eight shortest.
fn far_place(beyond: &mut Vec<Line>, input: &str, answer: &Answer) {
    beyond.push((digits(input), format!("{input}: {}", answer.text())));
    beyond.sort_by_key(|line| line.0);
    beyond.truncate(8);
}
