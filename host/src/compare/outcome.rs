//! What was met in comparing the port with the reference build, and another build beside it.
use crate::compare::answer::Answer;
use crate::compare::tally::Tally;
use crate::compare::ways::{Counts, OF_LISTS, WAYS, named};
use crate::truth::angle::Sine;
use crate::truth::kind::Kind;
use crate::truth::systems::MOST as MOST_SYSTEMS;
use std::cell::Cell;

/// Ways in which another build departs from the reference build.
const DEPARTURES: [&str; 4] = ["in bits alone", "in count", "in multiplicity", "in questions"];

pub struct Outcome {
    /// What the inputs are.
    pub name: &'static str,
    /// None where no mode changes an answer.
    sine: Option<Sine>,
    pub inputs: u64,
    pub wrong: u64,
    /// The first inputs on which port and reference build differ.
    pub shown: Vec<String>,
    pub met: Tally,
    /// How many roots of each kind were compared.
    pub kinds: [u64; 3],
    /// How many answers that were compared took 0 systems, 1, and so on.
    pub systems: [u64; MOST_SYSTEMS as usize + 1],
    pub ways: Counts,
    departed: Tally,
    /// How many of the other build's answers were looked at.
    beside: Cell<u64>,
}

/// What stands beside: the untouched Rust, and in the mode of the exact c the other mode.
fn other(sine: Option<Sine>) -> &'static str {
    match sine {
        Some(Sine::OfExact) => Sine::OfRounded.words(),
        _ => "the untouched Rust",
    }
}

impl Outcome {
    pub fn new(name: &'static str, sine: Option<Sine>, cases: &[&'static str]) -> Outcome {
        let (met, departed) = (Tally::new(cases), Tally::new(&DEPARTURES));
        let ways = [0; WAYS.len()];
        let (shown, beside) = (Vec::new(), Cell::new(0));
        let (inputs, wrong, kinds, systems) = (0, 0, [0; 3], [0; MOST_SYSTEMS as usize + 1]);
        Outcome { name, sine, inputs, wrong, shown, met, kinds, systems, ways, departed, beside }
    }

    pub fn join(&mut self, other: Outcome) {
        self.inputs += other.inputs;
        self.wrong += other.wrong;
        self.shown.extend(other.shown);
        self.shown.truncate(10);
        self.met.join(&other.met);
        self.departed.join(&other.departed);
        self.beside.set(self.beside.get() + other.beside.get());
        let counts = self.ways.iter_mut().chain(&mut self.kinds).chain(&mut self.systems);
        let others = other.ways.into_iter().chain(other.kinds).chain(other.systems);
        for (all, more) in counts.zip(others) {
            *all += more;
        }
    }

    /// An input on which port and reference build differ.
    pub fn differs(&mut self, line: impl FnOnce() -> String) {
        self.wrong += 1;
        if self.shown.len() < 10 {
            self.shown.push(line());
        }
    }

    /// An answer that is compared.
    pub fn add(&mut self, answer: &Answer) {
        self.add_roots(answer.kinds());
        self.systems[answer.systems as usize] += 1;
    }

    /// The roots of an answer that is compared.
    pub fn add_roots(&mut self, kinds: impl Iterator<Item = Kind>) {
        kinds.for_each(|kind| self.kinds[kind.number() as usize] += 1);
    }

    /// Every way of inquiries was gone, and those that join roots without a question; and roots of
    /// every kind were compared.
    pub fn ask_kinds(&self) {
        let joined = named(&self.ways, ["quadratic with a double root", "roots joined"]);
        let ways = WAYS.into_iter().zip(self.ways).skip(OF_LISTS).chain(joined);
        let missing: Vec<_> = ways.filter(|way| way.1 == 0).collect();
        assert!(missing.is_empty(), "{}: never gone: {missing:?}", self.name);
        assert!(!self.kinds.contains(&0), "{}: of each kind {:?}", self.name, self.kinds);
    }

    /// The other build's answer beside the reference build's, and whether its questions are the
    /// same.
    pub fn beside(&self, given: &Answer, wanted: &Answer, questions: bool) {
        self.beside.set(self.beside.get() + 1);
        let other = !given.same_places(wanted);
        let count = other && given.len != wanted.len;
        let multiplicity = other && !count && given.multiplicities().ne(wanted.multiplicities());
        self.departed.add(&[other && !count && !multiplicity, count, multiplicity, !questions]);
    }

    /// How often it departs in its answers.
    pub fn departures(&self) -> u64 {
        DEPARTURES[..3].iter().map(|name| self.departed.count(name)).sum()
    }

    /// The lines that say it all.
    pub fn text(&self) -> String {
        let ways = WAYS.iter().zip(self.ways).map(|(way, n)| format!("{n} {way}"));
        let kinds = match self.kinds {
            [0, 0, 0] => String::new(),
            [crossing, brush, flat] => {
                format!("\nroots: {crossing} crossing, {brush} brush, {flat} flat")
            }
        };
        let systems = match self.systems.iter().rposition(|answers| *answers > 0) {
            None | Some(0) => String::new(),
            Some(most) => {
                let all: u64 = (0..).zip(self.systems).map(|(n, answers)| n * answers).sum();
                format!("\nsystems: {all} solved, at most {most} for an answer")
            }
        };
        let departed = match self.beside.get() {
            0 => String::new(),
            _ => format!("\n{} departs: {}", other(self.sine), self.departed.text()),
        };
        let mode = self.sine.map(|sine| format!(", {}", sine.words())).unwrap_or_default();
        format!(
            "{} {}{mode}, {} differ\n{}{kinds}{systems}\nthe reference build's ways: {}{departed}",
            self.inputs,
            self.name,
            self.wrong,
            self.met.text(),
            ways.collect::<Vec<_>>().join(", "),
        )
    }
}
