//! Counts of the cases that a comparison met.
use crate::compare::say;
use std::cell::Cell;

/// Counts by name.
pub struct Tally(Vec<(&'static str, Cell<u64>)>);

impl Tally {
    pub fn new(names: &[&'static str]) -> Tally {
        Tally(names.iter().map(|name| (*name, Cell::new(0))).collect())
    }

    /// One input more, and which of the cases it is.
    pub fn add(&self, cases: &[bool]) {
        assert_eq!(cases.len(), self.0.len());
        for ((_, count), &case) in self.0.iter().zip(cases) {
            count.set(count.get() + case as u64);
        }
    }

    /// The counts of another one added to these.
    pub fn join(&self, other: &Tally) {
        for ((_, count), (_, more)) in self.0.iter().zip(&other.0) {
            count.set(count.get() + more.get());
        }
    }

    /// The count of one case.
    pub fn count(&self, name: &str) -> u64 {
        let found = self.0.iter().find(|c| c.0 == name);
        found.unwrap_or_else(|| panic!("case {name}")).1.get()
    }

    /// The counts in words.
    pub fn text(&self) -> String {
        let counts = self.0.iter().map(|(case, count)| format!("{} {case}", count.get()));
        counts.collect::<Vec<_>>().join(", ")
    }

    /// Says all the counts; none of them may be 0.
    pub fn say(&self, name: &str) {
        say(&format!("{name}: {}", self.text()));
        self.ask(name);
    }

    /// None of the counts may be 0.
    pub fn ask(&self, name: &str) {
        let missing: Vec<_> = self.0.iter().filter(|c| c.1.get() == 0).map(|c| c.0).collect();
        assert!(missing.is_empty(), "{name}: never met: {missing:?}");
    }
}
