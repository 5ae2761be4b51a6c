//! Comparing two answers over many inputs: NaNs count as one value, everything else is compared bit
//! for bit, signs of zeros included.
pub mod answer;
pub mod lent_bytes;
pub mod outcome;
pub mod tally;
pub mod ways;

use crate::inputs::random::Random;
use std::io::{ErrorKind, Write};

/// Inputs of one kind.
pub struct Kind<T> {
    pub name: &'static str,
    pub inputs: Vec<T>,
}

pub fn kind<T>(name: &'static str, inputs: Vec<T>) -> Kind<T> {
    Kind { name, inputs }
}

/// The bits of x; all NaNs have one pattern.
pub fn bits(x: f64) -> u64 {
    match x.is_nan() {
        true => 0x7FF8_0000_0000_0000,
        false => x.to_bits(),
    }
}

/// What can be compared, and shown where it differs.
pub trait Shown {
    fn shown(&self) -> String;
}

impl Shown for f64 {
    fn shown(&self) -> String {
        format!("{:016X}", self.to_bits())
    }
}

impl Shown for i32 {
    fn shown(&self) -> String {
        self.to_string()
    }
}

impl Shown for u32 {
    fn shown(&self) -> String {
        self.to_string()
    }
}

impl Shown for u64 {
    fn shown(&self) -> String {
        format!("{self:016X}")
    }
}

impl Shown for bool {
    fn shown(&self) -> String {
        self.to_string()
    }
}

impl<A: Shown, B: Shown> Shown for (A, B) {
    fn shown(&self) -> String {
        format!("{}, {}", self.0.shown(), self.1.shown())
    }
}

impl<A: Shown, B: Shown, C: Shown> Shown for (A, B, C) {
    fn shown(&self) -> String {
        format!("{}, {}, {}", self.0.shown(), self.1.shown(), self.2.shown())
    }
}

impl<A: Shown, const N: usize> Shown for [A; N] {
    fn shown(&self) -> String {
        self.each_ref().map(Shown::shown).join(", ")
    }
}

/// Whether two answers are one.
pub trait Same {
    fn same(&self, other: &Self) -> bool;
}

impl Same for f64 {
    fn same(&self, other: &f64) -> bool {
        bits(*self) == bits(*other)
    }
}

impl Same for i32 {
    fn same(&self, other: &i32) -> bool {
        self == other
    }
}

impl Same for u32 {
    fn same(&self, other: &u32) -> bool {
        self == other
    }
}

impl Same for u64 {
    fn same(&self, other: &u64) -> bool {
        self == other
    }
}

impl Same for bool {
    fn same(&self, other: &bool) -> bool {
        self == other
    }
}

impl<A: Same, B: Same> Same for (A, B) {
    fn same(&self, other: &(A, B)) -> bool {
        self.0.same(&other.0) && self.1.same(&other.1)
    }
}

impl<A: Same, const N: usize> Same for [A; N] {
    fn same(&self, other: &[A; N]) -> bool {
        self.iter().zip(other).all(|(a, b)| a.same(b))
    }
}

/// Compares `port` with `exact` on all inputs and says what was compared. Panics where they differ,
/// with the first inputs that show it.
pub fn compare<T: Copy + Shown, R: Same + Shown>(
    name: &str,
    seed: u64,
    kinds: &[Kind<T>],
    port: impl Fn(T) -> R,
    exact: impl Fn(T) -> R,
) {
    let (mut wrong, mut first) = (0, Vec::new());
    for kind in kinds {
        for &x in &kind.inputs {
            let (p, e) = (port(x), exact(x));
            if p.same(&e) {
                continue;
            }
            wrong += 1;
            if first.len() < 10 {
                let (x, p, e) = (x.shown(), p.shown(), e.shown());
                first.push(format!("{name}({x}), {}: port {p}, exact {e}", kind.name));
            }
        }
    }
    assert!(wrong == 0, "{wrong} differ:\n{}", first.join("\n"));
    let all: usize = kinds.iter().map(|k| k.inputs.len()).sum();
    let counts = kinds.iter().map(|k| format!("{} {}", k.inputs.len(), k.name));
    let counts = counts.collect::<Vec<_>>().join(", ");
    say(&format!("{name}: {all} inputs, seed {seed}, all equal ({counts})"));
}

/// The same over `each` inputs of every kind, made one at a time.
pub fn compare_made<T: Copy + Shown, R: Same + Shown>(
    name: &str,
    seed: u64,
    (kinds, each): (&'static [&'static str], u64),
    make: impl Fn(&mut Random, usize, u64) -> T,
    port: impl Fn(T) -> R,
    exact: impl Fn(T) -> R,
) {
    let mut r = Random::new(seed);
    for (which, kind) in kinds.iter().enumerate() {
        for n in 0..each {
            let x = make(&mut r, which, n);
            let (p, e) = (port(x), exact(x));
            if !p.same(&e) {
                let (x, p, e) = (x.shown(), p.shown(), e.shown());
                panic!("{name}({x}), {kind}, the {n}th: port {p}, exact {e}");
            }
        }
    }
    let all = each * kinds.len() as u64;
    say(&format!(
        "{name}: {all} inputs, seed {seed}, all equal ({each} each {})",
        kinds.join(", ")
    ));
}

/// A line on standard output, which a test's output keeps even where the test passes. That nobody
/// reads on is no failure; where it cannot be written, the program ends with status 1.
pub fn say(line: &str) {
    match writeln!(std::io::stdout().lock(), "{line}") {
        Err(e) if e.kind() != ErrorKind::BrokenPipe => {
            eprintln!("hall: standard output: {e}");
            std::process::exit(1);
        }
        _ => {}
    }
}
