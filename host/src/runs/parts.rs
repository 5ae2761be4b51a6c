//! Long comparisons in parts, each with a seed of its own, on two threads.
use crate::compare::outcome::Outcome;
use crate::compare::say;
use crate::people::table::in_columns;
use crate::truth::angle::Sine;
use std::sync::atomic::{AtomicU64, Ordering};
use std::sync::mpsc;
use std::thread;

/// As many records make a part.
pub const RECORDS: u64 = 1_000_000;

/// What `made` says of all parts; it takes a seed and how many inputs to make. Says how far it is.
fn in_parts(
    size: u64,
    (count, seed): (u64, u64),
    made: impl Fn(u64, u64) -> Outcome + Sync,
) -> Outcome {
    let parts = count.div_ceil(size);
    let next = AtomicU64::new(0);
    let (to, from) = mpsc::channel();
    thread::scope(|scope| {
        for _ in 0..2 {
            let (to, next, made) = (to.clone(), &next, &made);
            scope.spawn(move || {
                loop {
                    let part = next.fetch_add(1, Ordering::Relaxed);
                    if part >= parts {
                        break;
                    }
                    let inputs = size.min(count - part * size);
                    if to.send(made(seed.wrapping_add(part << 32), inputs)).is_err() {
                        break;
                    }
                }
            });
        }
        drop(to);
        let mut all = made(seed, 0);
        for outcome in from {
            all.join(outcome);
            eprintln!("{} of {count} {}, {} differ", all.inputs, all.name, all.wrong);
        }
        all
    })
}

/// The same in both modes, so many inputs each.
pub fn run_both(
    size: u64,
    (count, seed): (u64, u64),
    kinds: &[&str],
    made: impl Fn(Sine, u64, u64) -> Outcome + Sync,
) -> bool {
    let equal = |sine| run(size, (count, seed), kinds, |seed, count| made(sine, seed, count));
    Sine::BOTH.map(equal) == [true; 2]
}

/// The long run in parts of this size, and its lines; whether all were equal.
pub fn run(
    size: u64,
    (count, seed): (u64, u64),
    kinds: &[&str],
    made: impl Fn(u64, u64) -> Outcome + Sync,
) -> bool {
    let outcome = in_parts(size, (count, seed), made);
    for line in &outcome.shown {
        say(line);
    }
    say(&in_columns(&format!("seed {seed}, kinds in turn: {}", kinds.join(", "))));
    say(&in_columns(&outcome.text()));
    outcome.wrong == 0
}
