//! How often the reference build went the ways that a comparison is to meet, on this thread:
//! build/patches.rs puts the calls into it. They count, and change no answer.
use std::cell::Cell;

/// The first `OF_LISTS` are the ways of every list, the others those of inquiries.
pub const WAYS: [&str; 25] = [
    "gap at edge 0",
    "gap at edge 1",
    "gap at edge 2",
    "no gap",
    "degree not reached",
    "quotient not usable",
    "second scaling at depth 0",
    "second scaling at depth 1",
    "second scaling at depth 2",
    "root peeled off",
    "place polished",
    "place polished beyond 4",
    "quadratic with a double root",
    "quadratic with a complex pair",
    "roots joined",
    "root beyond the finite range",
    "pair to ask about",
    "link to ask about",
    "link taken in",
    "root 0 more than once",
    "pair that does not touch",
    "lone pair that touches",
    "pair in a chain",
    "double roots linked",
    "simple root beside a no",
];

pub const OF_LISTS: usize = 16;

pub type Counts = [u64; WAYS.len()];

thread_local! {
    static COUNTS: Cell<Counts> = const { Cell::new([0; WAYS.len()]) };
}

/// Counts the way with this number; true, so that a test can take it in.
pub fn way(number: usize) -> bool {
    COUNTS.with(|all| {
        let mut counts = all.get();
        counts[number] += 1;
        all.set(counts);
    });
    true
}

/// A polished place.
pub fn polished(y: f64) {
    way(10);
    if y.abs() > 4.0 {
        way(11);
    }
}

/// A root that left the finite range; false, as it is not listed.
pub fn left() -> bool {
    !way(15)
}

/// The root 0, so many times.
pub fn zeros(times: usize) {
    if times > 1 {
        way(19);
    }
}

/// A link that was replied no, behind a chain of this multiplicity; false, as it is not taken.
pub fn link_refused(multiplicity: u32) -> bool {
    if multiplicity == 1 {
        way(24);
    }
    false
}

/// A chain: place, multiplicity and yes replies of each item.
pub fn chain(items: &[(f64, u32, u32)]) {
    let double = |item: &(f64, u32, u32)| item.1 >= 2 && item.2 == 0;
    match items {
        [(.., 1)] => way(21),
        [_] => false,
        _ => items.iter().any(|item| item.2 > 0) && way(22),
    };
    if items.windows(2).any(|two| two.iter().all(double)) {
        way(23);
    }
}

/// All counts of this thread.
pub fn counts() -> Counts {
    COUNTS.with(Cell::get)
}

/// A run that counts nothing.
pub fn uncounted<R>(run: impl FnOnce() -> R) -> R {
    let before = counts();
    let result = run();
    COUNTS.set(before);
    result
}

/// Those counted since.
pub fn since(before: &Counts) -> Counts {
    let now = counts();
    std::array::from_fn(|i| now[i] - before[i])
}

/// The counts of some ways by name.
pub fn named<const N: usize>(
    counts: &Counts,
    names: [&'static str; N],
) -> [(&'static str, u64); N] {
    names.map(|name| {
        let number = WAYS.iter().position(|way| *way == name);
        (name, counts[number.unwrap_or_else(|| panic!("way {name}"))])
    })
}
