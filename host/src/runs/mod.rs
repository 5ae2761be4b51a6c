//! Comparisons of any length, each behind a command of `hall`: the port beside the reference build,
//! and the untouched Rust beside both. `coverage`, `mutants` and `causes` say what they are worth;
//! `doubts` holds what `hall show` marks against the exact roots, and `systems` searches for lists that
//! take many square systems.
#[cfg(feature = "causes")]
pub mod causes;
pub mod contacts;
#[cfg(feature = "coverage")]
pub mod coverage;
pub mod cranks;
pub mod damage;
pub mod doubts;
pub mod files;
pub mod formulas;
pub mod inquiries;
pub mod lists;
#[cfg(feature = "mutants")]
pub mod mutants;
pub mod parts;
pub mod quadratics;
pub mod systems;
pub mod trees;
