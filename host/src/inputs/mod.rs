//! What is compared on: made by chance from a seed, edges more often than chance gives.
#[cfg(geomcore)]
pub mod clustering;
pub mod contacts;
pub mod derived;
pub mod formulas;
pub mod hall_files;
pub mod leaves;
pub mod lists;
pub mod near_ties;
#[cfg(geomcore)]
pub mod pieces;
pub mod polynomials;
pub mod quadratics;
pub mod random;
