//! Inputs that are kept, and what is answered to them.
#[cfg(geomcore)]
pub mod files;
pub mod leaves;
pub mod modes;
pub mod systems;
pub mod telling;
#[cfg(geomcore)]
pub mod totals;
