//! The test host: compares the proved functions, called through C, with exact computations and with
//! geomcore's Rust.
#![deny(unsafe_code)]

#[cfg(target_feature = "fma")]
compile_error!("the reference build has no fma: compile for a target without it");

pub mod compare;
pub mod inputs;
pub mod people;
pub mod port;
#[cfg(geomcore)]
pub mod runs;
pub mod stored;
pub mod truth;
