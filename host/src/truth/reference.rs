//! geomcore's Rust as build.rs copies it: `untouched`, with what is private opened and `solve_trig`
//! ended at its list of r, `patched`, the reference build of document 01, and `sharp`, which differs
//! from that in s alone, by the mode of the exact c (document 02); of each a copy that counts the yes
//! replies that form a root. None is there where geomcore is not at hand.
#[cfg(geomcore)]
include!(concat!(env!("OUT_DIR"), "/modules.rs"));

/// What stands in place of a comparison with the Rust.
pub const SKIPPED: &str = concat!("skipped, no geomcore at hand: ", env!("GEOMCORE_WANTED"));
