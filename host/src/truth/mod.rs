//! What the right answers are. `exact` and `methods` have the leaves as document 01 defines them, and
//! `angle` the third-angle pair in both modes, on whole numbers, and `plain` says the same more
//! slowly; `reference` is the Rust, `factors` its factors, and `touching` what it lists after
//! replies; `hall_file` and `lister` have the hall file and its listing, which `listing` reads back,
//! `contact` what document 02 makes of a path and a circle, `formula` what it makes of a text, `kind`
//! what it says of a root; `systems` counts the square systems that are solved; `sturm` has where a
//! polynomial's roots are.
//! Nothing here calls the port.
pub mod angle;
pub mod big;
pub mod contact;
pub mod exact;
#[cfg(geomcore)]
pub mod factors;
pub mod formula;
pub mod hall_file;
pub mod kind;
pub mod lister;
pub mod listing;
pub mod methods;
pub mod plain;
pub mod reference;
pub mod refusals;
pub mod sturm;
pub mod systems;
#[cfg(geomcore)]
pub mod touching;
