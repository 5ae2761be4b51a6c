//! Plausible mistakes, and one for each operator of the definitions.
mod angles;
mod bands;
mod contact_records;
mod contacts;
mod counts;
mod critical_points;
mod cubics;
mod equations;
mod evaluation;
mod factors;
mod files;
mod formula_parts;
mod formula_records;
mod formulas;
mod inquiry;
mod kinds;
mod listing;
mod polishing;
mod quartics;
mod refined_systems;
mod scales;
mod scaling;
mod solutions;
mod systems;
mod totals;

use crate::patches::Variant;

/// Where the copy makes a pair.
const PAIR: &str =
    "let (cos, sin) = crate::truth::angle::third_angle(crate::runs::mutants::sine(), cos3);";

pub fn all() -> Vec<Variant> {
    [
        evaluation::ALL,
        angles::ALL,
        scaling::ALL,
        scales::ALL,
        factors::ALL,
        cubics::ALL,
        quartics::ALL,
        systems::ALL,
        refined_systems::ALL,
        listing::ALL,
        bands::ALL,
        critical_points::ALL,
        polishing::ALL,
        inquiry::ALL,
        equations::ALL,
        solutions::ALL,
        files::ALL,
        contacts::ALL,
        contact_records::ALL,
        formulas::ALL,
        formula_parts::ALL,
        formula_records::ALL,
        kinds::ALL,
        totals::ALL,
        counts::ALL,
    ]
    .concat()
}
