//! How many square systems are solved for a record of a hall file.
use super::contacts::pin_contact;
use super::formulas::formula_roots;
use super::inquiries::crank_inquire;
use super::real_roots;
use crate::truth::angle::Sine;
use crate::truth::hall_file::{Item, Record};

/// Of a record: those of its finished list. A quadratic takes none, and what is refused.
fn of_record(sine: Sine, record: &Record) -> u32 {
    match record {
        Record::List { tolerance, coeffs } => real_roots(sine, coeffs, *tolerance).systems,
        Record::Quadratic { .. } => 0,
        Record::Crank { confusion, terms } => {
            crank_inquire(sine, *confusion, *terms, &[]).map_or(0, |shown| shown.list.systems)
        }
        Record::Contact(contact) => pin_contact(sine, contact.numbers()).systems,
        Record::Formula { tolerance, text } => formula_roots(sine, text, *tolerance).systems,
    }
}

/// Of what a file holds at one place.
pub fn in_mode(sine: Sine, item: &Item) -> u32 {
    item.record.as_ref().map_or(0, |record| of_record(sine, record))
}

/// The same in the mode of the listing.
pub fn listed(item: &Item) -> u32 {
    in_mode(Sine::OfExact, item)
}
