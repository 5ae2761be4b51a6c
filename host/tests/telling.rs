//! Stored lists by the port against the reference build, under all three closures, and stored
//! contacts and formulas.
#![cfg(geomcore)]
use host::compare::outcome::Outcome;
use host::port;
use host::port::contacts::pin_contact;
use host::runs::contacts;
use host::runs::formulas;
use host::runs::inquiries::{List, add, cases};
use host::runs::lists::reference;
use host::stored::telling::{self, LISTS, Telling};
use host::truth::angle::Sine;

#[test]
fn stored_lists() {
    Sine::BOTH.into_iter().for_each(stored_lists_in);
}

fn stored_lists_in(sine: Sine) {
    let mut outcome = Outcome::new("stored lists", Some(sine), &cases("refused 3"));
    for Telling { name, tol, numbers } in LISTS {
        let a: Vec<f64> = numbers.iter().copied().map(f64::from_bits).collect();
        let tol = f64::from_bits(*tol);
        let (given, wanted) = (port::real_roots(sine, &a, tol), reference(sine, &a, tol));
        assert!(given.same(&wanted), "{name}: port {}, reference {}", given.told(), wanted.told());
        add(&mut outcome, sine, &List(&a, tol), true);
    }
    assert!(outcome.wrong == 0, "{}", outcome.shown.join("\n"));
}

#[test]
fn stored_contacts() {
    for ((name, contact), sine) in
        telling::contacts().flat_map(|one| Sine::BOTH.map(|sine| (one, sine)))
    {
        let given = pin_contact(sine, contact.numbers());
        let wanted = contacts::reference(sine, &contact).list;
        assert!(given.same(&wanted), "{name}: port {}, reference {}", given.told(), wanted.told());
    }
}

#[test]
fn stored_formulas() {
    let tol = 1.0 / (1u64 << 30) as f64;
    for sine in Sine::BOTH {
        let outcome = formulas::outcome(sine, |all| {
            for (_, text) in telling::FORMULAS {
                formulas::add(all, sine, text, tol);
            }
        });
        assert!(outcome.wrong == 0, "{}", outcome.shown.join("\n"));
    }
}
