//! How many square systems are solved, by the port and by a counter in the reference build: stored
//! lists that take many, each record of the stored hall files, and lists that are searched for. What
//! is compared of lists, inquiries, cranks, contacts and formulas is compared for this too, in the
//! tests that are named after them.
#![cfg(geomcore)]
use host::compare::say;
use host::port;
use host::port::inquiries::inquire;
use host::runs::lists::reference;
use host::runs::systems::{LIMITS, SORTS, search, sort};
use host::stored::files::files;
use host::stored::systems::{COSTLY, TOLD};
use host::truth::angle::Sine;
use host::truth::hall_file::{Record, items};
use host::truth::lister::{Reference, line};
use host::truth::systems::{counted, most};

const TOL: f64 = 1.0 / (1u64 << 30) as f64;

/// Port and reference build take so many, by a list and by an inquiry at every question.
fn takes(sine: Sine, coeffs: &[f64], systems: u32) {
    let given = port::real_roots(sine, coeffs, TOL);
    let wanted = reference(sine, coeffs, TOL);
    let mode = sine.words();
    assert_eq!([given.systems, wanted.systems], [systems; 2], "{coeffs:?}, {mode}");
    for replies in [&[][..], &[0], &[1], &[0, 0], &[1, 1], &[1, 0, 1, 1]] {
        let shown = inquire(sine, coeffs, TOL, replies).unwrap();
        assert_eq!(shown.list.systems, systems, "{coeffs:?}, {mode}, {replies:?}");
    }
}

#[test]
fn few() {
    for (coeffs, systems) in TOLD {
        assert!(*systems <= most(coeffs));
        Sine::BOTH.into_iter().for_each(|sine| takes(sine, coeffs, *systems));
    }
}

#[test]
fn many() {
    for costly in COSTLY {
        let Record::List { coeffs, .. } = costly.record() else { panic!("{}", costly.line) };
        let [rounded, exact] = Sine::BOTH.map(|sine| port::real_roots(sine, &coeffs, TOL));
        assert!(rounded.same_roots(&exact), "the modes list other roots of {}", costly.line);
        for (sine, systems) in [Sine::OfRounded, Sine::OfExact].into_iter().zip(costly.systems) {
            takes(sine, &coeffs, systems);
            let found = SORTS[sort(sine, &coeffs).0];
            assert_eq!(found, costly.sort, "{}", costly.line);
        }
    }
}

#[test]
fn stored_files() {
    let (mut records, mut systems) = (0, 0);
    for (name, bytes) in files() {
        for item in items(&bytes) {
            let [rounded, exact] = Sine::BOTH.map(|sine| {
                let given = port::systems::in_mode(sine, &item);
                let wanted = counted(|| line(&item, &Reference(sine))).1;
                assert_eq!(given, wanted, "{name}, record {}, {}", item.number, sine.words());
                given
            });
            records += 1;
            systems += rounded + exact;
        }
    }
    say(&format!("stored hall files: {records} records, {systems} systems in both modes"));
    assert!(records > 4_000 && systems > 1_000);
}

#[test]
fn searched() {
    for sine in Sine::BOTH {
        let (all, wrong) = search(sine, 300_000, 771);
        assert_eq!(wrong, 0, "{}", sine.words());
        for (sort, found) in all.iter().enumerate() {
            say(&format!("{}, {}", sine.words(), found.text(sort)));
            assert!(found.lists > 1_000 && found.most <= LIMITS[sort], "{}", SORTS[sort]);
            assert!(found.most > LIMITS[sort] / 3, "{}: {}", SORTS[sort], found.most);
        }
    }
}
