//! Pin contacts by the port against the reference build's `real_roots_touching`, with the equation
//! and the closure of document 02.
#![cfg(geomcore)]
use host::compare::answer::Answer;
use host::compare::outcome::Outcome;
use host::compare::say;
use host::inputs::contacts::{KINDS, contact};
use host::inputs::random::{EDGES, Random};
use host::people::text;
use host::port::contacts::{pin_contact, pin_contact_bytes};
use host::runs::contacts::{CASES, add, made, reference, yes};
use host::stored::telling;
use host::truth::angle::Sine;
use host::truth::contact::Contact;
use host::truth::hall_file::Record;
use host::truth::kind::Kind::{self, Brush, Crossing, Flat};
use host::truth::kind::Root;

/// A ball that rolls from the origin into a pin about (3, 0).
const ROLLING: &str = "contact 2^-30 0 1 0 0 0 0 3 0 1";

fn of_line(line: &str) -> Contact {
    match text::read(line.as_bytes()).as_deref() {
        Ok([Record::Contact(contact)]) => *contact,
        other => panic!("{line}: {other:?}"),
    }
}

fn answers(line: &str, roots: &[(f64, u32, Kind)]) {
    let root = |&(value, multiplicity, kind): &_| Root { value, multiplicity, kind };
    let wanted = Answer::new(0, &roots.iter().map(root).collect::<Vec<_>>());
    let contact = of_line(line);
    for sine in Sine::BOTH {
        let both = [pin_contact(sine, contact.numbers()), reference(sine, &contact).list];
        for answer in both {
            assert!(answer.same_roots(&wanted), "{line}: {}", answer.text());
        }
        assert_eq!(both[0].systems, both[1].systems, "{line}");
    }
}

#[test]
fn entries() {
    answers(ROLLING, &[(2.0, 1, Crossing), (4.0, 1, Crossing)]);
    answers("contact 2^-30 0 1 0 2 0 0 3 0 1", &[]);
    answers("contact 2^-30 0 1 0 1 0 0 3 0 1", &[(3.0, 2, Flat)]);
    // from the centre on, and beside it at x = 3 - 2t + t²
    answers("contact 2^-30 3 1 0 0 0 0 3 0 1", &[(-1.0, 1, Crossing), (1.0, 1, Crossing)]);
    answers("contact 2^-30 3 -2 1 2 0 0 2 2 1", &[(0.0, 1, Crossing), (2.0, 1, Crossing)]);
    // |D - R| at the middle is as large as confusion, or a double more
    answers("contact 0.5 1 0 0 0 1 0 0 0 0.5", &[(-0.0, 2, Brush)]);
    answers("contact 0x3FDFFFFFFFFFFFFF 1 0 0 0 1 0 0 0 0.5", &[]);
    // D = R, and no reply is yes below 0
    answers("contact 0 0.5 -1.2 0 1.2 0.5 0 0 0 1.3", &[(0.0, 2, Brush)]);
    let never = of_line("contact -1 0.5 -1.2 0 1.2 0.5 0 0 0 1.3").numbers();
    assert_eq!(Sine::BOTH.map(|sine| pin_contact(sine, never).len), [2; 2]);
}

/// The record with these numbers in place of others.
fn with(changes: &[(usize, f64)]) -> [f64; 10] {
    let mut numbers = of_line(ROLLING).numbers();
    changes.iter().for_each(|&(i, x)| numbers[i] = x);
    numbers
}

#[test]
fn refusals() {
    let refused = |changes: &[(usize, f64)]| {
        let [refusal, same] = Sine::BOTH.map(|sine| pin_contact(sine, with(changes)).refusal);
        assert_eq!(refusal, same);
        refusal
    };
    let not_finite = EDGES.map(f64::from_bits).into_iter().filter(|x| !x.is_finite());
    for x in not_finite.flat_map(|x| [x, -x]) {
        for place in 0..10 {
            assert_eq!(refused(&[(place, x)]), 10, "{x} at {place}");
            let worse = [(2, 1e200), (9, 0.0), (place, x)];
            assert_eq!(refused(&worse), 10, "{x} at {place}");
        }
    }
    for radius in [0.0, -0.0, -1.0, -f64::from_bits(1), -f64::MAX] {
        assert_eq!(refused(&[(9, radius)]), 11);
        assert_eq!(refused(&[(9, radius), (2, 1e200)]), 11);
        assert_eq!(refused(&[(9, radius), (2, 0.0)]), 11);
    }
    // c0 by X0, Y0, R or a centre; c1, c2 and c4; and c0 alone of a ball that stands
    for (place, x) in [(1, 1e200), (4, -1e200), (9, 1e200), (7, 1e200), (8, f64::MAX)] {
        assert_eq!(refused(&[(place, x)]), 12, "{x} at {place}");
        assert_eq!(refused(&[(place, x), (2, 0.0)]), 12, "{x} at {place}");
    }
    assert_eq!(refused(&[(1, f64::MAX), (7, -f64::MAX)]), 12);
    assert_eq!([2, 3, 5, 6].map(|place| refused(&[(place, 1e200)])), [12; 4]);
    assert_eq!([0.0, -0.0, 1e-200].map(|x| refused(&[(2, x)])), [2, 2, 0]);
    assert_eq!(refused(&[(2, 1e-200), (7, 0.0)]), 2);
    // what is no refusal
    for confusion in [0.0, -0.0, -1.0, f64::MAX, -f64::MAX, f64::from_bits(1)] {
        assert_eq!(refused(&[(0, confusion)]), 0, "{confusion}");
    }
}

/// Every edge, either sign, in each of the ten places of some records.
#[test]
fn edges_in_each_place() {
    Sine::BOTH.into_iter().for_each(edges_in);
}

fn edges_in(sine: Sine) {
    let lines = [
        ROLLING,
        "contact 0 0.5 -1.2 0 1.2 0.5 0 0 0 1.3",
        "contact 1e-7 0 0.001 0 1.00000005 0 0 3 0 1",
        "contact 2^-30 0 8 -1 0 0.5 0.25 12 1 1",
    ];
    let mut outcome = Outcome::new("contacts", Some(sine), &CASES);
    for numbers in lines.map(|line| of_line(line).numbers()) {
        for (place, x) in (0..10).flat_map(|place| EDGES.map(|bits| (place, f64::from_bits(bits))))
        {
            for x in [x, -x] {
                let mut numbers = numbers;
                numbers[place] = x;
                add(&mut outcome, sine, &Contact::new(numbers));
            }
        }
    }
    for (_, contact) in telling::contacts() {
        add(&mut outcome, sine, &contact);
    }
    let (mode, all) = (sine.words(), outcome.inputs);
    say(&format!("edges in each place, {mode}: {all} contacts, {}", outcome.met.text()));
    assert!(outcome.wrong == 0, "{}", outcome.shown.join("\n"));
}

/// How many yes replies a run has at least.
const YES: u64 = 10_000;

fn made_contacts(sine: Sine, seed: u64) {
    let outcome = made(sine, seed, 1_000_000);
    say(&format!("contacts, seed {seed}: {}", outcome.text()));
    assert!(outcome.wrong == 0, "{}", outcome.shown.join("\n"));
    outcome.met.ask("contacts");
    let yes: u64 = (1..=3).map(|n| n * outcome.met.count(&format!("with {n} yes"))).sum();
    assert!(yes >= YES, "{yes} yes replies");
    outcome.ask_kinds();
}

#[test]
fn made_contacts_first() {
    Sine::BOTH.into_iter().for_each(|sine| made_contacts(sine, 741));
}

#[test]
fn made_contacts_second() {
    Sine::BOTH.into_iter().for_each(|sine| made_contacts(sine, 742));
}

/// What each kind of made records is there for.
#[test]
fn kinds() {
    let mut r = Random::new(743);
    for (which, kind) in KINDS.iter().enumerate() {
        let (mut refused, mut asked, mut replied) = ([0; 13], 0, 0);
        for _ in 0..10_000 {
            let contact = contact(&mut r, which);
            let ran = reference(Sine::OfExact, &contact);
            refused[ran.list.refusal as usize] += 1;
            asked += ran.places.len();
            replied += yes(&contact, &ran.places);
        }
        let [answered, two, ten, eleven, twelve] = [0, 2, 10, 11, 12].map(|n| refused[n]);
        say(&format!(
            "{kind}: {answered} answered, {two} refused 2, {ten} 10, {eleven} 11, {twelve} 12, \
             {asked} questions, {replied} yes"
        ));
        let met = match which {
            0 => answered > 1_000 && ten > 100 && twelve > 1_000,
            1 | 2 | 7 | 8 => answered > 9_000 && asked > 1_000,
            3 => answered > 9_000 && asked > 100,
            4..=6 | 9 => answered > 9_000 && replied > 100,
            10 => answered > 1_000 && two > 1_000,
            11 => answered > 1_000 && twelve > 1_000,
            12 => ten > 9_000,
            13 => eleven > 8_000,
            _ => answered > 100 && ten > 1_000 && eleven > 100 && twelve > 100,
        };
        assert!(met, "{kind}");
    }
}

/// On a refusal every byte of the lent buffer is as it was; on an answer, every byte behind it.
#[test]
fn buffers() {
    let before: Vec<u8> = (0..130).map(|i| i as u8 ^ 0x5A).collect();
    let refused = [
        (with(&[(3, f64::NAN)]), 10),
        (with(&[(9, 0.0)]), 11),
        (with(&[(2, 1e200)]), 12),
        (with(&[(2, 0.0)]), 2),
    ];
    for room in 0..=130 {
        let whole = if room < 112 { 0 } else { 112 };
        for (numbers, wanted) in refused.into_iter().chain([(with(&[]), whole)]) {
            for sine in Sine::BOTH {
                let mut out = before.clone();
                let said = pin_contact_bytes(sine, numbers, &mut out[..room]);
                assert_eq!(said, wanted, "{numbers:?} into {room} bytes");
                let stored = if said < 112 { 0 } else { said as usize };
                assert_eq!(out[stored..], before[stored..], "{numbers:?} into {room} bytes");
            }
        }
    }
}
