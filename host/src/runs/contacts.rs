//! Pin contacts: the port's lists beside `real_roots_touching` with the closure of document 02.
use crate::compare::answer::Answer;
use crate::compare::outcome::Outcome;
use crate::compare::ways;
use crate::inputs::contacts::{self, KINDS};
use crate::inputs::leaves::step;
use crate::inputs::random::Random;
use crate::people::text;
use crate::port::contacts::pin_contact;
use crate::runs::inquiries::{Ran, recorded, same_places};
use crate::runs::parts;
use crate::truth::angle::Sine;
use crate::truth::contact::Contact;
use crate::truth::hall_file::Record;
use crate::truth::lister::{Reference, Solver, Touches, Untouched};

/// The Rust's run of a record, by its `real_roots_touching`; what is refused is not run.
fn run_by(contact: &Contact, solver: &impl Solver) -> Ran {
    let list = |touches: Touches| match contact.refusal() {
        0 => Answer::new(0, &solver.touching(&contact.coefficients(), contact.confusion, touches)),
        number => Answer::new(number.into(), &[]),
    };
    recorded(|touches| (0, list(touches)), &|t| contact.touches(t))
}

/// The reference build's.
pub fn reference(sine: Sine, contact: &Contact) -> Ran {
    run_by(contact, &Reference(sine))
}

/// What stands beside: the untouched Rust's, and in the mode of the exact c that of the other mode.
fn beside(sine: Sine, contact: &Contact) -> Ran {
    match sine {
        Sine::OfRounded => run_by(contact, &Untouched),
        Sine::OfExact => ways::uncounted(|| reference(Sine::OfRounded, contact)),
    }
}

pub const CASES: [&str; 21] = [
    "answered",
    "refused 2",
    "refused 10",
    "refused 11",
    "refused 12",
    "with no root",
    "with 1",
    "with 2",
    "with 3",
    "with 4",
    "with a root of multiplicity 2",
    "with no question",
    "with 1 asked",
    "with 2 asked",
    "with 3 asked",
    "with 1 yes",
    "with 2 yes",
    "with 3 yes",
    "with a yes and a no",
    "with a yes at |D - R| = confusion",
    "with a no one double beyond",
];

/// How many of the questions are replied yes.
pub fn yes(contact: &Contact, places: &[f64]) -> usize {
    places.iter().filter(|t| contact.touches(**t)).count()
}

fn cases(contact: &Contact, ran: &Ran) -> [bool; CASES.len()] {
    let (list, asked) = (&ran.list, ran.places.len());
    let answered = list.refusal == 0;
    let roots = |n| answered && list.len == n;
    let questions = |n| answered && asked == n;
    let yes = yes(contact, &ran.places);
    let some = |is: &dyn Fn(f64) -> bool| ran.places.iter().any(|t| is(contact.beyond(*t).abs()));
    [
        answered,
        list.refusal == 2,
        list.refusal == 10,
        list.refusal == 11,
        list.refusal == 12,
        roots(0),
        roots(1),
        roots(2),
        roots(3),
        roots(4),
        list.multiplicities().any(|m| m == 2),
        questions(0),
        questions(1),
        questions(2),
        questions(3),
        yes == 1,
        yes == 2,
        yes == 3,
        yes > 0 && yes < asked,
        some(&|d| d == contact.confusion),
        some(&|d| contact.confusion > 0.0 && d == step(contact.confusion, 1)),
    ]
}

/// One record, and what the others answer to it.
pub fn add(outcome: &mut Outcome, sine: Sine, contact: &Contact) {
    let ran = reference(sine, contact);
    let other = beside(sine, contact);
    outcome.beside(&other.list, &ran.list, same_places(&other.places, &ran.places));
    let given = pin_contact(sine, contact.numbers());
    outcome.inputs += 1;
    outcome.met.add(&cases(contact, &ran));
    outcome.add(&ran.list);
    if !given.same(&ran.list) {
        outcome.differs(|| {
            let (given, wanted) = (given.told(), ran.list.told());
            let record = text::line(&Record::Contact(*contact));
            format!("{record}: port {given}, reference {wanted}, asks {:?}", ran.places)
        });
    }
}

/// One record of so many has a confusion at which a reply changes.
const EDGES: u64 = 8;

/// The n-th made record, of the kinds in turn: now and then |D - R| at a place that is asked about
/// is its confusion, or a double beside it.
pub fn made_record(r: &mut Random, sine: Sine, n: u64) -> Contact {
    let contact = contacts::contact(r, (n % KINDS.len() as u64) as usize);
    if r.below(EDGES) > 0 {
        return contact;
    }
    let places = reference(sine, &contact).places;
    match places.len() as u64 {
        0 => contact,
        asked => {
            let edge = contact.beyond(places[r.below(asked) as usize]).abs();
            let below = if edge == 0.0 { -f64::from_bits(1) } else { step(edge, -1) };
            Contact { confusion: [below, edge, step(edge, 1)][r.below(3) as usize], ..contact }
        }
    }
}

/// `count` made records, the kinds in turn.
pub fn made(sine: Sine, seed: u64, count: u64) -> Outcome {
    let mut r = Random::new(seed);
    let before = ways::counts();
    let mut outcome = Outcome::new("contacts", Some(sine), &CASES);
    for n in 0..count {
        add(&mut outcome, sine, &made_record(&mut r, sine, n));
    }
    outcome.ways = ways::since(&before);
    outcome
}

/// The long run; whether all were equal.
pub fn run(count: u64, seed: u64) -> bool {
    parts::run_both(parts::RECORDS, (count, seed), &KINDS, made)
}
