//! Inquiries: what the port asks and lists beside the Rust, whose closure `touches` says what the
//! replies say.
use crate::compare::answer::Answer;
use crate::compare::bits;
use crate::compare::outcome::Outcome;
use crate::compare::ways;
use crate::inputs::lists::{KINDS, Maker, handed_in, long, tolerance};
use crate::inputs::random::Random;
use crate::port::inquiries::{Shown, inquire};
use crate::runs::lists::{shown, tolerance_for};
use crate::runs::parts;
use crate::truth::angle::Sine;
use crate::truth::kind::Root;
use crate::truth::lister::{Touches, refusal};
use crate::truth::reference::untouched;
use crate::truth::refusals;
use crate::truth::systems::counted;
use crate::truth::touching;
use std::cell::RefCell;

/// The Rust's run: k, 0 for a list; its list, with the number of the refusal; and the places that
/// it asked about, in order.
pub struct Ran {
    pub k: u64,
    pub list: Answer,
    pub places: Vec<f64>,
}

/// What can be asked of the port, with the replies so far, and of the Rust, in either mode.
pub trait Inquiry {
    fn port(&self, sine: Sine, replies: &[u8]) -> Result<Shown, u64>;
    fn reference(&self, sine: Sine, touches: Touches) -> (u64, Answer);
    fn untouched(&self, touches: Touches) -> (u64, Answer);
    fn text(&self) -> String;
}

/// What stands beside: the untouched Rust, and in the mode of the exact c the other mode.
fn beside(sine: Sine, inquiry: &impl Inquiry, touches: Touches) -> (u64, Answer) {
    match sine {
        Sine::OfRounded => inquiry.untouched(touches),
        Sine::OfExact => ways::uncounted(|| inquiry.reference(Sine::OfRounded, touches)),
    }
}

/// A run, with the places asked about.
pub fn recorded(run: impl FnOnce(Touches) -> (u64, Answer), touches: Touches) -> Ran {
    let places = RefCell::new(Vec::new());
    let asked = |x| {
        places.borrow_mut().push(x);
        touches(x)
    };
    let ((k, list), systems) = counted(|| run(&asked));
    let (list, places) = (list.solving(systems), places.into_inner());
    let silent = places.is_empty() && list.len == 0 && systems == 0;
    assert!(list.refusal == 0 || silent, "the Rust answers what is refused");
    Ran { k, list, places }
}

/// A yes or no for each place, by a hash of its bits.
fn drawn(x: f64) -> bool {
    bits(x).wrapping_mul(0x9E37_79B9_7F4A_7C15) >> 63 == 1
}

/// What a closure says: always no, always yes, and by a hash.
pub const REPLIES: [fn(f64) -> bool; 3] = [|_| false, |_| true, drawn];

/// Whether the port shows the question after `asked` replies, or the list after all of them; and each
/// time the systems of the whole run, to which replies add none.
fn shows(given: &Result<Shown, u64>, number: u64, ran: &Ran, asked: usize) -> bool {
    match given {
        Err(refusal) => *refusal == ran.list.refusal,
        Ok(given) => {
            let same = match (given.place, ran.places.get(asked)) {
                (Some(x), Some(wanted)) => x.to_bits() == wanted.to_bits() && given.list.len == 0,
                (None, None) => given.list.same_roots(&ran.list),
                _ => false,
            };
            same && given.list.systems == ran.list.systems
                && ran.list.refusal == 0
                && given.number == number
                && given.k == ran.k
        }
    }
}

fn said(given: &Result<Shown, u64>) -> String {
    match given {
        Err(refusal) => format!("refused {refusal}"),
        Ok(Shown { number, k, place: Some(x), list }) => {
            format!("{number}: k {k}, asks {x:e}, systems {}", list.systems)
        }
        Ok(Shown { number, k, list, .. }) => format!("{number}: k {k}, {}", list.told()),
    }
}

/// What differs where the replies are those of the Rust's run, one question after another; `more`
/// gives replies after the end too, which are refused and change nothing.
fn followed(
    (sine, inquiry): (Sine, &impl Inquiry),
    ran: &Ran,
    touches: Touches,
    more: bool,
) -> Result<(), String> {
    let mut replies = Vec::with_capacity(ran.places.len() + 1);
    let check = |replies: &[u8], number, asked| {
        let given = inquiry.port(sine, replies);
        match shows(&given, number, ran, asked) {
            true => Ok(()),
            false => {
                let (input, given) = (inquiry.text(), said(&given));
                let (places, list) = (&ran.places, ran.list.told());
                Err(format!(
                    "{input}, {replies:?}: port {given}, reference asks {places:?}, k {}, {list}",
                    ran.k
                ))
            }
        }
    };
    check(&replies, 0, 0)?;
    for (n, &x) in ran.places.iter().enumerate() {
        replies.push(if touches(x) { 1 + (n as u8) * 127 } else { 0 });
        check(&replies, 0, n + 1)?;
    }
    if more {
        for reply in [0, 1] {
            replies.push(reply);
            check(&replies, refusals::NOTHING_ASKED.into(), ran.places.len())?;
        }
    }
    Ok(())
}

/// The cases of an inquiry that is refused under 1, under 2, and under a third number.
pub const fn cases(third: &'static str) -> [&'static str; 11] {
    [
        "answered",
        "refused 1",
        "refused 2",
        third,
        "with no question",
        "with 1",
        "with 2",
        "with 3",
        "with a list that the replies change",
        "with questions that they change",
        "given a reply too many",
    ]
}

/// One inquiry under the three closures. Where nothing is asked they are one.
pub fn add(outcome: &mut Outcome, sine: Sine, inquiry: &impl Inquiry, more: bool) {
    let run = |touches: Touches| recorded(|touches| inquiry.reference(sine, touches), touches);
    let first = run(&REPLIES[0]);
    let kept = if first.places.is_empty() { 1 } else { REPLIES.len() };
    let others: Vec<Ran> = REPLIES[1..kept].iter().map(|touches| run(touches)).collect();
    let other = recorded(|touches| beside(sine, inquiry, touches), &REPLIES[0]);
    outcome.beside(&other.list, &first.list, same_places(&other.places, &first.places));
    outcome.inputs += 1;
    let asked = others.iter().map(|ran| ran.places.len()).max();
    let asked = asked.unwrap_or(0).max(first.places.len());
    let refused = first.list.refusal;
    let questions = |n| refused == 0 && asked == n;
    outcome.met.add(&[
        refused == 0,
        refused == 1,
        refused == 2,
        refused > 2,
        questions(0),
        questions(1),
        questions(2),
        questions(3),
        others.iter().any(|ran| !ran.list.same(&first.list)),
        others.iter().any(|ran| !same_places(&ran.places, &first.places)),
        more && refused == 0,
    ]);
    for (ran, touches) in [first].iter().chain(&others).zip(&REPLIES) {
        outcome.add(&ran.list);
        if let Err(line) = followed((sine, inquiry), ran, touches, more) {
            return outcome.differs(|| line);
        }
    }
}

/// Bit for bit.
pub fn same_places(a: &[f64], b: &[f64]) -> bool {
    a.iter().map(|x| x.to_bits()).eq(b.iter().map(|x| x.to_bits()))
}

/// How many sequences of replies there are, all of which are given; the questions on the way and
/// the list at the end are the Rust's.
fn every_sequence(
    (sine, inquiry): (Sine, &impl Inquiry),
    replies: &mut Vec<u8>,
    places: &mut Vec<f64>,
) -> u64 {
    let given = inquiry.port(sine, replies);
    if let Ok(Shown { place: Some(x), .. }) = given {
        places.push(x);
        let both = [0, 1].map(|reply| {
            replies.push(reply);
            let ends = every_sequence((sine, inquiry), replies, places);
            replies.pop();
            ends
        });
        places.pop();
        return both.iter().sum();
    }
    let next = RefCell::new(0);
    let in_turn = |_| {
        let n = next.replace_with(|n| *n + 1);
        replies[n] != 0
    };
    let ran = recorded(|touches| inquiry.reference(sine, touches), &in_turn);
    let asked = same_places(&ran.places, places);
    let (input, said) = (inquiry.text(), said(&given));
    assert!(
        asked && shows(&given, 0, &ran, replies.len()),
        "{input}, replies {replies:?}: port asks {places:?}, {said}, reference asks {:?}, {}",
        ran.places,
        ran.list.told()
    );
    1
}

/// Coefficients and a tolerance.
pub struct List<'a>(pub &'a [f64], pub f64);

impl List<'_> {
    fn answer(&self, roots: impl Iterator<Item = Root>) -> (u64, Answer) {
        let roots: Vec<Root> = roots.collect();
        (0, Answer::new(refusal(self.0).into(), &roots))
    }
}

impl Inquiry for List<'_> {
    fn port(&self, sine: Sine, replies: &[u8]) -> Result<Shown, u64> {
        inquire(sine, self.0, self.1, replies)
    }

    fn reference(&self, sine: Sine, touches: Touches) -> (u64, Answer) {
        let list = touching::list(sine, self.0, self.1, touches);
        self.answer(list.into_iter().map(Root::by))
    }

    fn untouched(&self, touches: Touches) -> (u64, Answer) {
        let list = untouched::poly::real_roots_touching(self.0, self.1, touches);
        self.answer(list.iter().map(|r| Root::new(r.value, r.multiplicity)))
    }

    fn text(&self) -> String {
        shown(self.0, self.1)
    }
}

/// One inquiry of so many is given replies too many.
pub const MORE: u64 = 8;

const CASES: [&str; 11] = cases("refused 3");

/// `count` made lists, the kinds in turn.
pub fn made(sine: Sine, seed: u64, count: u64) -> Outcome {
    made_by(handed_in, sine, seed, count)
}

/// The same of long ones.
pub fn made_long(sine: Sine, seed: u64, count: u64) -> Outcome {
    made_by(long, sine, seed, count)
}

/// These lists at a tolerance.
pub fn each(sine: Sine, lists: &[Vec<f64>], tol: f64) -> Outcome {
    let before = ways::counts();
    let mut outcome = Outcome::new("inquiries", Some(sine), &CASES);
    for list in lists {
        add(&mut outcome, sine, &List(list, tol), true);
    }
    outcome.ways = ways::since(&before);
    outcome
}

fn made_by(make: Maker, sine: Sine, seed: u64, count: u64) -> Outcome {
    let (mut r, mut list) = (Random::new(seed), Vec::new());
    let before = ways::counts();
    let mut outcome = Outcome::new("inquiries", Some(sine), &CASES);
    for n in 0..count {
        make(&mut r, (n % KINDS.len() as u64) as usize, n, &mut list);
        let tol = tolerance_for(&mut r, sine, &list);
        add(&mut outcome, sine, &List(&list, tol), n % MORE == 0);
    }
    outcome.ways = ways::since(&before);
    outcome
}

/// Every sequence of replies for the first `count` made lists about which something is asked: how
/// many lists were made, and how many have 2, 3, and so on up to 8 sequences.
pub fn every_reply(sine: Sine, seed: u64, count: u64) -> (u64, [u64; 7]) {
    let (mut r, mut list) = (Random::new(seed), Vec::new());
    let (mut made, mut ends) = (0, [0; 7]);
    while ends.iter().sum::<u64>() < count {
        handed_in(&mut r, (made % KINDS.len() as u64) as usize, made, &mut list);
        let inquiry = List(&list, tolerance(&mut r));
        made += 1;
        match every_sequence((sine, &inquiry), &mut Vec::new(), &mut Vec::new()) {
            1 => (),
            n => ends[n as usize - 2] += 1,
        }
    }
    (made, ends)
}

/// The long run; whether all were equal.
pub fn run(count: u64, seed: u64) -> bool {
    parts::run_both(parts::RECORDS, (count, seed), &KINDS, made)
}
