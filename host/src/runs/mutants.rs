//! Mistakes in a copy of the reference build (build/mutants) and in the refusals: after how many
//! inputs a comparison with the port notices each, in either mode.
use crate::compare::answer::Answer;
use crate::compare::{bits, say};
use crate::inputs::lists::{KINDS, handed_in, tolerance};
use crate::inputs::pieces::Pieces;
use crate::inputs::polynomials;
use crate::inputs::quadratics::{TOL, quadratic, solution};
use crate::inputs::random::Random;
use crate::people::show::whole_listing;
use crate::port;
use crate::port::contacts::pin_contact;
use crate::port::formulas::{formula_coefficients, formula_roots};
use crate::port::inquiries::Shown;
use crate::port::quadratics::{self, Solution};
use crate::runs::contacts;
use crate::runs::cranks::{self, Crank};
use crate::runs::files;
use crate::runs::formulas::{self, Expanded};
use crate::runs::inquiries::{Inquiry, List, REPLIES, Ran, recorded, same_places};
use crate::runs::lists::{shown, tolerance_for};
use crate::runs::trees::{Tree, reference, tree};
use crate::stored::telling::{self, Telling};
use crate::truth::angle::Sine;
use crate::truth::contact::Contact;
use crate::truth::lister::{Touches, finite, refusal, trimmed};
use crate::truth::reference::own;
use std::sync::atomic::{AtomicBool, AtomicUsize, Ordering};
use std::{panic, process};

include!(concat!(env!("OUT_DIR"), "/mutants.rs"));

/// The copy that has each mistake, and the number of the one that it has now; 0 for none.
const COPY: Tree = tree!(mutants);
static CHOSEN: AtomicUsize = AtomicUsize::new(0);

/// What the copy asks for in each function that a mistake changes.
pub fn chosen() -> usize {
    CHOSEN.load(Ordering::Relaxed)
}

/// Whether the copy has s of the exact c now.
static EXACT: AtomicBool = AtomicBool::new(false);

fn choose(sine: Sine) {
    EXACT.store(sine == Sine::OfExact, Ordering::Relaxed);
}

/// What the copy asks for where it makes a pair.
pub fn sine() -> Sine {
    if EXACT.load(Ordering::Relaxed) { Sine::OfExact } else { Sine::OfRounded }
}

/// A mistake: what is run here has s of the rounded c, whatever the mode.
pub fn of_rounded<R>(run: impl FnOnce() -> R) -> R {
    let before = sine();
    choose(Sine::OfRounded);
    let result = run();
    choose(before);
    result
}

/// The sorts of inputs.
const SORTS: [&str; 8] =
    ["lists", "inquiries", "cranks", "quadratics", "functions", "files", "contacts", "formulas"];

enum Input {
    List(Vec<f64>, f64),
    Inquiry(Vec<f64>, f64),
    Crank([f64; 5], f64),
    /// a, b, c; confusion and angular; an answer to move, and where to.
    Quadratic([f64; 3], [f64; 2], Solution, f64),
    Pieces(Box<Pieces>),
    File(Vec<u8>),
    Contact(Contact),
    Formula(Vec<u8>, f64),
}

/// What port and copies answer to it.
enum Given {
    List(Answer),
    Runs(Vec<Ran>),
    Bits(Vec<u64>),
    Listing(Vec<u8>),
}

impl Given {
    fn same(&self, other: &Given) -> bool {
        let same_run = |(a, b): (&Ran, &Ran)| {
            let k = a.list.refusal != 0 || a.k == b.k;
            k && a.list.same(&b.list) && same_places(&a.places, &b.places)
        };
        match (self, other) {
            (Given::List(a), Given::List(b)) => a.same(b),
            (Given::Runs(a), Given::Runs(b)) => a.iter().zip(b).all(same_run),
            (Given::Bits(a), Given::Bits(b)) => a == b,
            (Given::Listing(a), Given::Listing(b)) => a == b,
            _ => false,
        }
    }
}

/// The port's run with the replies of a closure.
fn asked(sine: Sine, inquiry: &impl Inquiry, touches: Touches) -> Ran {
    let (mut replies, mut places) = (Vec::new(), Vec::new());
    loop {
        match inquiry.port(sine, &replies) {
            Err(refusal) => return Ran { k: 0, list: Answer::new(refusal, &[]), places },
            Ok(Shown { place: Some(x), .. }) => {
                places.push(x);
                replies.push(touches(x) as u8);
            }
            Ok(Shown { k, list, .. }) => return Ran { k, list, places },
        }
    }
}

fn all_asked(sine: Sine, inquiry: &impl Inquiry) -> Given {
    Given::Runs(REPLIES.iter().map(|touches| asked(sine, inquiry, touches)).collect())
}

fn all_runs(run: impl Fn(Touches) -> (u64, Answer)) -> Given {
    Given::Runs(REPLIES.iter().map(|touches| recorded(&run, touches)).collect())
}

/// The coefficients of a formula, and what is answered to it.
fn all_of(coeffs: &Expanded, roots: &str) -> Given {
    let coeffs = coeffs.map(|all| all.map(f64::to_bits));
    Given::Listing(format!("{coeffs:X?} {roots}").into_bytes())
}

fn all_bits(solutions: &[Solution], centre: f64) -> Given {
    let each = solutions.iter().flat_map(|(n, [x, y])| [*n as u64, bits(*x), bits(*y)]);
    Given::Bits(each.chain([bits(centre)]).collect())
}

impl Input {
    /// The n-th made input of a sort.
    fn made(r: &mut Random, sort: usize, n: u64) -> Input {
        if sort == 2 {
            return Input::Crank(cranks::terms(r, n), tolerance(r));
        }
        if sort == 4 {
            return Input::Pieces(Box::new(Pieces::made(r, n)));
        }
        if sort == 5 {
            return Input::File(files::nth(r, n));
        }
        if sort == 6 {
            return Input::Contact(contacts::made_record(r, Sine::OfExact, n));
        }
        if sort == 7 {
            let (text, tol) = formulas::made_record(r, n);
            return Input::Formula(text, tol);
        }
        if sort == 3 {
            let (abc, tol) = quadratic(r, (n % polynomials::KINDS.len() as u64) as usize);
            let (s, x) = solution(r);
            return Input::Quadratic(abc, tol, s, x);
        }
        let mut a = Vec::new();
        handed_in(r, (n % KINDS.len() as u64) as usize, n, &mut a);
        let tol = tolerance_for(r, Sine::OfExact, &a);
        if sort == 0 { Input::List(a, tol) } else { Input::Inquiry(a, tol) }
    }

    fn by_port(&self, sine: Sine) -> Given {
        match self {
            Input::List(a, tol) => Given::List(port::real_roots(sine, a, *tol)),
            Input::Inquiry(a, tol) => all_asked(sine, &List(a, *tol)),
            Input::Crank(terms, tol) => all_asked(sine, &Crank(*terms, *tol)),
            Input::Quadratic(abc, tol, s, x) => {
                let moved = [
                    quadratics::solve_quadratic(*abc, *tol),
                    quadratics::shifted(*s, *x),
                    quadratics::touching_at(*s, *x, false),
                    quadratics::touching_at(*s, *x, true),
                ];
                all_bits(&moved, quadratics::quadratic_centre(abc[0], abc[1], tol[1]))
            }
            Input::Pieces(p) => Given::Bits(p.by_port(sine).into_iter().map(bits).collect()),
            Input::File(bytes) => Given::Listing(whole_listing(bytes, port::lister(sine))),
            Input::Contact(contact) => {
                Given::Listing(pin_contact(sine, contact.numbers()).text().into_bytes())
            }
            Input::Formula(text, tol) => {
                let (coeffs, roots) = (formula_coefficients(text), formula_roots(sine, text, *tol));
                all_of(&coeffs, &roots.text())
            }
        }
    }

    fn by(&self, sine: Sine, tree: &Tree) -> Given {
        choose(sine);
        let own = own::lister::Reference(sine);
        match self {
            Input::List(a, tol) => Given::List((tree.list)(a, *tol)),
            Input::Inquiry(a, tol) => all_runs(|touches| (0, (tree.touching)(a, *tol, touches))),
            Input::Crank(terms, tol) => all_runs(|touches| (tree.crank)(*terms, *tol, touches)),
            Input::Quadratic(abc, tol, s, x) => {
                let moved = [
                    (tree.quadratic)(*abc, *tol),
                    (tree.shifted)(*s, *x),
                    (tree.touching_at)(*s, *x, false),
                    (tree.touching_at)(*s, *x, true),
                ];
                all_bits(&moved, (tree.centre)(abc[0], abc[1], tol[1]))
            }
            Input::Pieces(p) => Given::Bits((tree.pieces)(p).into_iter().map(bits).collect()),
            Input::File(bytes) => Given::Listing(own::lister::listing(bytes, &own)),
            Input::Contact(contact) => {
                let copy = own::contact::Contact::new(contact.numbers());
                let record = own::hall_file::Record::Contact(copy);
                let answer = own::lister::answer(&record, &own);
                Given::Listing(answer.to_string().into_bytes())
            }
            Input::Formula(text, tol) => {
                let coeffs = own::formula::coefficients(text).map_err(|fault| fault.refusal());
                let record =
                    own::hall_file::Record::Formula { tolerance: *tol, text: text.clone() };
                let answer = own::lister::answer(&record, &own);
                all_of(&formulas::expanded(&coeffs), &answer.to_string())
            }
        }
    }

    fn text(&self) -> String {
        match self {
            Input::List(a, tol) | Input::Inquiry(a, tol) => shown(a, *tol),
            Input::Crank(terms, tol) => shown(terms, *tol),
            Input::Quadratic(abc, tol, s, x) => {
                let all = [abc[0], abc[1], abc[2], tol[1], s.1[0], s.1[1], *x];
                format!("{} ({})", shown(&all, tol[0]), s.0)
            }
            Input::Pieces(p) => shown(&p.list.0[..=p.list.1 as usize], p.tol),
            Input::Contact(contact) => {
                let [confusion, ref numbers @ ..] = contact.numbers();
                shown(numbers, confusion)
            }
            Input::Formula(text, tol) => format!("{:016X}: {}", bits(*tol), text.escape_ascii()),
            Input::File(bytes) => {
                let front = &bytes[..bytes.len().min(64)];
                front.iter().map(|b| format!("{b:02X}")).collect()
            }
        }
    }
}

/// A mistake; the sort of inputs, how many of them were tried, and the one that shows it; and the
/// stored input that does.
struct Mutant {
    title: &'static str,
    what: &'static str,
    file: &'static str,
    number: usize,
    noticed: Option<(&'static str, Sine, u64, String)>,
    told: Option<&'static str>,
}

impl Mutant {
    /// Whether it answers what the port answers. It may also panic.
    fn same(&self, sine: Sine, input: &Input, given: &Given) -> bool {
        CHOSEN.store(self.number, Ordering::Relaxed);
        let by = || input.by(sine, &COPY).same(given);
        panic::catch_unwind(panic::AssertUnwindSafe(by)).unwrap_or(false)
    }

    /// Mistakes in equation.rs are not in lists, others not in quadratics or in cranks, which are
    /// lists of five, those of the hall file in files, contacts and formulas, and those of contacts
    /// and of formulas in these alone.
    fn asks_for(&self, sort: usize) -> bool {
        match self.file {
            "equation.rs" => [2, 3].contains(&sort),
            "hall_file.rs" | "kind.rs" | "lister.rs" => sort >= 5,
            "contact.rs" => sort == 6,
            "formula.rs" => sort == 7,
            _ => [0, 1, 4].contains(&sort),
        }
    }

    fn row(&self) -> String {
        let (by, after, input) = match &self.noticed {
            Some((sort, Sine::OfRounded, n, input)) => {
                (sort.to_string(), n.to_string(), format!("`{input}`"))
            }
            Some((sort, sine, n, input)) => {
                (format!("{sort}, {}", sine.words()), n.to_string(), format!("`{input}`"))
            }
            None => ("not noticed".to_string(), String::new(), String::new()),
        };
        let told = self.told.unwrap_or("");
        format!("| {}: {} | {by} | {after} | {told} | {input} |", self.title, self.what)
    }
}

/// Made inputs of a sort, until all are noticed or `count` is reached. The reference build without a
/// mistake must answer each as the port does.
fn try_sort(all: &mut [Mutant], sort: usize, count: u64, seed: u64) {
    let mut r = Random::new(seed);
    let mut live: Vec<&mut Mutant> =
        all.iter_mut().filter(|m| m.noticed.is_none() && m.asks_for(sort)).collect();
    for n in 0..count {
        if live.is_empty() {
            break;
        }
        let input = Input::made(&mut r, sort, n);
        for sine in Sine::BOTH {
            let given = input.by_port(sine);
            CHOSEN.store(0, Ordering::Relaxed);
            if !input.by(sine, reference(sine)).same(&given) {
                let (mode, text) = (sine.words(), input.text());
                eprintln!("{}, {mode}: the reference build itself differs at {text}", SORTS[sort]);
                process::exit(2);
            }
            live.retain_mut(|mutant| {
                let same = mutant.same(sine, &input, &given);
                if !same {
                    mutant.noticed = Some((SORTS[sort], sine, n + 1, input.text()));
                }
                same
            });
        }
    }
}

/// A stored input, and what it shows.
fn stored() -> impl Iterator<Item = (&'static str, Input)> {
    let lists = telling::LISTS.iter().flat_map(|Telling { name, tol, numbers }| {
        let a: Vec<f64> = numbers.iter().copied().map(f64::from_bits).collect();
        let tol = f64::from_bits(*tol);
        [(*name, Input::List(a.clone(), tol)), (*name, Input::Inquiry(a, tol))]
    });
    let contacts = telling::contacts().map(|(name, contact)| (name, Input::Contact(contact)));
    let formulas = telling::FORMULAS.iter();
    let formulas = formulas.map(|(name, text)| (*name, Input::Formula(text.to_vec(), TOL)));
    lists.chain(contacts).chain(formulas)
}

fn try_stored(all: &mut [Mutant]) {
    for (name, input) in stored() {
        for sine in Sine::BOTH {
            let given = input.by_port(sine);
            for mutant in all.iter_mut().filter(|m| m.told.is_none()) {
                if !mutant.same(sine, &input, &given) {
                    mutant.told = Some(name);
                }
            }
        }
    }
}

/// Other readings of the refusals.
type Refusal = (&'static str, &'static str, fn(&Input) -> u64);

const REFUSALS: [Refusal; 6] = [
    ("2 before 1", "lists", |input| match input {
        Input::List(a, _) if trimmed(a) < 2 => 2,
        Input::List(a, _) => refusal(a).into(),
        _ => 0,
    }),
    ("3 before 1", "lists", |input| match input {
        Input::List(a, _) if trimmed(a) > 5 => 3,
        Input::List(a, _) => refusal(a).into(),
        _ => 0,
    }),
    ("infinities in the first five only", "lists", |input| match input {
        Input::List(a, _) if !finite(&a[..a.len().min(5)]) => 1,
        Input::List(a, _) if trimmed(a) > 5 => 3,
        Input::List(a, _) if trimmed(a) < 2 => 2,
        _ => 0,
    }),
    ("the length before trailing zeros", "lists", |input| match input {
        Input::List(a, _) if finite(a) && a.len() > 5 => 3,
        Input::List(a, _) => refusal(a).into(),
        _ => 0,
    }),
    ("5 before 1", "cranks", |input| match input {
        Input::Crank(terms, tol) => match refused(*terms, *tol) {
            1 => 5,
            n => n,
        },
        _ => 0,
    }),
    ("2 never", "cranks", |input| match input {
        Input::Crank(terms, tol) => match refused(*terms, *tol) {
            2 => 0,
            n => n,
        },
        _ => 0,
    }),
];

/// The refusal of a crank equation by document 01.
fn refused(terms: [f64; 5], tol: f64) -> u64 {
    Crank(terms, tol).reference(Sine::OfRounded, &REPLIES[0]).1.refusal
}

/// After how many inputs another reading of the refusals is noticed.
fn try_refusals(count: u64, seed: u64) {
    for (title, sort, reading) in REFUSALS {
        let mut r = Random::new(seed);
        let number = SORTS.iter().position(|s| *s == sort).unwrap_or(0);
        let found = (0..count).find_map(|n| {
            let input = Input::made(&mut r, number, n);
            let given = match input.by_port(Sine::OfExact) {
                Given::List(answer) => answer.refusal,
                Given::Runs(runs) => runs[0].list.refusal,
                Given::Bits(_) | Given::Listing(_) => 0,
            };
            (given != reading(&input)).then(|| (n + 1, input.text()))
        });
        match found {
            Some((n, input)) => say(&format!("| refusals: {title} | {sort} | {n} | | `{input}` |")),
            None => say(&format!("| refusals: {title} | not noticed | | | |")),
        }
    }
}

/// Each mistake until an input shows it, at most `count` of each sort; whether all were shown.
pub fn run(count: u64, seed: u64) -> bool {
    panic::set_hook(Box::new(|_| ()));
    let new = |(n, &(title, what, file)): (usize, &(_, _, _))| Mutant {
        title,
        what,
        file,
        number: n + 1,
        noticed: None,
        told: None,
    };
    let mut all: Vec<Mutant> = ALL.iter().enumerate().map(new).collect();
    try_stored(&mut all);
    for sort in 0..SORTS.len() {
        try_sort(&mut all, sort, count, seed);
        eprintln!(
            "{} of {} not noticed after {}",
            all.iter().filter(|m| m.noticed.is_none()).count(),
            all.len(),
            SORTS[sort]
        );
    }
    say("| mistake | noticed by made | after | stored input | the made input, tolerance first |");
    say("|---|---|---|---|---|");
    all.iter().for_each(|mutant| say(&mutant.row()));
    try_refusals(count, seed);
    let made = all.iter().filter(|m| m.noticed.is_some()).count();
    let told = all.iter().filter(|m| m.told.is_some()).count();
    let both = all.iter().filter(|m| m.noticed.is_some() || m.told.is_some()).count();
    say(&format!(
        "{} mistakes: {made} noticed by made inputs, {told} by stored ones, {both} by either",
        all.len()
    ));
    both == all.len()
}
