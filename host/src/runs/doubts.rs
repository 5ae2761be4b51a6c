//! What `hall show` marks as doubtful, held against the exact roots, over made lists and cranks.
use crate::compare::{bits, say};
use crate::inputs::lists::{KINDS, handed_in};
use crate::inputs::quadratics::TOL;
use crate::inputs::random::Random;
use crate::people::doubt::Look;
use crate::runs::{cranks, lists};
use crate::truth::angle::Sine;
use crate::truth::exact::{exponent, ldexp, scale_exponent};
use crate::truth::hall_file::Record;
use crate::truth::kind::Root;
use crate::truth::lister::{Answer, Reference, Solver, Turned, answer, trimmed};
use crate::truth::sturm::{distance_log, real_root_near};

/// What the exact roots say of a listed one, by where they are and not by p(x).
#[derive(Clone, Copy, Debug, PartialEq, Eq)]
pub enum Class {
    /// Once: an exact real root lies within 2^-40 |x|. m times: m exact roots, complex ones too,
    /// lie within 2^(-50/m) |x|, about what a last digit of the coefficients moves them.
    Good,
    /// Once, and as good, of a list that loses digits in the scaling: see `tiny`.
    Tiny,
    /// m times, and m exact roots lie as near as the tolerance says.
    Joined,
    /// m times, and fewer than m exact roots lie within 2^-6 |x|, but one within 2^-40 |x|.
    Fewer,
    /// Once: no exact real root lies within 2^-10 |x|. m times: fewer than m exact roots lie within
    /// 2^-6 |x|, and none within 2^-40 |x|.
    False,
    /// Anything between.
    Between,
}

/// The class of a listed root.
pub fn class(coeffs: &[f64], x: f64, times: u32) -> Class {
    let coeffs = &coeffs[..trimmed(coeffs)];
    if times == 1 {
        return match () {
            _ if real_root_near(coeffs, x, 40) && tiny(coeffs) => Class::Tiny,
            _ if real_root_near(coeffs, x, 40) => Class::Good,
            _ if real_root_near(coeffs, x, 10) => Class::Between,
            _ => Class::False,
        };
    }
    let distance = distance_log(coeffs, x, times as usize);
    let size = x.abs().log2();
    match () {
        _ if distance <= size - 50.0 / f64::from(times) => Class::Good,
        // the factor that the distance may be off, rounded up
        _ if distance <= (8.0 * TOL * (1.0 + x.abs())).log2() => Class::Joined,
        _ if distance <= size - 6.0 => Class::Between,
        _ if distance_log(coeffs, x, 1) <= size - 40.0 => Class::Fewer,
        _ => Class::False,
    }
}

/// Whether a scaled coefficient is below 2^-1022, though not 0 by itself.
fn tiny(coeffs: &[f64]) -> bool {
    let zeros = coeffs.iter().take_while(|a| **a == 0.0).count();
    let coeffs = &coeffs[zeros..];
    let (e, d) = (scale_exponent(coeffs), coeffs.len() as i32 - 1);
    let lead = exponent(coeffs[d as usize]);
    let scaled = |i: i32| ldexp(coeffs[i as usize], -e * (d - i) - lead);
    let below = |i: i32| (scaled(i) / scaled(d)).abs() < f64::MIN_POSITIVE;
    (0..d).any(|i| coeffs[i as usize] != 0.0 && below(i))
}

/// The columns: a class, and whether of roots that count once or more often.
const COLUMNS: [(&str, Class, bool); 9] = [
    ("once: good", Class::Good, false),
    ("good, tiny", Class::Tiny, false),
    ("between", Class::Between, false),
    ("false", Class::False, false),
    ("more often: good", Class::Good, true),
    ("joined", Class::Joined, true),
    ("between", Class::Between, true),
    ("fewer", Class::Fewer, true),
    ("false", Class::False, true),
];

/// `hall show` shows the listing, which is in this mode.
const REFERENCE: Reference = Reference(Sine::OfExact);

/// So many inputs of each sort are shown.
const SHOWN: usize = 5;

#[derive(Default)]
struct Counts {
    /// Marked, and all.
    columns: [[u64; 2]; COLUMNS.len()],
}

impl Counts {
    fn row(&self, name: &str) -> String {
        let cells = self.columns.map(|[marked, all]| format!("{marked} of {all}"));
        format!("| {name} | {} |", cells.join(" | "))
    }

    fn join(&mut self, other: &Counts) {
        for (all, more) in self.columns.iter_mut().flatten().zip(other.columns.as_flattened()) {
            *all += more;
        }
    }
}

/// Good ones that are marked and false ones that are not, each with its record.
type Faults = [Vec<String>; 2];

fn add(counts: &mut Counts, faults: &mut Faults, record: &str, coeffs: &[f64], roots: &[Root]) {
    for &Root { value: x, multiplicity: times, .. } in roots {
        let (class, marked) = (class(coeffs, x, times), Look::at(coeffs, x, times).doubtful());
        let column = COLUMNS.iter().position(|c| (c.1, c.2) == (class, times > 1));
        let [of_these, all] = &mut counts.columns[column.unwrap_or_default()];
        *of_these += u64::from(marked);
        *all += 1;
        let sort = match (class, marked) {
            (Class::Good, true) => &mut faults[0],
            (Class::False, false) => &mut faults[1],
            _ => continue,
        };
        if sort.len() < SHOWN {
            sort.push(format!("{record}: {:016X} {times}", bits(x)));
        }
    }
}

/// A row for each kind of lists, and one for cranks.
type Rows = [Counts; KINDS.len() + 1];

/// The kinds in turn, `count` inputs in all.
fn counted(count: u64, seed: u64) -> (Rows, Faults) {
    let (mut r, mut list) = (Random::new(seed), Vec::new());
    let (mut rows, mut faults) = (Rows::default(), Faults::default());
    for n in 0..count {
        let which = (n % rows.len() as u64) as usize;
        let (coeffs, roots, text) = if which < KINDS.len() {
            handed_in(&mut r, which, n, &mut list);
            let record = Record::List { tolerance: TOL, coeffs: list.clone() };
            let Answer::List(roots) = answer(&record, &REFERENCE) else { continue };
            (list.clone(), roots, lists::shown(&list, TOL))
        } else {
            let terms = cranks::terms(&mut r, n / rows.len() as u64);
            let record = Record::Crank { confusion: TOL, terms };
            let Answer::Crank(..) = answer(&record, &REFERENCE) else { continue };
            let Turned { quartic, roots, .. } = REFERENCE.crank(terms, TOL);
            (quartic.to_vec(), roots, format!("crank {}", lists::shown(&terms, TOL)))
        };
        add(&mut rows[which], &mut faults, &text, &coeffs, &roots);
    }
    (rows, faults)
}

/// The long run; true, as nothing is compared with the port here.
pub fn run(count: u64, seed: u64) -> bool {
    let (rows, faults) = counted(count, seed);
    told(&rows, &faults, (count, seed));
    true
}

fn told(rows: &Rows, faults: &Faults, (count, seed): (u64, u64)) {
    say(&format!("{count} lists and cranks, seed {seed}: how many of the listed roots are marked"));
    let head = COLUMNS.map(|column| column.0).join(" | ");
    say(&format!("| | {head} |\n|---{}|", "|---".repeat(COLUMNS.len())));
    let mut whole = Counts::default();
    for (name, row) in KINDS.iter().chain(&["cranks"]).zip(rows) {
        say(&row.row(name));
        whole.join(row);
    }
    say(&whole.row("all"));
    for (sort, lines) in ["good and marked", "false and not marked"].iter().zip(faults) {
        lines.iter().for_each(|line| say(&format!("{sort}: {line}")));
    }
}

#[cfg(test)]
mod tests {
    use super::*;

    #[test]
    fn classes() {
        let pair = [1e-20 + ldexp(1.0, -80), -2e-10, 1.0];
        for (coeffs, (x, times), wanted) in [
            (&[2.0, -3.0, 1.0, 0.0][..], (1.0, 1), Class::Good),
            (&[2.0, -3.0, 1.0, ldexp(1.0, -538)], (-ldexp(1.0, 538), 1), Class::Tiny),
            (&[2.0, -3.0, 1.0, ldexp(1.0, -500)], (-ldexp(1.0, 500), 1), Class::Good),
            (&[2.0, -3.0, 1.0], (1.0001, 1), Class::Between),
            (&[2.0, -3.0, 1.0], (1.1, 1), Class::False),
            (&[0.0, 1.0, 1.5, 1.0], (-2.0 / 3.0, 1), Class::False),
            (&[1.0, -2.0, 1.0], (1.0, 2), Class::Good),
            (&[1.0, -2.0, 1.0], (1.0 + ldexp(1.0, -40), 2), Class::Good),
            (&[1.0, -2.0, 1.0], (1.0 + ldexp(1.0, -10), 2), Class::Between),
            (&[2.0, -3.0, 1.0], (1.5, 2), Class::False),
            (&pair, (1e-10, 2), Class::Joined),
            (&[0.0, 0.0, 1.0], (0.0, 2), Class::Good),
            (&[1.0, 0.0, 1.0], (0.0, 2), Class::False),
            (&[0.0, 6.0, 1.0, -6.0, f64::from_bits(1)], (0.0, 3), Class::Fewer),
        ] {
            assert_eq!(class(coeffs, x, times), wanted, "{coeffs:?} {x:e} {times}");
        }
    }
    /// Every false place is marked, and no good one.
    #[test]
    fn marks() {
        let (rows, faults) = counted(17_000, 942);
        let mut whole = Counts::default();
        rows.iter().for_each(|row| whole.join(row));
        for ((name, class, more), [marked, all]) in COLUMNS.iter().zip(whole.columns) {
            match class {
                Class::Good => assert!(marked == 0 && all > 1_000, "{name}, {more}: {faults:?}"),
                Class::False => assert!(marked == all && all > 100, "{name}, {more}: {faults:?}"),
                _ => {}
            }
        }
    }
}
