//! Damaged files: those that meet something new in the reference build are damaged again.
use super::files::Files;
use crate::compare::outcome::Outcome;
use crate::compare::say;
use crate::compare::ways::Counts;
use crate::inputs::hall_files::{any_file, damage};
use crate::inputs::random::Random;
use crate::people::table::in_columns;
use crate::port;
use crate::stored;
use crate::truth::angle::Sine;
use crate::truth::hall_file::{Item, Record, items};
use crate::truth::kind::Root;
use crate::truth::lister::{Answer, Line};
use std::collections::HashSet;
use std::hash::{DefaultHasher, Hash, Hasher};
use std::time::{Duration, Instant};

/// Longer files make no new ones, and a damaged one may have a few bytes more than a file may have.
const MOST_KEPT: usize = 8_000;
const MOST_MADE: usize = 66_000;

/// Files to damage, and what they met.
pub struct Hunt {
    r: Random,
    files: Files,
    kept: Vec<Vec<u8>>,
    seen: HashSet<u64>,
}

/// What a record met: its kind, the answer without its places, and how often each way was gone, up
/// to three times.
fn met(line: &Line, ways: &Counts) -> u64 {
    let times = |roots: &[Root]| {
        roots.iter().map(|r| (r.multiplicity, r.kind.number())).collect::<Vec<_>>()
    };
    let shape = match &line.answer {
        Answer::Refused(n) => (*n as usize, "refused", vec![]),
        Answer::List(roots) => (0, "list", times(roots)),
        Answer::Quadratic(solution) => (0, solution.word(), vec![]),
        Answer::Crank(k, roots) => (*k, "crank", times(roots)),
    };
    let mut hash = DefaultHasher::new();
    (line.kind.map(|kind| kind.mark()), shape, ways.map(|n| n.min(3))).hash(&mut hash);
    hash.finish()
}

impl Hunt {
    /// Begins with the stored files.
    pub fn new(sine: Sine, seed: u64) -> Hunt {
        let (r, files) = (Random::new(seed), Files::new(sine, port::lister(sine)));
        let mut hunt = Hunt { r, files, kept: Vec::new(), seen: HashSet::new() };
        for (_, bytes) in stored::files::files() {
            hunt.add(&bytes);
            if bytes.len() <= MOST_KEPT {
                hunt.kept.push(bytes);
            }
        }
        hunt
    }

    /// Compares a file, and keeps each record that met something new.
    fn add(&mut self, bytes: &[u8]) {
        let (kept, seen) = (&mut self.kept, &mut self.seen);
        self.files.add(bytes, |item, line, ways| {
            if seen.insert(met(line, ways)) {
                let rest = &bytes[item.at..];
                let size = item.record.as_ref().map_or(rest.len().min(300), Record::size);
                kept.push(rest[..size].to_vec());
            }
        });
    }

    /// Compares one more damaged file.
    pub fn turn(&mut self) {
        let r = &mut self.r;
        let mut bytes = match r.below(8) {
            0 => any_file(r),
            _ => one_of(r, &self.kept).clone(),
        };
        for _ in 0..=r.below(3) {
            hurt(r, &mut bytes, &self.kept);
        }
        bytes.truncate(MOST_MADE);
        self.add(&bytes);
    }

    /// How many files were compared, how many met something new, and how many differ.
    fn so_far(&self) -> [u64; 3] {
        [self.files.outcome.inputs, self.seen.len() as u64, self.files.outcome.wrong]
    }

    pub fn outcome(self) -> (Outcome, usize) {
        (self.files.outcome(), self.seen.len())
    }
}

fn one_of<'a>(r: &mut Random, kept: &'a [Vec<u8>]) -> &'a Vec<u8> {
    &kept[r.below(kept.len() as u64) as usize]
}

/// Flips a bit, cuts, inserts, splices with another file, repeats a part, moves a number by a few
/// doubles or to an edge, or damages as `hall_files` does.
fn hurt(r: &mut Random, bytes: &mut Vec<u8>, kept: &[Vec<u8>]) {
    let at = r.below(bytes.len() as u64 + 1) as usize;
    match r.below(8) {
        0 if at < bytes.len() => bytes[at] ^= 1 << r.below(8),
        1 => bytes.truncate(at),
        2 => bytes.insert(at, r.next() as u8),
        3 => {
            let other = one_of(r, kept);
            let from = r.below(other.len() as u64 + 1) as usize;
            bytes.truncate(at);
            bytes.extend(&other[from..]);
        }
        4 => {
            let end = at + r.below((bytes.len() - at) as u64 + 1) as usize;
            let again = bytes[at..end].to_vec();
            bytes.splice(end..end, again);
        }
        5 | 6 => move_a_number(r, bytes),
        _ => damage(r, bytes),
    }
}

/// Moves a number of a whole record, some doubles on, or puts an edge in its place.
fn move_a_number(r: &mut Random, bytes: &mut [u8]) {
    let all = items(bytes);
    let whole: Vec<&Item> = all.iter().filter(|item| item.record.is_ok()).collect();
    let Some(Item { at, record: Ok(record), .. }) = (match whole.len() as u64 {
        0 => None,
        n => whole.get(r.below(n) as usize),
    }) else {
        return;
    };
    let n = r.below(record.numbers().len() as u64) as usize;
    let start = at + record.before_numbers() + 8 * n;
    let number = record.numbers()[n].to_bits();
    let moved = match r.below(4) {
        0 => r.edge().to_bits(),
        1 => number ^ 1 << 63,
        _ => number.wrapping_add(r.below(17)).wrapping_sub(8),
    };
    bytes[start..start + 8].copy_from_slice(&moved.to_le_bytes());
}

/// How often the run says how far it is, and after how many files it looks at the clock.
const PAUSE: Duration = Duration::from_secs(10);
const LOOK: u32 = 200;

/// Turns for so long.
fn hunted(sine: Sine, seed: u64, time: Duration) -> (Outcome, usize) {
    let (mut hunt, start) = (Hunt::new(sine, seed), Instant::now());
    let mut said = start;
    while start.elapsed() < time {
        (0..LOOK).for_each(|_| hunt.turn());
        if said.elapsed() >= PAUSE {
            let [files, new, wrong] = hunt.so_far();
            let seconds = start.elapsed().as_secs();
            eprintln!(
                "{}, {seconds} s: {files} files, {new} records met something new, {wrong} differ",
                sine.words()
            );
            said = Instant::now();
        }
    }
    hunt.outcome()
}

/// The long run on two threads, one for each mode; whether all were equal.
pub fn run(minutes: u64, seed: u64) -> bool {
    let time = Duration::from_secs(60 * minutes);
    let found = std::thread::scope(|scope| {
        let hunts = Sine::BOTH.map(|sine| scope.spawn(move || hunted(sine, seed, time)));
        hunts.map(|hunt| hunt.join().expect("a thread"))
    });
    for (all, new) in &found {
        all.shown.iter().for_each(|line| say(line));
        let line = format!("seed {seed}, {new} records met something new");
        say(&in_columns(&format!("{line}\n{}", all.text())));
    }
    found.iter().all(|(all, _)| all.wrong == 0)
}
