//! Made hall files: records of every kind, edges more often than chance gives, and damage.
use crate::inputs::contacts;
use crate::inputs::formulas;
use crate::inputs::lists::{KINDS, handed_in, tolerance};
use crate::inputs::quadratics::{crank, quadratic};
use crate::inputs::random::Random;
use crate::truth::contact::Contact;
use crate::truth::hall_file::{Item, Kind, MOST_COEFFICIENTS, Record, file, items};

/// A record; `n` tells those of one kind apart.
pub fn record(r: &mut Random, n: u64) -> Record {
    let record = match r.below(9) {
        0..=4 => {
            let mut coeffs = Vec::new();
            let which = r.below(KINDS.len() as u64) as usize;
            handed_in(r, which, n, &mut coeffs);
            coeffs.truncate(MOST_COEFFICIENTS);
            Record::List { tolerance: tolerance(r), coeffs }
        }
        5 => {
            let which = r.below(9) as usize;
            let (abc, [confusion, angular]) = quadratic(r, which);
            Record::Quadratic { confusion, angular, abc }
        }
        6 => {
            let which = r.below(9) as usize;
            let terms = crank(r, which);
            Record::Crank { confusion: tolerance(r), terms }
        }
        7 => {
            let which = r.below(contacts::KINDS.len() as u64) as usize;
            Record::Contact(contacts::contact(r, which))
        }
        _ => Record::Formula { tolerance: tolerance(r), text: formula(r) },
    };
    if r.below(12) == 0 { of_edges(r, record.kind()) } else { record }
}

/// A formula's text.
fn formula(r: &mut Random) -> Vec<u8> {
    let (which, mut text) = (r.below(formulas::KINDS.len() as u64) as usize, Vec::new());
    formulas::text(r, which, &mut text);
    text
}

/// A record whose numbers are edges, or next to one.
fn of_edges(r: &mut Random, kind: Kind) -> Record {
    let count = [r.below(7), r.below(33)][r.below(2) as usize];
    match kind {
        Kind::List => {
            let coeffs = (0..count).map(|_| r.edge()).collect();
            Record::List { tolerance: r.edge(), coeffs }
        }
        Kind::Quadratic => {
            let abc = std::array::from_fn(|_| r.edge());
            Record::Quadratic { confusion: r.edge(), angular: r.edge(), abc }
        }
        Kind::Crank => {
            let terms = std::array::from_fn(|_| r.edge());
            Record::Crank { confusion: tolerance(r), terms }
        }
        Kind::Contact => Record::Contact(Contact::new(std::array::from_fn(|_| r.edge()))),
        Kind::Formula => Record::Formula { tolerance: r.edge(), text: formula(r) },
    }
}

/// This many records.
pub fn records(r: &mut Random, count: u64) -> Vec<Record> {
    (0..count).map(|n| record(r, n)).collect()
}

/// A file of a few records, every other one damaged.
pub fn any_file(r: &mut Random) -> Vec<u8> {
    let count = r.below(9);
    let mut bytes = file(&records(r, count));
    if r.below(2) == 0 {
        damage(r, &mut bytes);
    }
    bytes
}

/// Ends of files, of which each is refused.
const ENDS: [&[u8]; 16] = [
    b"P",
    b"Q",
    b"\0",
    b"XX",
    b"PQ",
    b"pl",
    b"PL",
    b"QD",
    b"TG",
    b"PC",
    b"TX",
    b"PL\0",
    b"PL\x21",
    b"PL\xFF",
    b"TX\0",
    b"TX\x01\0\0\0\0\0\0\0\0",
];

/// Cuts, changes, adds or takes off bytes.
pub fn damage(r: &mut Random, bytes: &mut Vec<u8>) {
    if bytes.is_empty() {
        return bytes.extend(ENDS[r.below(ENDS.len() as u64) as usize]);
    }
    let at = r.below(bytes.len() as u64) as usize;
    match r.below(7) {
        0 => bytes.truncate(at),
        1 => bytes[at] = r.next() as u8,
        2 => bytes.insert(at, r.next() as u8),
        3 => drop(bytes.remove(at)),
        4 => front_of_a_record(r, bytes),
        5 => text_of_a_formula(r, bytes),
        _ => bytes.extend(ENDS[r.below(ENDS.len() as u64) as usize]),
    }
}

/// Changes the mark of a record, or the byte behind it: to another mark's letter, or by a little.
fn front_of_a_record(r: &mut Random, bytes: &mut [u8]) {
    let all = items(bytes);
    let Some(Item { at, .. }) = all.get(r.below(all.len() as u64) as usize) else {
        return;
    };
    if let Some(byte) = bytes.get_mut(at + r.below(3) as usize) {
        *byte = match r.below(2) {
            0 => b"PLQDTGCX\x20\x21"[r.below(10) as usize],
            _ => byte.wrapping_add(r.below(3) as u8).wrapping_sub(1),
        };
    }
}

/// Changes a byte of a formula's text, where there is one, to what may stand in texts.
fn text_of_a_formula(r: &mut Random, bytes: &mut [u8]) {
    let text = |item: Item| match item.record {
        Ok(Record::Formula { text, .. }) if !text.is_empty() => Some((item.at + 11, text.len())),
        _ => None,
    };
    let all: Vec<_> = items(bytes).into_iter().filter_map(text).collect();
    if let [_, ..] = all[..] {
        let (at, len) = all[r.below(all.len() as u64) as usize];
        bytes[at + r.below(len as u64) as usize] = formulas::letter(r);
    }
}

#[cfg(test)]
mod tests {
    use super::*;

    #[test]
    fn the_same_seed_gives_the_same_file() {
        let made = |seed| file(&records(&mut Random::new(seed), 100));
        assert_eq!(made(1), made(1));
        assert_ne!(made(1), made(2));
    }

    #[test]
    fn whole_records() {
        let made = records(&mut Random::new(7), 20_000);
        for chunk in made.chunks(100) {
            let bytes = file(chunk);
            let back = items(&bytes);
            assert_eq!(back.len(), chunk.len());
            assert!(back.iter().all(|item| item.record.is_ok()));
        }
        for kind in Kind::ALL {
            assert!(made.iter().filter(|r| r.kind() == kind).count() > 1500, "{kind:?}");
        }
    }

    #[test]
    fn damage_meets_every_end() {
        let mut r = Random::new(8);
        let mut met = [0; 10];
        for _ in 0..5_000 {
            for item in items(&any_file(&mut r)) {
                met[item.record.err().unwrap_or(0) as usize] += 1;
            }
        }
        assert!([0, 6, 7, 8].iter().all(|&n| met[n] > 50), "{met:?}");
    }
}
