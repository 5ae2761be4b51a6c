//! The hall file of document 01: records to bytes, and bytes to records or to the number under which
//! reading ends.

use crate::truth::contact::Contact;
use crate::truth::refusals;

/// A longer file is refused whole.
pub const MOST_BYTES: usize = 65_536;

/// No listing has more bytes: eight for each byte of the file, 20 for the record that ends the reading, 20
/// for the total.
pub const MOST_LISTED: usize = 8 * MOST_BYTES + 20 + 20;

/// A record with a higher count ends the reading.
pub const MOST_COEFFICIENTS: usize = 32;

/// The kind of a record.
#[derive(Clone, Copy, Debug, PartialEq, Eq)]
pub enum Kind {
    List,
    Quadratic,
    Crank,
    Contact,
    Formula,
}

impl Kind {
    pub const ALL: [Kind; 5] =
        [Kind::List, Kind::Quadratic, Kind::Crank, Kind::Contact, Kind::Formula];

    /// The two bytes before each record.
    pub fn mark(self) -> &'static str {
        match self {
            Kind::List => "PL",
            Kind::Quadratic => "QD",
            Kind::Crank => "TG",
            Kind::Contact => "PC",
            Kind::Formula => "TX",
        }
    }

    /// The word that a line of text begins with.
    pub fn word(self) -> &'static str {
        match self {
            Kind::List => "list",
            Kind::Quadratic => "quad",
            Kind::Crank => "crank",
            Kind::Contact => "contact",
            Kind::Formula => "formula",
        }
    }

    /// The kind that has this mark.
    pub fn of_mark(mark: &[u8]) -> Option<Kind> {
        Kind::ALL.into_iter().find(|kind| kind.mark().as_bytes() == mark)
    }
}

/// A whole record.
#[derive(Clone, Debug)]
pub enum Record {
    List { tolerance: f64, coeffs: Vec<f64> },
    Quadratic { confusion: f64, angular: f64, abc: [f64; 3] },
    Crank { confusion: f64, terms: [f64; 5] },
    Contact(Contact),
    Formula { tolerance: f64, text: Vec<u8> },
}

impl Record {
    pub fn kind(&self) -> Kind {
        match self {
            Record::List { .. } => Kind::List,
            Record::Quadratic { .. } => Kind::Quadratic,
            Record::Crank { .. } => Kind::Crank,
            Record::Contact(_) => Kind::Contact,
            Record::Formula { .. } => Kind::Formula,
        }
    }

    /// All its numbers, in the file's order.
    pub fn numbers(&self) -> Vec<f64> {
        match self {
            Record::List { tolerance, coeffs } => [&[*tolerance], &coeffs[..]].concat(),
            Record::Quadratic { confusion, angular, abc } => {
                [&[*confusion, *angular], &abc[..]].concat()
            }
            Record::Crank { confusion, terms } => [&[*confusion], &terms[..]].concat(),
            Record::Contact(contact) => contact.numbers().to_vec(),
            Record::Formula { tolerance, .. } => vec![*tolerance],
        }
    }

    /// What the byte behind its mark counts, where there is one.
    fn count(&self) -> Option<usize> {
        match self {
            Record::List { coeffs, .. } => Some(coeffs.len()),
            Record::Formula { text, .. } => Some(text.len()),
            _ => None,
        }
    }

    /// What stands behind its numbers.
    fn text(&self) -> &[u8] {
        if let Record::Formula { text, .. } = self { text } else { &[] }
    }

    /// How many bytes stand before its numbers.
    pub fn before_numbers(&self) -> usize {
        2 + usize::from(self.count().is_some())
    }

    /// How many bytes it has in a file.
    pub fn size(&self) -> usize {
        self.before_numbers() + 8 * self.numbers().len() + self.text().len()
    }

    /// Its bytes in a file. A list may have up to 255 coefficients here: more than 32 make a file
    /// that is refused, which tests want.
    pub fn bytes(&self) -> Vec<u8> {
        let mut all = self.kind().mark().as_bytes().to_vec();
        all.extend(self.count().map(|n| u8::try_from(n).expect("a count of one byte")));
        all.extend(self.numbers().iter().flat_map(|x| x.to_le_bytes()));
        all.extend(self.text());
        all
    }
}

/// The bytes of a file of these records.
pub fn file(records: &[Record]) -> Vec<u8> {
    records.iter().flat_map(Record::bytes).collect()
}

/// What a file holds at one place.
#[derive(Clone, Debug)]
pub struct Item {
    /// From 1 on; 0 for a file that is too long.
    pub number: usize,
    /// Where it starts, in bytes from 0.
    pub at: usize,
    /// None where no whole known mark was read.
    pub kind: Option<Kind>,
    /// The record, or the number of the refusal with which reading ends: 6, 7, 8 or 9.
    pub record: Result<Record, u8>,
}

/// What a file holds, in order, by document 01's 'What each operation refuses'.
pub fn items(bytes: &[u8]) -> Vec<Item> {
    if bytes.len() > MOST_BYTES {
        return vec![Item { number: 0, at: 0, kind: None, record: Err(refusals::FILE_TOO_LONG) }];
    }
    let (mut all, mut at) = (Vec::new(), 0);
    while at < bytes.len() {
        let (kind, record) = front(&bytes[at..]);
        let size = record.as_ref().map_or(bytes.len() - at, Record::size);
        all.push(Item { number: all.len() + 1, at, kind, record });
        at += size;
    }
    all
}

/// What stands at the front of some bytes.
fn front(bytes: &[u8]) -> (Option<Kind>, Result<Record, u8>) {
    let Some((mark, rest)) = bytes.split_at_checked(2) else {
        return (None, Err(refusals::CUT));
    };
    match Kind::of_mark(mark) {
        None => (None, Err(refusals::UNKNOWN_MARK)),
        Some(kind) => (Some(kind), behind_mark(kind, rest)),
    }
}

fn behind_mark(kind: Kind, bytes: &[u8]) -> Result<Record, u8> {
    match kind {
        Kind::List => {
            let (&count, rest) = bytes.split_first().ok_or(refusals::CUT)?;
            if usize::from(count) > MOST_COEFFICIENTS {
                return Err(refusals::COUNT_TOO_LARGE);
            }
            let (tolerance, rest) = double(rest)?;
            Ok(Record::List { tolerance, coeffs: doubles(rest, count.into())? })
        }
        Kind::Quadratic => {
            let [confusion, angular, a, b, c] = array(bytes)?;
            Ok(Record::Quadratic { confusion, angular, abc: [a, b, c] })
        }
        Kind::Crank => {
            let [confusion, a2, b2, c1, d1, e] = array(bytes)?;
            Ok(Record::Crank { confusion, terms: [a2, b2, c1, d1, e] })
        }
        Kind::Contact => Ok(Record::Contact(Contact::new(array(bytes)?))),
        Kind::Formula => {
            let (&length, rest) = bytes.split_first().ok_or(refusals::CUT)?;
            let (tolerance, rest) = double(rest)?;
            let text = rest.get(..length.into()).ok_or(refusals::CUT)?;
            Ok(Record::Formula { tolerance, text: text.to_vec() })
        }
    }
}

/// The double at the front, lowest byte first, and the bytes behind it.
fn double(bytes: &[u8]) -> Result<(f64, &[u8]), u8> {
    let (front, rest) = bytes.split_first_chunk().ok_or(refusals::CUT)?;
    Ok((f64::from_le_bytes(*front), rest))
}

fn doubles(mut bytes: &[u8], n: usize) -> Result<Vec<f64>, u8> {
    let mut all = Vec::with_capacity(n);
    for _ in 0..n {
        let (x, rest) = double(bytes)?;
        all.push(x);
        bytes = rest;
    }
    Ok(all)
}

fn array<const N: usize>(bytes: &[u8]) -> Result<[f64; N], u8> {
    doubles(bytes, N).map(|all| std::array::from_fn(|i| all[i]))
}

#[cfg(test)]
mod tests {
    use super::*;

    fn one_of_each() -> Vec<Record> {
        vec![
            Record::List { tolerance: 0.5, coeffs: vec![2.0, -3.0, 1.0] },
            Record::Quadratic { confusion: 0.25, angular: -0.0, abc: [1.0, -3.0, f64::NAN] },
            Record::Crank { confusion: f64::INFINITY, terms: [0.0, 0.0, 1.0, 0.0, 7.0] },
            Record::Contact(Contact::new(std::array::from_fn(|i| i as f64 - 4.0))),
            Record::Formula { tolerance: -0.5, text: b"(t-2)^2*(t+1)".to_vec() },
        ]
    }

    #[test]
    fn sizes() {
        let sizes = one_of_each().iter().map(Record::size).collect::<Vec<_>>();
        assert_eq!(sizes, [35, 42, 50, 82, 24]);
        for record in one_of_each() {
            assert_eq!(record.size(), record.bytes().len());
        }
    }

    #[test]
    fn back_from_bytes() {
        let bytes = file(&one_of_each());
        let items = items(&bytes);
        assert_eq!(items.iter().map(|i| i.at).collect::<Vec<_>>(), [0, 35, 77, 127, 209]);
        let back: Vec<Record> = items.into_iter().map(|i| i.record.unwrap()).collect();
        assert_eq!(file(&back), bytes);
    }

    #[test]
    fn lowest_byte_first() {
        let record =
            Record::List { tolerance: f64::from_bits(0x0102_0304_0506_0708), coeffs: vec![] };
        assert_eq!(record.bytes(), *b"PL\0\x08\x07\x06\x05\x04\x03\x02\x01");
        let record = Record::Formula {
            tolerance: f64::from_bits(0x0102_0304_0506_0708),
            text: b"t^2".to_vec(),
        };
        assert_eq!(record.bytes(), *b"TX\x03\x08\x07\x06\x05\x04\x03\x02\x01t^2");
    }

    #[test]
    fn formulas_are_cut_and_never_too_long() {
        for text in [&b""[..], b"t-1", &[b'('; 255], &[0xFF; 33]] {
            let record = Record::Formula { tolerance: 0.5, text: text.to_vec() };
            let bytes = record.bytes();
            assert_eq!((bytes.len(), record.size()), (11 + text.len(), 11 + text.len()));
            for n in 2..bytes.len() {
                let items = items(&bytes[..n]);
                let (kind, refusal) = (items[0].kind, items[0].record.as_ref().err());
                assert_eq!((items.len(), kind, refusal), (1, Some(Kind::Formula), Some(&7)));
            }
            let behind = items(&[&bytes[..], b"X"].concat());
            let [Item { record: Ok(back), .. }, Item { at, record: Err(7), .. }] = &behind[..]
            else {
                panic!("{behind:?}");
            };
            assert_eq!((back.bytes(), *at), (bytes, 11 + text.len()));
        }
    }
}
