//! What is answered to a list.
use crate::compare::bits;
use crate::truth::kind::{Kind, Root};

/// The number of the refusal, 0 where there is none; the roots; and how many square systems were
/// solved for them.
#[derive(Clone, Copy, Default)]
pub struct Answer {
    pub refusal: u64,
    pub len: usize,
    pub root: [Root; 4],
    pub systems: u32,
}

/// How many doubles of the port roots have: how many they are, and four of them.
pub const ROOTS: usize = 13;

/// The same of a list, which has the number of systems too.
pub const LIST: usize = ROOTS + 1;

impl Answer {
    pub fn new(refusal: u64, roots: &[Root]) -> Answer {
        let mut root = [Root::default(); 4];
        root[..roots.len()].copy_from_slice(roots);
        Answer { refusal, len: roots.len(), root, systems: 0 }
    }

    /// The same, for which so many systems were solved.
    pub fn solving(self, systems: u32) -> Answer {
        Answer { systems, ..self }
    }

    /// From the `LIST` doubles of the port. A place behind the last is zeros.
    pub fn read(out: &[f64]) -> Answer {
        let (len, each) = (out[0] as usize, &out[1..ROOTS]);
        let zeros = each[3 * len..].iter().all(|x| x.to_bits() == 0);
        assert!(zeros, "after the last: {out:?}");
        let root = std::array::from_fn(|k| read_root(&each[3 * k..3 * k + 3]));
        let systems = out[ROOTS] as u32;
        assert!(f64::from(systems) == out[ROOTS], "systems: {out:?}");
        Answer { refusal: 0, len, root, systems }
    }

    pub fn roots(&self) -> &[Root] {
        &self.root[..self.len]
    }

    pub fn multiplicities(&self) -> impl Iterator<Item = u32> {
        self.roots().iter().map(|r| r.multiplicity)
    }

    fn all_bits(&self) -> impl Iterator<Item = (u64, u32)> {
        self.roots().iter().map(|r| (bits(r.value), r.multiplicity))
    }

    pub fn kinds(&self) -> impl Iterator<Item = Kind> {
        self.roots().iter().map(|r| r.kind)
    }

    pub fn same(&self, other: &Answer) -> bool {
        self.same_roots(other) && self.systems == other.systems
    }

    /// The same but for the systems.
    pub fn same_roots(&self, other: &Answer) -> bool {
        self.same_places(other) && self.kinds().eq(other.kinds())
    }

    /// The same places and multiplicities, which is what the Rust has.
    pub fn same_places(&self, other: &Answer) -> bool {
        self.refusal == other.refusal && self.all_bits().eq(other.all_bits())
    }

    pub fn text(&self) -> String {
        let root =
            |r: &Root| format!(" {:016X} {} {}", bits(r.value), r.multiplicity, r.kind.letter());
        match self.refusal {
            0 => format!("ok {}{}", self.len, self.roots().iter().map(root).collect::<String>()),
            n => format!("refused {n}"),
        }
    }

    /// The same with the systems.
    pub fn told(&self) -> String {
        format!("{}, systems {}", self.text(), self.systems)
    }
}

/// Place, multiplicity and kind.
fn read_root(out: &[f64]) -> Root {
    let kind = Kind::ALL.into_iter().find(|kind| f64::from(kind.number()) == out[2]);
    let kind = kind.unwrap_or_else(|| panic!("no kind: {out:?}"));
    Root { value: out[0], multiplicity: out[1] as u32, kind }
}
