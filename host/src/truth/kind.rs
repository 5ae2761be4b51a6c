//! A root, and the kind that document 02 gives it.

/// How a curve meets the axis at a root.
#[derive(Clone, Copy, Debug, Default, PartialEq, Eq)]
pub enum Kind {
    #[default]
    Crossing,
    Brush,
    Flat,
}

impl Kind {
    pub const ALL: [Kind; 3] = [Kind::Crossing, Kind::Brush, Kind::Flat];

    /// By the total multiplicity, and whether a yes helped to form the root.
    pub fn of(multiplicity: u32, brushed: bool) -> Kind {
        match (multiplicity, brushed) {
            (1, _) => Kind::Crossing,
            (_, true) => Kind::Brush,
            (_, false) => Kind::Flat,
        }
    }

    /// In C.
    pub fn number(self) -> u32 {
        self as u32
    }

    /// In a line of the listing.
    pub fn letter(self) -> char {
        match self {
            Kind::Crossing => 'c',
            Kind::Brush => 'b',
            Kind::Flat => 'f',
        }
    }

    pub fn word(self) -> &'static str {
        match self {
            Kind::Crossing => "crossing",
            Kind::Brush => "brush",
            Kind::Flat => "flat",
        }
    }

    /// The kind that has this letter.
    pub fn of_letter(letter: &str) -> Option<Kind> {
        Kind::ALL.into_iter().find(|kind| letter.chars().eq([kind.letter()]))
    }
}

/// Whether a yes helped to form a root, its place, and its total multiplicity.
pub type Formed = (bool, f64, u32);

/// A place with its multiplicity and its kind.
#[derive(Clone, Copy, Debug, Default, PartialEq)]
pub struct Root {
    pub value: f64,
    pub multiplicity: u32,
    pub kind: Kind,
}

impl Root {
    /// One that no yes helped to form.
    pub fn new(value: f64, multiplicity: u32) -> Root {
        Root::by((false, value, multiplicity))
    }

    pub fn by((brushed, value, multiplicity): Formed) -> Root {
        Root { value, multiplicity, kind: Kind::of(multiplicity, brushed) }
    }
}

#[cfg(test)]
mod tests {
    use super::*;

    #[test]
    fn kinds() {
        assert_eq!([1, 2, 4].map(|m| Kind::of(m, false).letter()), ['c', 'f', 'f']);
        assert_eq!([1, 2, 4].map(|m| Kind::of(m, true).letter()), ['c', 'b', 'b']);
        assert_eq!(Kind::ALL.map(Kind::number), [0, 1, 2]);
        for kind in Kind::ALL {
            assert_eq!(Kind::of_letter(&kind.letter().to_string()), Some(kind));
            assert!(kind.word().starts_with(kind.letter()));
        }
        assert_eq!(["", "cc", "x"].map(Kind::of_letter), [None; 3]);
    }
}
