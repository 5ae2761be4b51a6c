//! Lists and how many square systems they take.
use crate::people::text;
use crate::truth::hall_file::Record;

/// Lists with usual numbers, and how many systems they take in either mode: none below degree 3, or
/// where the closed form is good enough.
pub const TOLD: &[(&[f64], u32)] = &[
    (&[2.0, -3.0, 1.0], 0),
    (&[-6.0, 11.0, -6.0, 1.0], 0),
    (&[0.0, 1.0, 2.0, 3.0, 4.0], 0),
    (&[1.0, 2.0, 3.0, 4.0, 5.0], 2),
];

/// A list that takes many: its sort, as the search for such has it; a line of text; and how many
/// systems it takes with s of the rounded c, and with s of the exact c.
pub struct Costly {
    pub sort: &'static str,
    pub line: &'static str,
    pub systems: [u32; 2],
}

impl Costly {
    pub fn record(&self) -> Record {
        let read = text::read(self.line.as_bytes());
        read.unwrap_or_else(|e| panic!("{e}")).remove(0)
    }
}

pub const COSTLY: &[Costly] = &[
    Costly {
        sort: "degree 3",
        line: "list 2^-30 3.5782218644817183 7.018652702987602 6.433723674807792 0.4999999997671692",
        systems: [6, 6],
    },
    Costly {
        sort: "degree 3, scaled once more",
        line: "list 2^-30 -5.22958669936951e-309 0.7500049376560507 1.500000200332707 \
               -3.000231868772608",
        systems: [7, 7],
    },
    Costly {
        sort: "degree 4",
        line: "list 2^-30 1.1376149481547715e138 -3.669866897581753e211 -2.0208233347306292e273 \
               1.9997501246696348 0.6249955961275501",
        systems: [8, 8],
    },
    Costly {
        sort: "degree 4, a root peeled off",
        line: "list 2^-30 2.065726775800179e77 4.5824839622429234e299 5.64310994211297e292 \
               -4.758454107138633e285 -2.6215666356850897e247",
        systems: [16, 16],
    },
    Costly {
        sort: "degree 4, scaled once more",
        line: "list 2^-30 -6.90446563268088e-75 8.848374679805382e-38 0.7173755482154544 \
               0.7176126212318862 -2.0006586259762558",
        systems: [8, 8],
    },
    Costly {
        sort: "degree 4, both",
        line: "list 2^-30 -2.0719612788950053e-119 3.311110553889224e-119 -5.477689827091791e-118 \
               -1.1328284100624986e-117 5.770611635409083e-129",
        systems: [24, 24],
    },
];

/// The records.
pub fn records() -> Vec<Record> {
    COSTLY.iter().map(Costly::record).collect()
}
