//! Records that the two modes of the sine answer otherwise: docs/DIFFERENCES.md has them in a table.
use crate::people::text;
use crate::truth::hall_file::Record;

/// What it shows; the record as a line of text; what is answered with s of the rounded c, and with s
/// of the exact c.
pub struct Unlike {
    pub name: &'static str,
    pub line: &'static str,
    pub answers: [&'static str; 2],
}

pub const UNLIKE: &[Unlike] = &[
    Unlike {
        name: "two crossings in place of a double root",
        line: "list 2^-30 0x3FFFFFFFFFFFFFFD 0xC00800000000000C 0 1",
        answers: [
            "ok 2 C000000000000002 1 c 3FF0000000000004 2 f",
            "ok 3 C000000000000002 1 c 3FEFFFFFE8000005 1 c 3FF000000C000002 1 c",
        ],
    },
    Unlike {
        name: "the same of degree 4",
        line: "list 2^-30 0x404680000000000D 0xC05D100000000000 0x405A90000000000F -40 5",
        answers: [
            "ok 3 3FF000000000016F 1 c 3FF80000000000E0 2 f 400FFFFFFFFFFFAC 1 c",
            "ok 4 3FF000000000016F 1 c 3FF7FFFFAECB0875 1 c 3FF800005134F6C4 1 c 400FFFFFFFFFFFAC 1 c",
        ],
    },
    Unlike {
        name: "a double root in place of two crossings",
        line: "list 2^-30 0x4014000000000003 -1 0xC006000000000010 1",
        answers: [
            "ok 3 BFF3FFFFFFFFFFFC 1 c 3FFFFFFFE81A501F 1 c 400000000BF2D7FF 1 c",
            "ok 2 BFF3FFFFFFFFFFFC 1 c 400000000000000A 2 f",
        ],
    },
    Unlike {
        name: "the same of degree 4",
        line: "list 2^-30 0x400AFFFFFFFFFFF6 -1.6875 0xC028C0000000000D 10 2",
        answers: [
            "ok 4 C018000000000002 1 c BFDFFFFFFFFFFFF5 1 c 3FE7FFFFEEBED7B0 1 c 3FE800001141285A 1 c",
            "ok 3 C018000000000002 1 c BFDFFFFFFFFFFFF5 1 c 3FE8000000000009 2 f",
        ],
    },
    Unlike {
        name: "a wide tolerance, which joins other ones",
        line: "list 1/2 1 3 -6 2",
        answers: ["ok 2 BFCCC470A0490974 1 c 3FFB504F333F9DE5 2 f", "ok 1 3FEDFA9FC90698EC 3 f"],
    },
    Unlike {
        name: "in bits alone",
        line: "list 2^-30 0xC082000000000020 336 -57 3",
        answers: [
            "ok 2 400800000000006D 1 c 401FFFFFFFFFFFFF 2 f",
            "ok 2 400800000000006D 1 c 4020000000000000 2 f",
        ],
    },
];

/// The records.
pub fn records() -> Vec<Record> {
    let read = |unlike: &Unlike| text::read(unlike.line.as_bytes()).expect("a record");
    UNLIKE.iter().flat_map(read).collect()
}
