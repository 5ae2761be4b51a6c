//! Stored lists, contacts and formulas that tell mistakes which made ones seldom or never show.
use crate::people::text;
use crate::truth::contact::Contact;
use crate::truth::hall_file::Record;

/// What the list shows, the tolerance's bits, and the coefficients'.
pub struct Telling {
    pub name: &'static str,
    pub tol: u64,
    pub numbers: &'static [u64],
}

/// 2^-30
const T30: u64 = 0x3E10_0000_0000_0000;

/// Most have a tolerance at which the answer changes.
pub const LISTS: &[Telling] = &[
    Telling {
        name: "zero pivot",
        tol: T30,
        numbers: &[0xBFE0 << 48, 0, 0x4000 << 48, 0xC000 << 48, 0x0010 << 48],
    },
    Telling {
        name: "crude bound",
        tol: 0x3EE9_E12C_7928_755D,
        numbers: &[0xCAB4_BFB8_42E3_07D3, 0xCB93_3FC7_424E_5CD0, 0x4CC0 << 48],
    },
    Telling {
        name: "budget",
        tol: 0x3FEF_FFFF_F000_0000,
        numbers: &[0xFFE0 << 48, 0x3FE0 << 48, 0x7FE0 << 48],
    },
    Telling {
        name: "noise of a line",
        tol: 0x3FEF_FFFF_F100_0006,
        numbers: &[0, 0x3FF0 << 48, 0xBE4E << 48],
    },
    Telling {
        name: "noise edge",
        tol: 0x3FEF_FFFF_EC67_71EC,
        numbers: &[
            0xCE99_B9F2_76CE_1748,
            0xD312_936E_B8C0_9760,
            0xB1D3_3D99_FA75_55B0,
            0x3740_D5B0_A242_41A4,
            0x3E0A_D037_6BF2_4A88,
        ],
    },
    Telling {
        name: "gap of 8 bits",
        tol: 0x4004_7861_7F55_9930,
        numbers: &[0x3FF0 << 48, 0x4000 << 48, 0x3F80 << 48, 0x3E80 << 48],
    },
    Telling {
        name: "NaN unit",
        tol: T30,
        numbers: &[
            0x8000_0000_0000_0001,
            0x0000_0000_0000_0003,
            0x0000_0000_0000_0003,
            0xBFEF_FFFF_FFFF_FFFF,
            0xBFEF_FFFF_FFFF_FFFF,
        ],
    },
];

/// What a contact shows, and its line of text. Where D - R is what decides, confusion is |D - R| at
/// the place asked about, or a double beside it.
pub const CONTACTS: &[(&str, &str)] = &[
    ("a yes at D = R", "contact 0 0.5 -1.2 0 1.2 0.5 0 0 0 1.3"),
    ("confusion below 0", "contact -1 0.5 -1.2 0 1.2 0.5 0 0 0 1.3"),
    ("confusion below 0, a pair", "contact -1 0.8 -1.5 0 1.5 0.8 0 0 0 1.7"),
    ("2(X1X2 + Y1Y2)", "contact 2^-30 0 5e153 5e153 0 9.7e153 -9.7e153 3 0 1"),
    ("2(X0X1 + Y0Y1)", "contact 2^-30 5e153 5e153 0 9.7e153 -9.7e153 0 0 0 1"),
    ("12 before 2", "contact 2^-30 0.5 0 0 -0.25 0 0 0 0 1e200"),
    ("R² last", "contact 0 3.4 -3.8 0 3.8 3.4 0 0 0 5.1"),
    (
        "X by Horner's rule",
        "contact 0x3F81A70FDC5F34E4 0x3FB9D7850FD8B4EC 0xBFD6BF5118CBEEB2 0x3FE1F27066ED032E \
         0xBFE491E2EBBA592A 0x3FD124450CC5A1F8 0xBFE1260D372EAB28 0x3FA1B0561A993100 \
         0xBFE39279C6E80546 0x3F93274A2C2D5ADE",
    ),
    (
        "X² + Y² rounded",
        "contact 0x38BA69E14C725F30 0xBC32CA7431F58795 0 0x3C1C84E691EE525A 0 0x3C300F2634804103 \
         0 0 0 0x3C32C7115129D896",
    ),
    (
        "the sums of X",
        "contact 0x3FB6169752A1D265 0xBFF8C24AA1BF81CE 0xBFE6EC5B436EB6E4 0xBFC14EAE43CC8C00 \
         0xC013B72BB2CDBA8C 0xC0049CB9CEEAF672 0xBFD951FFAAF4FA2C 0xBFDF56BEA8B30D48 \
         0xBFE02E41CAC5BBDA 0x3FD70158403E3AA6",
    ),
    (
        "X² rounded first",
        "contact 0x3CA47D9932801E3E 0xBFD3115D2805AD44 0xBFB544FF277B2822 0 0x3FE544FF277B2822 \
         0xBFA3115D2805AD44 0 0 0 0x3FE74EFC518E8F8D",
    ),
    ("|D - R| at confusion", "contact 0.5 1 0 0 0 1 0 0 0 0.5"),
    ("|D - R| beyond confusion", "contact 0x3FDFFFFFFFFFFFFF 1 0 0 0 1 0 0 0 0.5"),
];

/// The same as records.
pub fn contacts() -> impl Iterator<Item = (&'static str, Contact)> {
    CONTACTS.iter().map(|(name, line)| match text::read(line.as_bytes()).as_deref() {
        Ok([Record::Contact(contact)]) => (*name, *contact),
        other => panic!("{name}: {other:?}"),
    })
}

/// What a formula shows, and its text.
pub const FORMULAS: &[(&str, &[u8])] = &[
    ("as mechanics write it", b"(t-2)^2*(t+1)"),
    ("a zero below what falls", b"4-t^2"),
    ("written out", b"t^3-3*t^2+4"),
    ("products before sums", b"7+t*2-3*t^2"),
    ("sums from the left", b"9-5-3-t"),
    ("products from the left", b"0*t^4*t"),
    ("powers before products", b"2*t^2-9*3^2"),
    ("the power 0", b"(t-t)^0+(t-1)^0*t"),
    ("the power 9", b"2^9-t"),
    ("the power 0 of what is refused", b"(t^5)^0+t"),
    ("0 times what is refused", b"0*t^5+t"),
    ("less what is refused", b"t^5-t^5+t"),
    ("zero terms are dropped", b"(t^4-t^4+t)*(t^3-1)"),
    ("the degree 5 of a product", b"1+t^4*t"),
    ("14 and 15 in one product", b"(999999999*t^3)*(999999999*t^2)"),
    ("14 at the fifth product", b"(1000*t)^9"),
    ("15 at the fourth", b"(10000*t)^9"),
    ("15 on the left", b"99999999^2+t^5"),
    ("14 on the left", b"t^5+99999999^2"),
    ("2^53", b"90071992*100000000+54740992-t"),
    ("2^53 + 1", b"90071992*100000000+54740993-t"),
    ("2^53 + 1 for a while", b"90071992*100000000+54740993-1-t"),
    ("-2^53", b"t-90071992*100000000-54740992"),
    ("-2^53 - 1", b"t-90071992*100000000-54740993"),
    ("2^53 as a product", b"t-67108864*134217728"),
    ("2^64 as a power", b"t-65536^4"),
    ("2^53 + 1 less 1", b"((280598*100000000+10762433)*t+1)*(321-t)"),
    ("2^53 in the middle", b"(67108864*t-67108864)^2"),
    ("2^53 + 1 in the middle", b"(90071992*t+1)*(100000000+54740993*t)"),
    ("2^53 + 1 at the end", b"t*90071992*100000000+t*54740993"),
    ("nine digits", b"999999999-t*000000001"),
    ("ten digits", b"t-1000000000"),
    ("ten digits with zeros", b"t-0000000001"),
    ("zeros in front", b"t-0010"),
    ("two digits of a power", b"t^12"),
    ("a power of a power", b"t^2^2"),
    ("no digit of a power", b"t^"),
    ("a leading minus", b"-t"),
    ("a leading plus", b"+t"),
    ("a minus in a bracket", b"(-t)"),
    ("a minus behind a star", b"2*-t"),
    ("a blank", b"t -1"),
    ("a blank behind a minus", b"t- 1"),
    ("a blank at the end", b"t-1 "),
    ("a line end", b"t-1\n"),
    ("a byte 0", b"t-1\0"),
    ("a capital letter", b"T-1"),
    ("a byte above 127", b"\xF4-1"),
    ("another letter", b"x-1"),
    ("no star", b"2t"),
    ("two stars", b"2**t"),
    ("a star at the end", b"2*t*"),
    ("brackets side by side", b"(t)(t-1)"),
    ("an empty bracket", b"()+t"),
    ("a bracket is missing", b"(t-1"),
    ("a bracket too many", b"t-1)"),
    ("a square bracket", b"(t-1]"),
    ("13 behind what is refused", b"t^5)"),
    ("no letters", b""),
    ("a constant", b"7"),
];
