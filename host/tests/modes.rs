//! The two modes of the sine beside each other: what docs/DIFFERENCES.md says of them.
#![cfg(geomcore)]
use host::people::show::whole_listing;
use host::port;
use host::stored::modes::{UNLIKE, records};
use host::truth::angle::{Sine, third_angle};
use host::truth::hall_file::{file, items};
use host::truth::lister::{Reference, line};
use host::truth::listing::lines;

/// The modes as the answers stand there.
const MODES: [Sine; 2] = [Sine::OfRounded, Sine::OfExact];

#[test]
fn records_answered_otherwise() {
    let bytes = file(&records());
    for (n, sine) in MODES.into_iter().enumerate() {
        let listed = lines(&whole_listing(&bytes, port::lister(sine))).unwrap();
        assert_eq!(listed.len(), UNLIKE.len());
        for ((item, unlike), by_port) in items(&bytes).iter().zip(UNLIKE).zip(listed) {
            let by_reference = line(item, &Reference(sine)).answer;
            let (name, wanted) = (unlike.name, unlike.answers[n]);
            assert_eq!(by_reference.to_string(), wanted, "{name}, reference build");
            assert_eq!(by_port.answer.to_string(), wanted, "{name}, port");
        }
    }
}

/// c and s of a v in both modes: the bits of c, of the old s and of the new one.
const PAIRS: [(u64, [u64; 3]); 6] = [
    (0x0000 << 48, [0x3FEB_B67A_E858_4CAA, 0x3FE0_0000_0000_0001, 0x3FE0 << 48]),
    (0x8000 << 48, [0x3FEB_B67A_E858_4CAA, 0x3FE0_0000_0000_0001, 0x3FE0 << 48]),
    (0x3FEF_FFFF_FFFF_FFFF, [0x3FF0 << 48, 0, 0x3E35_5555_5555_5555]),
    (0x3FEF_FFFF_FFFF_FFFE, [0x3FF0 << 48, 0, 0x3E3E_2B7D_DDFE_FA66]),
    (0x3FEF_FFFF_FFFF_FFFD, [0x3FF0 << 48, 0, 0x3E42_79A7_4590_331C]),
    (0x3FEF_FFFF_FFFF_FFFC, [0x3FF0 << 48, 0, 0x3E45_5555_5555_5555]),
];

#[test]
fn pairs() {
    for (v, [c, rounded, exact]) in PAIRS {
        let v = f64::from_bits(v);
        for (sine, s) in MODES.into_iter().zip([rounded, exact]) {
            let wanted = (c, s);
            for (c, s) in [third_angle(sine, v), port::third_angle(sine, v)] {
                assert_eq!((c.to_bits(), s.to_bits()), wanted, "{v:e}, {}", sine.words());
            }
        }
    }
}
