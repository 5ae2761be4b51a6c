//! Whole lists by the port against the reference build, and document 01's entries.
#![cfg(geomcore)]
use host::compare::answer::Answer;
use host::compare::outcome::Outcome;
use host::compare::say;
use host::compare::ways::{OF_LISTS, WAYS};
use host::inputs::lists::{TOLERANCES, long_lists};
use host::port;
use host::runs::lists::{each, every_short_list, made, made_long, reference};
use host::truth::angle::Sine;
use host::truth::exact::ldexp;
use host::truth::kind::{Kind, Root};

const TOL: f64 = 1.0 / (1u64 << 30) as f64;
const INFINITE: f64 = f64::INFINITY;

fn double(bits: u64) -> f64 {
    f64::from_bits(bits)
}

fn doubles(bits: &[u64]) -> Vec<f64> {
    bits.iter().copied().map(double).collect()
}

/// Port and reference build answer `refused n`.
fn refused(coeffs: &[f64], tol: f64, n: u64) {
    expect(coeffs, tol, Answer::new(n, &[]));
}

/// Port and reference build answer these roots: crossings, and flat ones.
fn roots(coeffs: &[f64], tol: f64, wanted: &[(f64, u32)]) {
    let root = |&(value, multiplicity): &(f64, u32)| {
        let kind = if multiplicity == 1 { Kind::Crossing } else { Kind::Flat };
        Root { value, multiplicity, kind }
    };
    expect(coeffs, tol, Answer::new(0, &wanted.iter().map(root).collect::<Vec<_>>()));
}

fn expect(coeffs: &[f64], tol: f64, wanted: Answer) {
    for sine in Sine::BOTH {
        let both = [port::real_roots(sine, coeffs, tol), reference(sine, coeffs, tol)];
        for answer in both {
            assert!(answer.same_roots(&wanted), "{coeffs:?} at {tol:e}: {}", answer.text());
        }
        assert_eq!(both[0].systems, both[1].systems, "{coeffs:?} at {tol:e}");
    }
}

#[test]
fn entries() {
    refused(&[], TOL, 2);
    refused(&[0.0; 3], TOL, 2);
    refused(&[7.0, 0.0], TOL, 2);
    refused(&[f64::NAN], TOL, 1);
    refused(&[0.0, 0.0, 0.0, 0.0, 0.0, INFINITE], TOL, 1);
    refused(&[0.0, 0.0, 0.0, 0.0, 0.0, 1.0], TOL, 3);
    roots(&[0.0, 0.0, 3.0], TOL, &[(0.0, 2)]);
    roots(&[-1.0, 1.0, 0.0, 0.0, 0.0, 0.0, 0.0], TOL, &[(1.0, 1)]);
    roots(&[-6.0, 2.0], TOL, &[(3.0, 1)]);
    roots(&[0.0, 1.0, 1.5, 1.0], TOL, &[(double(0xBFE5_5555_5555_5555), 1)]);
    roots(&[1.0, -2.0, 1.0], TOL, &[(1.0, 2)]);
    roots(&[1.0, 0.0, 1.0], TOL, &[]);
    roots(&[2.0, -3.0, 1.0], TOL, &[(1.0, 1), (2.0, 1)]);
}

#[test]
fn inputs_that_show_a_mistake() {
    roots(&[-0.0, 3.0], TOL, &[(0.0, 1)]);
    roots(&[1e-300, 1e300], TOL, &[(-0.0, 1)]);
    roots(&[1e300, 1e-300], TOL, &[]);
    roots(&[0.0, -1.0, 2.0, -2.0], TOL, &[(0.5, 1)]);
    roots(&[0.0, 0.0, -2.0, 2.0, -1.0], TOL, &[(0.0, 2)]);
    // unit is infinite: tolerance 0 times it is NaN, and nothing joins
    let steep = doubles(&[0x0000_4000 << 32, 0xBFD0 << 48, 0x7FD0 << 48]);
    for tol in [0.0, -0.0, -1.0, f64::NAN, f64::NEG_INFINITY] {
        roots(&steep, tol, &[]);
    }
    roots(&steep, double(1), &[(double(0x0002 << 48), 2)]);
    // equal places are listed twice
    let zeros = [-0.0, double(0x000F_FFFF_FFFF_FFFF), double(0xFFEF_FFFF_FFFF_FFFF)];
    roots(&zeros, 0.0, &[(0.0, 1), (0.0, 1)]);
    // a gap of exactly 8 bits does not split
    let gap = [1.0, 2.0, ldexp(1.0, -7), ldexp(1.0, -23)];
    roots(&gap, double(0x4004_7861_7F55_9930), &[(double(0xC0D5_5555_5555_5555), 3)]);
}

/// The same, where the papers say a part of the answer.
#[test]
fn inputs_with_a_known_part() {
    let part = |coeffs: &[f64], tol| {
        let [_, answer] = Sine::BOTH.map(|sine| {
            let answer = port::real_roots(sine, coeffs, tol);
            let wanted = reference(sine, coeffs, tol);
            assert!(answer.same(&wanted), "{coeffs:?}: {}", answer.told());
            answer
        });
        answer
    };
    // rounded twice on the way back to x
    let twice = doubles(&[0x0001_84CC_0328_EBDA, 0xC0F1_0000_0001_6DED, 0x7FD0 << 48]);
    assert_eq!(part(&twice, 0.0).root[0], Root::new(double(0x0000_0001_6DED_3026), 1));
    // the third angle of NaN
    let angle = [0x4000 << 48, 0x8000 << 48, 0xBFE0 << 48, 0xC000 << 48, 0x1EB6_7E9C_127B_6E74];
    assert_eq!(part(&doubles(&angle), TOL).len, 1);
    // a zero pivot where the sum of the entries is infinite
    part(&doubles(&[0xBFE0 << 48, 0, 0x4000 << 48, 0xC000 << 48, 0x0010 << 48]), TOL);
    for tol in TOLERANCES {
        part(&[3.0, -7.0, 5.0, -1.0], tol);
    }
}

/// Roots that are not there, by the Rust and so by the port, all of them simple.
#[test]
fn wrong_and_kept() {
    let simple = |bits: [u64; 4]| bits.map(|b| (double(b), 1));
    let wrong = [
        0xC11F_FFFF_FFFF_80FE,
        0xBEC0_0000_0000_3FD7,
        0x3EC0_0000_0000_402C,
        0x411F_FFFF_FFFF_7EFE,
    ];
    roots(&[1.0, 0.0, 2.0, ldexp(1.0, -25), 1.0], TOL, &simple(wrong));
    let wrong = [
        0xC105_5555_5554_F5D2,
        0xBEA8_0000_0000_6BD4,
        0x3EA8_0000_0000_6C32,
        0x4105_5555_5554_F4D4,
    ];
    roots(&[1.0, 0.0, 16.0, ldexp(1.0, -21), 64.0], TOL, &simple(wrong));
}

fn all_equal(name: &str, outcome: &Outcome) {
    say(&format!("{name}: {}", outcome.text()));
    assert!(outcome.wrong == 0, "{name}:\n{}", outcome.shown.join("\n"));
}

#[test]
fn every_list_of_small_numbers() {
    for sine in Sine::BOTH {
        let outcome = every_short_list(sine, &[-2.0, -1.0, -0.0, 0.0, 1.0, 2.0], [TOL, 0.25]);
        assert_eq!(outcome.inputs, 2 * (1 + 6 + 36 + 216 + 1296 + 7776));
        all_equal("lists over -2 to 2 and -0", &outcome);
    }
}

fn made_lists(sine: Sine, seed: u64) {
    let outcome = made(sine, seed, 1_500_000);
    all_equal(&format!("made lists, seed {seed}"), &outcome);
    outcome.met.ask("made lists");
    let [crossing, brush, flat] = outcome.kinds;
    assert!(crossing > 0 && brush == 0 && flat > 0, "{:?}", outcome.kinds);
    // nothing is scaled a fourth time
    let ways = WAYS[..OF_LISTS].iter().zip(outcome.ways).filter(|way| !way.0.ends_with("depth 2"));
    assert!(ways.clone().all(|way| way.1 > 0), "{:?}", ways.collect::<Vec<_>>());
    let departed = outcome.departures();
    assert!(
        (1..outcome.inputs / 50).contains(&departed),
        "what is beside departs {departed} times"
    );
}

#[test]
fn made_lists_first() {
    Sine::BOTH.into_iter().for_each(|sine| made_lists(sine, 701));
}

#[test]
fn made_lists_second() {
    Sine::BOTH.into_iter().for_each(|sine| made_lists(sine, 702));
}

/// Any number of coefficients: what stands far behind counts too.
#[test]
fn far_behind() {
    let mut list = vec![0.0; 5_000];
    list[..3].copy_from_slice(&[2.0, -3.0, 1.0]);
    roots(&list, TOL, &[(1.0, 1), (2.0, 1)]);
    list[4_999] = -0.0;
    roots(&list, TOL, &[(1.0, 1), (2.0, 1)]);
    list[4_999] = double(1);
    refused(&list, TOL, 3);
    for x in [INFINITE, -INFINITE, f64::NAN] {
        list[4_998] = x;
        refused(&list, TOL, 1);
    }
    refused(&vec![-0.0; 5_000], TOL, 2);
}

#[test]
fn long() {
    for sine in Sine::BOTH {
        for tol in [TOL, f64::NAN] {
            let outcome = each(sine, &long_lists(), tol);
            assert_eq!(outcome.inputs, 7 * 14 * 41);
            all_equal("long lists", &outcome);
        }
        let outcome = made_long(sine, 703, 300_000);
        all_equal("made long lists, seed 703", &outcome);
        outcome.met.ask("made long lists");
    }
}

/// On a refusal every byte of the lent buffer is as it was; on an answer every byte behind it.
#[test]
fn buffers() {
    const SIZE: usize = 112;
    const ROOM: usize = 130;
    let before: Vec<u8> = (0..ROOM).map(|i| i as u8 ^ 0x5A).collect();
    let check = |coeffs: &[u8], tol: f64, room: usize, wanted: u64| {
        let mut out = before.clone();
        for sine in Sine::BOTH {
            out.copy_from_slice(&before);
            let said = port::real_roots_bytes(sine, coeffs, tol, &mut out[..room]);
            assert_eq!(said, wanted, "{coeffs:?} into {room} bytes");
            let stored = if said < 24 { 0 } else { said as usize };
            assert_eq!(out[stored..], before[stored..], "{coeffs:?} into {room} bytes");
        }
    };
    let two = port::bytes(&[2.0, -3.0, 1.0]);
    for room in 0..=ROOM {
        let whole = if room < SIZE { 0 } else { SIZE as u64 };
        check(&two, TOL, room, whole);
        check(&port::bytes(&[1.0, 0.0, 1.0]), TOL, room, whole);
        check(&port::bytes(&[1.0, INFINITE]), TOL, room, 1);
        check(&[], TOL, room, 2);
        check(&port::bytes(&[1.0; 6]), TOL, room, 3);
        check(&port::bytes(&[1.0; 33]), TOL, room, 3);
    }
    for cut in (1..24).filter(|n| n % 8 != 0) {
        check(&two[..cut], TOL, ROOM, 20);
        check(&two[..cut], TOL, SIZE - 1, 20);
    }
    let many = port::bytes(&[0.0; 1_000]);
    check(&many, TOL, ROOM, 2);
    for cut in 1..8 {
        check(&many[cut..], TOL, ROOM, 20);
    }
}
