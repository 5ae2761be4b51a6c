//! Inquiries by the port against the reference build's `real_roots_touching`, and document 01's
//! entries.
#![cfg(geomcore)]
use host::compare::answer::Answer;
use host::compare::say;
use host::inputs::lists::long_lists;
use host::port;
use host::port::inquiries::{Shown, inquire, inquire_bytes};
use host::runs::inquiries::{each, every_reply, made, made_long};
use host::truth::angle::Sine;
use host::truth::kind::Kind::{self, Brush, Crossing, Flat};
use host::truth::kind::Root;
use host::truth::touching;
use std::cell::Cell;

const TOL: f64 = 1.0 / (1u64 << 30) as f64;

/// What the inquiry shows after these replies, in either mode.
fn both(coeffs: &[f64], replies: &[u8]) -> [Shown; 2] {
    Sine::BOTH.map(|sine| inquire(sine, coeffs, TOL, replies).unwrap())
}

/// The inquiry asks about this place after these replies.
fn asks(coeffs: &[f64], replies: &[u8], place: f64) {
    for shown in both(coeffs, replies) {
        let asked = shown.place.map(f64::to_bits);
        assert_eq!((shown.number, asked), (0, Some(place.to_bits())), "{coeffs:?}, {replies:?}");
    }
}

type Listed = (f64, u32, Kind);

fn answer(roots: &[Listed]) -> Answer {
    let root = |&(value, multiplicity, kind): &Listed| Root { value, multiplicity, kind };
    Answer::new(0, &roots.iter().map(root).collect::<Vec<_>>())
}

/// It has ended with this list.
fn lists(coeffs: &[f64], replies: &[u8], roots: &[Listed]) {
    ended(coeffs, replies, 0, roots);
}

fn ended(coeffs: &[f64], replies: &[u8], number: u64, roots: &[Listed]) {
    for shown in both(coeffs, replies) {
        assert!(shown.number == number && shown.place.is_none(), "{coeffs:?}, {replies:?}");
        assert!(shown.list.same_roots(&answer(roots)), "{coeffs:?}: {}", shown.list.text());
    }
}

/// A further reply is refused, and changes nothing.
fn refuses(coeffs: &[f64], replies: &[u8], roots: &[Listed]) {
    ended(coeffs, replies, 4, roots);
}

#[test]
fn entries() {
    let circle = [1.0, 0.0, 1.0];
    asks(&circle, &[], -0.0);
    for yes in [1, 2, 255] {
        lists(&circle, &[yes], &[(-0.0, 2, Brush)]);
        refuses(&circle, &[yes, 0], &[(-0.0, 2, Brush)]);
        refuses(&circle, &[yes, 1, 0, 1, 1, 0, 1], &[(-0.0, 2, Brush)]);
    }
    lists(&circle, &[0], &[]);
    refuses(&circle, &[0, 1], &[]);
    asks(&[2.0, 0.0, 0.0, 0.0, -2.0], &[], 0.0);
    lists(&[-6.0, 2.0], &[], &[(3.0, 1, Crossing)]);
    refuses(&[-6.0, 2.0], &[1], &[(3.0, 1, Crossing)]);
}

/// By the port and by the host: how a root is formed says its kind.
#[test]
fn kinds() {
    let formed = |coeffs: &[f64], replies: &[u8], roots: &[Listed]| {
        lists(coeffs, replies, roots);
        for sine in Sine::BOTH {
            let next = Cell::new(0);
            let in_turn = |_| replies[next.replace(next.get() + 1)] != 0;
            let list = touching::list(sine, coeffs, TOL, &in_turn).into_iter().map(Root::by);
            let list = Answer::new(0, &list.collect::<Vec<_>>());
            assert!(list.same_roots(&answer(roots)), "{coeffs:?}, {replies:?}: {}", list.text());
        }
    };
    // a pair alone
    formed(&[1.0, 0.0, 1.0], &[1], &[(-0.0, 2, Brush)]);
    formed(&[1.0, 0.0, 1.0], &[0], &[]);
    // two simple roots
    formed(&[2.0, -3.0, 1.0], &[0], &[(1.0, 1, Crossing), (2.0, 1, Crossing)]);
    formed(&[2.0, -3.0, 1.0], &[1], &[(1.5, 2, Brush)]);
    // in the band, and two such ones
    formed(&[1.0, -2.0, 1.0], &[], &[(1.0, 2, Flat)]);
    let twice = [1.0, 0.0, -2.0, 0.0, 1.0];
    formed(&twice, &[0], &[(-1.0, 2, Flat), (1.0, 2, Flat)]);
    formed(&twice, &[1], &[(0.0, 4, Brush)]);
    // the root 0 twice, alone and between simple roots
    formed(&[0.0, 0.0, 1.0], &[], &[(0.0, 2, Flat)]);
    let zeros = [0.0, 0.0, -3.0, -2.0, 1.0];
    let first = (-1.0, 1, Crossing);
    formed(&zeros, &[0], &[first, (0.0, 2, Flat), (3.0, 1, Crossing)]);
    formed(&zeros, &[1], &[first, (1.5, 3, Brush)]);
    // a pair before a simple root
    let before = [-20.0, 9.0, -6.0, 1.0];
    formed(&before, &[0], &[(5.0, 1, Crossing)]);
    let almost_one = f64::from_bits(0x3FEF_FFFF_FFFE_32D6);
    formed(&before, &[1, 0], &[(almost_one, 2, Brush), (5.0, 1, Crossing)]);
    formed(&before, &[1, 1], &[(0.5 * (almost_one + 5.0), 3, Brush)]);
}

#[test]
fn refused_starts() {
    let infinite = f64::INFINITY;
    for (replies, sine) in Sine::BOTH
        .into_iter()
        .flat_map(|sine| [&[][..], &[0], &[1, 1]].map(|replies| (replies, sine)))
    {
        let refused = |coeffs: &[f64]| inquire(sine, coeffs, TOL, replies).err();
        assert_eq!(refused(&[]), Some(2));
        assert_eq!(refused(&[7.0, 0.0]), Some(2));
        assert_eq!(refused(&[f64::NAN]), Some(1));
        assert_eq!(refused(&[0.0, 0.0, 0.0, 0.0, 0.0, infinite]), Some(1));
        assert_eq!(refused(&[0.0, 0.0, 0.0, 0.0, 0.0, 1.0]), Some(3));
    }
}

fn made_lists(seed: u64) {
    for sine in Sine::BOTH {
        let outcome = made(sine, seed, 1_000_000);
        say(&format!("inquiries, seed {seed}: {}", outcome.text()));
        assert!(outcome.wrong == 0, "{}", outcome.shown.join("\n"));
        outcome.met.ask("inquiries");
        outcome.ask_kinds();
    }
}

#[test]
fn made_lists_first() {
    made_lists(711);
}

#[test]
fn made_lists_second() {
    made_lists(712);
}

#[test]
fn long() {
    for sine in Sine::BOTH {
        for outcome in [each(sine, &long_lists(), TOL), made_long(sine, 714, 200_000)] {
            say(&format!("long lists: {}", outcome.text()));
            assert!(outcome.wrong == 0, "{}", outcome.shown.join("\n"));
        }
    }
}

#[test]
fn every_sequence_of_replies() {
    for sine in Sine::BOTH {
        let (made, ends) = every_reply(sine, 713, 100_000);
        let counts = ends.iter().zip(2..).map(|(n, ends)| format!("{n} with {ends}"));
        let counts = counts.collect::<Vec<_>>().join(", ");
        let mode = sine.words();
        say(&format!("every sequence of replies, seed 713, {mode}: {made} lists made, {counts}"));
        assert!(ends.iter().sum::<u64>() == 100_000 && ends[0] * ends[6] > 0, "{ends:?}");
    }
}

/// On a refused start every byte of the lent buffer is as it was; on an answer, every byte behind
/// it.
#[test]
fn buffers() {
    let before: Vec<u8> = (0..150).map(|i| i as u8 ^ 0x5A).collect();
    let check = |coeffs: &[u8], replies: &[u8], room: usize, wanted: u64| {
        let mut out = before.clone();
        for sine in Sine::BOTH {
            out.copy_from_slice(&before);
            let said = inquire_bytes(sine, coeffs, TOL, replies, &mut out[..room]);
            assert_eq!(said, wanted, "{coeffs:?} into {room} bytes");
            let stored = if said < 24 { 0 } else { said as usize };
            assert_eq!(out[stored..], before[stored..], "{coeffs:?} into {room} bytes");
        }
    };
    let circle = port::bytes(&[1.0, 0.0, 1.0]);
    for room in 0..=150 {
        let whole = if room < 136 { 0 } else { 136 };
        for replies in [&[][..], &[0], &[1], &[1, 0], &[0; 300]] {
            check(&circle, replies, room, whole);
            check(&port::bytes(&[1.0, f64::NAN]), replies, room, 1);
            check(&[], replies, room, 2);
            check(&port::bytes(&[1.0; 33]), replies, room, 3);
            check(&circle[..23], replies, room, 20);
        }
    }
}
