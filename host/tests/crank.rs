//! Crank equations by the port against the reference build's `solve_trig` up to its list of r.
#![cfg(geomcore)]
use host::compare::answer::Answer;
use host::compare::say;
use host::port::inquiries::{crank_inquire, crank_inquire_bytes};
use host::runs::cranks::made;
use host::truth::angle::Sine;
use host::truth::kind::Root;

const TOL: f64 = 1.0 / (1u64 << 30) as f64;

/// Every question replied no, by feeding one reply after another: k and the list.
fn answers(terms: [f64; 5], k: u64, roots: &[Root]) {
    for sine in Sine::BOTH {
        let mut replies = Vec::new();
        let shown = loop {
            let shown = crank_inquire(sine, TOL, terms, &replies).unwrap();
            assert!(shown.k == k && replies.len() < 4, "{terms:?}: k {}", shown.k);
            if shown.place.is_none() {
                break shown;
            }
            replies.push(0);
        };
        assert!(shown.list.same_roots(&Answer::new(0, roots)), "{terms:?}: {}", shown.list.text());
    }
}

#[test]
fn entries() {
    answers([0.0, 0.0, 1.0, 0.0, 0.0], 4, &[Root::new(-1.0, 1), Root::new(1.0, 1)]);
    // e alone; on equal sizes the last sample wins
    answers([0.0, 0.0, 0.0, 0.0, 1.0], 7, &[]);
    answers([0.0, 0.0, 0.0, 0.0, -1.0], 7, &[]);
    for sine in Sine::BOTH {
        let shown = crank_inquire(sine, TOL, [1.0, 0.0, 0.0, 0.0, 0.0], &[]).unwrap();
        assert_eq!(shown.k, 6, "cos 2t alone");
    }
}

#[test]
fn refused_starts() {
    for replies in [&[][..], &[0], &[1, 1]] {
        let refused = |terms| {
            let both = Sine::BOTH.map(|sine| crank_inquire(sine, TOL, terms, replies).err());
            assert_eq!(both[0], both[1]);
            both[0]
        };
        for at in 0..5 {
            for x in [f64::NAN, f64::INFINITY, f64::NEG_INFINITY] {
                let mut terms = [1.0; 5];
                terms[at] = x;
                assert_eq!(refused(terms), Some(1));
            }
        }
        assert_eq!(refused([f64::MAX, 0.0, 0.0, 0.0, f64::MAX]), Some(5));
        assert_eq!(refused([0.0; 5]), Some(2));
        assert_eq!(refused([-0.0; 5]), Some(2));
    }
}

fn made_cranks(seed: u64) {
    for sine in Sine::BOTH {
        let outcome = made(sine, seed, 1_000_000);
        say(&format!("cranks, seed {seed}: {}", outcome.text()));
        assert!(outcome.wrong == 0, "{}", outcome.shown.join("\n"));
        outcome.met.ask("cranks");
        outcome.ask_kinds();
    }
}

#[test]
fn made_cranks_first() {
    made_cranks(721);
}

#[test]
fn made_cranks_second() {
    made_cranks(722);
}

/// On a refused start every byte of the lent buffer is as it was; on an answer, every byte behind
/// it.
#[test]
fn buffers() {
    let before: Vec<u8> = (0..160).map(|i| i as u8 ^ 0x5A).collect();
    for room in 0..=160 {
        let whole = if room < 144 { 0 } else { 144 };
        let cosine = ([0.0, 0.0, 1.0, 0.0, 0.0], whole);
        for (terms, wanted) in [cosine, ([f64::NAN; 5], 1), ([0.0; 5], 2), ([f64::MAX; 5], 5)] {
            for replies in [&[][..], &[0], &[1], &[1, 0]] {
                for sine in Sine::BOTH {
                    let mut out = before.clone();
                    let said = crank_inquire_bytes(sine, TOL, terms, replies, &mut out[..room]);
                    assert_eq!(said, wanted, "{terms:?} into {room} bytes");
                    let stored = if said < 8 { 0 } else { said as usize };
                    assert_eq!(out[stored..], before[stored..], "{terms:?} into {room} bytes");
                }
            }
        }
    }
}
