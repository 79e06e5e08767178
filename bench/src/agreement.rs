//! Before anything is timed: the sides give the same results.

use crate::inputs;
use crate::openssl::Openssl;
use crate::rattle::Rattle;
use crate::rust::Rust;
use crate::sides::{Place, Side};
use reference::drive;
use reference::tag;

/// Stops the program where two sides differ.
pub fn check(with: Option<&Openssl>, without: Option<&Openssl>) {
    hashes(with.into_iter().chain(without));
    frames();
    flow_mods();
    rehearsals();
    println!("The sides agree: hashes and HMACs of 0 to 300 bytes, written frames, FLOW_MODs, rehearsals; the sums of");
    println!("every row below are compared in each round.");
    println!();
}

fn hashes<'a>(libraries: impl Iterator<Item = &'a Openssl>) {
    let libraries: Vec<_> = libraries.collect();
    for length in 0..=300 {
        let bytes = inputs::noise(length as u64, length);
        let key = inputs::noise(1, length % 65);
        assert_eq!(Rattle.sha256(&mut bytes.clone(), 3), Rust.sha256(&mut bytes.clone(), 3), "SHA-256");
        assert_eq!(Rattle.hmac(&key, &mut bytes.clone(), 3), Rust.hmac(&key, &mut bytes.clone(), 3), "HMAC");
        for library in &libraries {
            assert_eq!(library.sha256(&bytes), tag::sha256(&bytes), "SHA-256, {}", library.version);
            assert_eq!(library.hmac(&key, &bytes), tag::hmac(&key, &bytes), "HMAC, {}", library.version);
            assert_eq!(library.hmac_of_hashes(&key, &bytes), tag::hmac(&key, &bytes), "HMAC, {}", library.version);
        }
    }
}

/// What two sides leave in a frame of so many bytes, and their sums.
fn left_by(room: usize, write: impl Fn(&dyn Side, &mut [u8]) -> u64) {
    let (mut a, mut b) = (vec![drive::UNWRITTEN; room], vec![drive::UNWRITTEN; room]);
    let sums = (write(&Rattle, &mut a), write(&Rust, &mut b));
    assert_eq!(sums.0, sums.1, "the answers to writing");
    assert_eq!(a, b, "a written frame");
}

fn frames() {
    let switch = inputs::switch(4, 32);
    let controller = inputs::controller(4, inputs::playbook(512, true));
    let trigger = inputs::last_trigger(512);
    for at in [0, 7, 33, 34, 35, 41, 64, usize::MAX] {
        for receiver in [0, 3, 4, 15, 16] {
            let place = Place { receiver, at };
            left_by(drive::FRAME, |side, frame| side.written(&switch, true, place, frame, 3));
            left_by(drive::FRAME, |side, frame| side.written(&switch, false, place, frame, 3));
            left_by(drive::FRAME, |side, frame| side.share_written(&controller, trigger, 4, place, frame, 3));
        }
    }
}

/// Rules of every length, some malformed, at offsets where all, some or none of the FLOW_MODs fit.
fn flow_mods() {
    for length in 0..=33 {
        for prefix in [0, 0x0A80_0000, u32::MAX] {
            for (port, at) in [(0, 0), (0, 64), (0, 65), (1, 7), (258, 32), (65_535, 40), (65_535, usize::MAX)] {
                let rule = inputs::route(prefix, length, port);
                left_by(inputs::FLOW_MOD_FRAME, |side, frame| side.flow_mods(&rule, 0x0100_0001, frame, at, 3));
            }
        }
    }
}

fn rehearsals() {
    for n in [0, 1, 4, 16, 17] {
        let input = inputs::rehearsal(n.clamp(1, 16));
        let input = [vec![n], input[1..].to_vec()].concat();
        let (mut a, mut b) = (vec![0xee; 135_168], vec![0xee; 135_168]);
        let sums = (Rattle.rehearsed(&input, &mut a, 1), Rust.rehearsed(&input, &mut b, 1));
        assert_eq!(sums.0, sums.1, "the length of a rehearsal of {n} controllers");
        assert!(a == b, "the lines of a rehearsal of {n} controllers");
    }
}
