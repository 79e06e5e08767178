//! A lot of random bytes against every call: none may panic, refusals change nothing, and a state that obeys its limits
//! obeys them after every call.

mod support;

use reference::controller::Controller;
use reference::drive::{run, World};
use reference::message::{Kind, Message};
use reference::playbook::{self, Playbook};
use reference::rehearsal::rehearse;
use reference::switch::Switch;
use support::*;

/// Bytes that are more often near something meaningful than random ones are.
fn likely_bytes(random: &mut Random) -> Vec<u8> {
    let near = |random: &mut Random| random.below(4) as u32;
    let rule = match random.below(4) {
        0 => set(0x0A00_0000, 8, 1 + random.below(2) as u16),
        1 => remove(0x0A00_0000, 8),
        2 => set(0, 0, random.below(3) as u16),
        _ => set(random.next() as u32, random.below(34) as u8, 1),
    };
    let (controller, switch) = (random.below(5) as u8, random.below(3) as u8);
    let mut bytes = match random.below(5) {
        0 | 1 => share(controller, switch, near(random), rule),
        2 => event(switch, controller, near(random), random.below(2) as u8),
        3 => acknowledgement(switch, controller, near(random)),
        _ => {
            let length = random.below(40) as usize;
            random.bytes(length)
        }
    };
    if random.chance(6) && !bytes.is_empty() {
        let place = random.below(bytes.len() as u64) as usize;
        bytes[place] ^= 1 << random.below(8);
    }
    bytes
}

fn likely_book(random: &mut Random) -> Vec<u8> {
    let mut bytes = Vec::new();
    for _ in 0..random.below(12) {
        let switch = random.below(if bytes.len() > 40 { 17 } else { 3 }) as u8;
        if random.chance(3) || bytes.is_empty() {
            bytes.extend(plan(switch, random.below(3) as u8));
        } else {
            bytes.extend(change(
                random.below(2) as u8,
                switch,
                set(random.below(3) as u32, 32, random.below(3) as u16),
            ));
        }
    }
    if !random.chance(8) {
        bytes.push(0x13);
    }
    if random.chance(8) {
        bytes.push(random.byte());
    }
    bytes
}

#[test]
fn readers() {
    let mut random = Random::new(11);
    for _ in 0..20_000 {
        let length = random.below(64) as usize;
        let noise = random.bytes(length);
        for bytes in [noise, likely_book(&mut random), likely_bytes(&mut random)] {
            let (answer, book) = playbook::read(&bytes);
            let (first, used, stored) = playbook::read_first(&bytes);
            assert!(book.obeys_limits() && stored.obeys_limits());
            assert!(answer == 0 || book == Playbook::EMPTY);
            assert!((first == 0) == (used > 0) && used <= bytes.len());
            assert_eq!(playbook::read(&bytes[..used]).0, if first == 0 { 0 } else { 30 });
            let _ = Message::read(&bytes, &[Kind::Share, Kind::Event, Kind::Acknowledgement]);
            Message::tag_matches(&bytes, &bytes);
        }
    }
}

#[test]
fn one_switch() {
    let mut random = Random::new(12);
    let mut answers = [0; 40];
    for _ in 0..60 {
        let (id, n) = (random.below(3) as u8, 1 + random.below(5) as u8);
        let mut state = switch(id, n);
        for _ in 0..200 {
            let bytes = likely_bytes(&mut random);
            answers[receive(&mut state, &bytes) as usize] += 1;
            assert!(state.obeys_limits());
            if random.chance(20) {
                assert_eq!(state.raise(random.byte()), 0);
            }
            let (length, at, to) =
                (random.below(FRAME as u64 + 2) as usize, random.below(30) as usize, random.below(6) as u8);
            let keys = switch_keys(id, n);
            written(length, at, EVENT, |frame, at| state.write_event(&keys, to, frame, at));
            written(length, at, ACKNOWLEDGEMENT, |frame, at| state.write_acknowledgement(&keys, to, frame, at));
        }
    }
    for met in [0, 1, 2, 10, 12, 13, 14, 15, 16, 17, 18] {
        assert!(answers[met] > 0, "answer {met} was never met");
    }
}

#[test]
fn one_controller() {
    let mut random = Random::new(13);
    let mut answers = [0; 40];
    for _ in 0..200 {
        let (id, n) = (random.below(3) as u8, 3 + random.below(3) as u8);
        let book = (0..30).map(|_| playbook::read(&likely_book(&mut random)).1).find(|book| book.listed > 4);
        let mut state = controller(id, n, &book.unwrap_or_default());
        for step in 0..120 {
            if random.chance(2) {
                let switch = *random.pick(&[0, 0, 1, 1, 2, 2, 2, 15, 16]);
                let (serial, cause) = (step + random.below(3) as u32, random.below(3) as u8);
                answers[decide(&mut state, switch, serial, cause) as usize] += 1;
            } else {
                answers[hear(&mut state, &likely_bytes(&mut random)).0 as usize] += 1;
            }
            assert!(state.obeys_limits());
            for switch in 0..18 {
                let (length, at) = (random.below(FRAME as u64 + 2) as usize, random.below(30) as usize);
                let keys = controller_keys(id);
                written(length, at, SHARE, |frame, at| state.write_share(&keys, switch, frame, at));
            }
        }
    }
    for met in [0, 2, 10, 12, 13, 14, 22, 24] {
        assert!(answers[met] > 0, "answer {met} was never met");
    }
}

/// Any fields whatever, in any combination: no call panics, and 20 alone is answered where the limits are not obeyed.
#[test]
fn damaged_states() {
    let mut random = Random::new(14);
    for _ in 0..3000 {
        let mut state = filled_switch(1, 4, random.below(65) as usize);
        for _ in 0..random.below(3) {
            damage_switch(&mut random, &mut state);
        }
        let good = state.obeys_limits();
        let answer = state.clone().receive(&switch_keys(1, state.n), &likely_bytes(&mut random));
        assert_eq!(answer == 20, !good);
        assert_eq!(state.clone().raise(1) == 20, !good);
        state.table.lookup(random.next() as u32);

        let mut state = controller(1, 4, &example_book());
        state.decide(5, 1, 1);
        for _ in 0..random.below(3) {
            damage_controller(&mut random, &mut state);
        }
        let good = state.obeys_limits();
        let mut frame = [0; SHARE];
        assert_eq!(state.write_share(&controller_keys(1), 2, &mut frame, 0) == 20, !good);
        assert_eq!(state.decide(5, 2 + random.below(2) as u32, 1) == 20, !good);
        let (answer, _) = state.receive(&controller_keys(1), &likely_bytes(&mut random));
        assert_eq!(answer == 20, !good);
    }
}

fn damage_switch(random: &mut Random, state: &mut Switch) {
    let (slot, place) = (random.below(16) as usize, random.below(64) as usize);
    match random.below(10) {
        0 => state.id = random.below(20) as u8,
        1 => state.n = random.below(20) as u8,
        2 => state.last = random.next() as u32,
        3 => state.slots[slot].number = random.below(4) as u32,
        4 => state.slots[slot].rule = set(random.below(2) as u32, random.below(40) as u8, random.below(2) as u16),
        5 => state.table.count = random.below(300) as usize,
        6 => state.table.count = usize::MAX - random.below(2) as usize,
        7 => state.table.entries[place].length = random.byte(),
        8 => state.table.entries[place].prefix = random.next() as u32,
        _ => state.table.entries[place].port = random.below(2) as u16,
    }
}

fn damage_controller(random: &mut Random, state: &mut Controller) {
    let (plan, change, switch) = (random.below(64) as usize, random.below(512) as usize, random.below(16) as usize);
    match random.below(12) {
        0 => state.id = random.below(20) as u8,
        1 => state.n = random.below(20) as u8,
        2 => state.last = u32::MAX - random.below(3) as u32,
        3 => state.acknowledged[switch] = random.below(4) as u32,
        4 => state.undone.count = *random.pick(&[0, 1, 2, 3, 64, 65, 200, usize::MAX]),
        5 => state.undone.changes[plan % 4].number = random.below(4) as u32,
        6 => state.undone.changes[plan % 4].switch = random.byte(),
        7 => state.playbook.planned = *random.pick(&[0, 1, 2, 64, 65, 200, usize::MAX]),
        8 => state.playbook.listed = *random.pick(&[0, 1, 2, 3, 512, 513, usize::MAX]),
        9 => state.playbook.plans[plan].first = *random.pick(&[0, 1, 2, 512, usize::MAX]),
        10 => state.playbook.plans[plan % 2].count = *random.pick(&[0, 1, 2, 33, 512, usize::MAX]),
        _ => state.playbook.changes[change].switch = random.byte(),
    }
}

#[test]
fn rehearsals() {
    let mut random = Random::new(15);
    for _ in 0..1500 {
        let length = random.below(60) as usize;
        rehearse(&random.bytes(length));
        let mut input = vec![random.below(18) as u8];
        input.extend(likely_book(&mut random));
        for _ in 0..random.below(40) {
            let ids = [random.below(5) as u8, random.below(5) as u8];
            match random.below(6) {
                0 => input.extend([0x21, ids[0], ids[1], 0, 0, 0, random.below(5) as u8, random.below(3) as u8]),
                1 => input.extend([0x24, ids[0]].into_iter().chain(random.bytes(SHARE))),
                2 => input.extend([0x25, ids[0], ids[1], random.below(66) as u8]),
                3 => input.extend([0x26, random.below(66) as u8]),
                _ => input.extend([0x22 + random.below(2) as u8, ids[0], ids[1]]),
            }
        }
        if random.chance(4) {
            input.push(random.byte());
        }
        let printed = rehearse(&input);
        assert!(printed.is_empty() || printed.ends_with('\n'));
    }
}

#[test]
fn drives() {
    let mut random = Random::new(16);
    let letters = b"SKMRIEALTQXbfskmdwpxFZ";
    for _ in 0..60 {
        let mut world = World::new();
        for id in 0..3 {
            world.call(b'S', id, &[id, 4]);
            world.call(b'K', id, &switch_keys(id, 4));
            world.call(b'b', id, &likely_book(&mut random));
            world.call(b's', id, &[id, 4]);
            world.call(b'k', id, &controller_keys(id));
        }
        for _ in 0..300 {
            let letter = *random.pick(letters);
            let length = random.below(24) as usize;
            let body = match random.below(4) {
                0 => likely_book(&mut random),
                1 | 2 => likely_bytes(&mut random),
                _ => random.bytes(length).into_iter().map(|byte| byte % 11).collect(),
            };
            let end = if random.chance(20) { random.byte() } else { random.below(3) as u8 };
            let line = world.call(letter, end, &body);
            assert!(!line.is_empty() && !line.contains('\n'));
        }
    }
    for _ in 0..300 {
        let length = random.below(200) as usize;
        run(&random.bytes(length));
    }
}
