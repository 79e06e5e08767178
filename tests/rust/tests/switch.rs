//! The switch end: each question at each call that can answer it, in order; question 20 on damaged states; frames.

mod support;

use reference::flow::Rule;
use reference::switch::{Looked, Raised, Slot, Switch};
use support::*;

const ROUTE: Rule = Rule { prefix: 0x0A00_0000, length: 8, action: reference::flow::Action::Set(3) };

#[test]
fn setups() {
    for (id, n) in [(0, 1), (15, 1), (0, 16), (15, 16), (3, 4)] {
        let (answer, state) = Switch::setup(id, n);
        assert_eq!((answer, state.id, state.n, state.last), (0, id, n, 0));
        assert_eq!(state, Switch { id, n, ..Switch::ZERO });
        assert!(state.obeys_limits());
    }
    for (id, n) in [(16, 4), (255, 4), (0, 0), (0, 17), (0, 255)] {
        assert_eq!(Switch::setup(id, n), (20, Switch::ZERO));
    }
    assert!(!Switch::ZERO.obeys_limits());
}

/// States that question 20 refuses, each a good one with one fault.
fn damaged() -> Vec<Switch> {
    let good = held_switch();
    let spoils: Vec<fn(&mut Switch)> = vec![
        |state| state.id = 16,
        |state| state.n = 0,
        |state| state.n = 17,
        |state| state.n = 2,
        |state| state.last = 9,
        |state| state.last = u32::MAX,
        |state| state.slots[0].rule = ROUTE,
        |state| state.slots[0].rule = set(0, 0, 0),
        |state| state.slots[0].number = 3,
        |state| state.slots[4].number = 50,
        |state| state.slots[15].rule = set(0, 0, 0),
        |state| state.slots[15].rule = remove(1, 0),
        |state| state.table.count = 4,
        |state| state.table.count = 6,
        |state| state.table.count = 200,
        |state| state.table.count = usize::MAX,
        |state| state.table.entries[0].port = 0,
        |state| state.table.entries[0].length = 200,
        |state| state.table.entries[40].port = 1,
        |state| state.table.entries.swap(0, 1),
    ];
    let spoilt = spoils.into_iter().map(|spoil| {
        let mut state = good.clone();
        spoil(&mut state);
        state
    });
    spoilt.collect()
}

/// A switch of four controllers with 5 entries, last applied number 3 and shares held from controllers 1 to 3.
fn held_switch() -> Switch {
    let mut state = filled_switch(2, 4, 5);
    state.last = 3;
    state.slots[1] = Slot { number: 9, rule: ROUTE };
    state.slots[2] = Slot { number: 4, rule: set(1, 0, 0) };
    state.slots[3] = Slot { number: u32::MAX, rule: Rule::ZERO };
    state.raised = Raised { serial: 0, cause: 9 };
    assert!(state.obeys_limits(), "a held rule need not be well formed, nor a cause beside serial 0 be zero");
    state
}

#[test]
fn damaged_states_are_refused_everywhere() {
    for state in damaged() {
        let keys = switch_keys(state.id, state.n);
        let mut state = state;
        assert_eq!(receive_with(&mut state, &keys, &share(0, 2, 9, ROUTE)), 20);
        assert_eq!(receive_with(&mut state, &[], &[]), 20);
        let before = state.clone();
        assert_eq!(state.raise(1), 20);
        assert_eq!(state, before);
        assert_eq!(state.lookup(0), Looked::Refused(20));
        assert_eq!(written(FRAME, 0, EVENT, |frame, at| state.write_event(&keys, 0, frame, at)).0, 20);
        assert_eq!(written(0, 9, EVENT, |frame, at| state.write_event(&[], 99, frame, at)).0, 20);
        assert_eq!(
            written(FRAME, 0, ACKNOWLEDGEMENT, |frame, at| state.write_acknowledgement(&keys, 0, frame, at)).0,
            20
        );
        state.table.lookup(7);
        assert_eq!(state, before);
    }
}

#[test]
fn key_stores_of_another_length() {
    let mut state = held_switch();
    let good = share(0, 2, 9, ROUTE);
    for length in [0, 32, 127, 129, 160, 512] {
        let keys = vec![0; length];
        assert_eq!(receive_with(&mut state, &keys, &good), 21);
        assert_eq!(receive_with(&mut state, &keys, &[]), 21, "before the length is asked");
        assert_eq!(written(FRAME, 0, EVENT, |frame, at| state.write_event(&keys, 0, frame, at)).0, 21);
        assert_eq!(
            written(FRAME, 0, ACKNOWLEDGEMENT, |frame, at| state.write_acknowledgement(&keys, 0, frame, at)).0,
            21
        );
        assert_eq!(written(1, 9, ACKNOWLEDGEMENT, |frame, at| state.write_acknowledgement(&keys, 9, frame, at)).0, 21);
    }
    assert_eq!(receive(&mut state, &good), 1);
}

#[test]
fn received_bytes_that_are_no_share_for_here() {
    let mut state = held_switch();
    for length in (0..2 * SHARE).filter(|length| *length != SHARE) {
        assert_eq!(receive(&mut state, &vec![2; length]), 10);
    }
    assert_eq!(receive(&mut state, &event(2, 0, 1, 1)), 10, "another length");
    assert_eq!(receive(&mut state, &acknowledgement(2, 0, 1)), 10, "23 bytes");
    for kind in (0..=255).filter(|kind| *kind != 2) {
        let mut bytes = vec![99; SHARE];
        bytes[0] = kind;
        assert_eq!(receive(&mut state, &bytes), 11);
    }
    assert_eq!(receive(&mut state, &share(4, 2, 9, ROUTE)), 12, "a controller below 16, not below n");
    assert_eq!(receive(&mut state, &share(255, 99, 9, ROUTE)), 12);
    assert_eq!(receive(&mut state, &share(0, 3, 9, ROUTE)), 13);
    assert_eq!(receive(&mut state, &share(0, 200, 9, ROUTE)), 13, "a receiver out of range");
    assert_eq!(receive(&mut state, &share_with(&key(1, 2), 0, 2, 9, ROUTE)), 14, "another controller's key");
    assert_eq!(receive(&mut state, &share_with(&key(0, 2), 0, 2, 9, set(1, 0, 1))), 15);
}

#[test]
fn every_byte_of_a_share_is_tagged() {
    let good = share(0, 2, 9, ROUTE);
    for place in 3..SHARE {
        let mut bytes = good.clone();
        bytes[place] ^= 0x40;
        assert_eq!(receive(&mut held_switch(), &bytes), 14, "byte {place}");
    }
    assert_eq!(receive(&mut held_switch(), &good), 1);
}

#[test]
fn questions_of_a_share_in_order() {
    let bad = set(1, 0, 1);
    let mut state = held_switch();
    assert_eq!(receive(&mut state, &share(1, 2, 3, bad)), 15);
    assert_eq!(receive(&mut state, &share(1, 2, 0, ROUTE)), 16);
    assert_eq!(receive(&mut state, &share(1, 2, 3, ROUTE)), 16);
    assert_eq!(receive(&mut state, &share(1, 2, 4, ROUTE)), 17);
    assert_eq!(receive(&mut state, &share(1, 2, 8, ROUTE)), 17);
    assert_eq!(receive(&mut state, &share(1, 2, 9, set(0x0A00_0000, 8, 4))), 18);
    assert_eq!(receive(&mut state, &share(1, 2, 9, set(0x0A00_0000, 9, 3))), 18);
    assert_eq!(receive(&mut state, &share(1, 2, 9, remove(0x0A00_0000, 8))), 18);
    assert_eq!(receive(&mut state, &share(1, 2, 9, ROUTE)), 2);
    assert_eq!(receive(&mut state, &share(0, 2, 4, ROUTE)), 0, "the sender's own slot alone is compared");
}

/// 19 is asked of every share, also where a repeat would follow; 18 comes before it.
#[test]
fn room_is_asked_of_repeats_too() {
    let mut state = filled_switch(2, 4, 63);
    let (mine, other) = (set(0x0B00_0000, 8, 1), set(0x0A00_0000, 8, 1));
    assert_eq!(receive(&mut state, &share(0, 2, 5, mine)), 0);
    assert_eq!(receive(&mut state, &share(1, 2, 4, other)), 0);
    assert_eq!(receive(&mut state, &share(2, 2, 4, other)), 1);
    assert_eq!((state.table.count, state.slots[0].number), (64, 5));
    assert_eq!(receive(&mut state, &share(0, 2, 5, mine)), 19);
    assert_eq!(receive(&mut state, &share(0, 2, 5, set(0x0B00_0000, 8, 2))), 18);
    assert_eq!(receive(&mut state, &share(0, 2, 6, set(0x0B00_0000, 8, 2))), 19);
    assert_eq!(receive(&mut state, &share(0, 2, 6, set(0x0A00_0000, 8, 2))), 0);
    assert_eq!(receive(&mut state, &share(1, 2, 6, remove(0x0C00_0000, 8))), 0);
}

#[test]
fn applying_empties_lower_and_equal_slots() {
    let mut state = held_switch();
    assert_eq!(receive(&mut state, &share(0, 2, 9, ROUTE)), 1);
    assert_eq!(state.last, 9);
    assert_eq!(state.slots[..3], [Slot::EMPTY; 3], "4 and 9");
    assert_eq!(state.slots[3].number, u32::MAX);
    assert_eq!(state.table.count, 6);
    assert!(state.obeys_limits());
    assert_eq!(receive(&mut state, &share(2, 2, 9, ROUTE)), 16);
}

/// A quorum that lies in the slots is not looked for: a repeat answers 2, a new agreeing share 1.
#[test]
fn a_quorum_already_held() {
    let mut state = switch(2, 7);
    for slot in &mut state.slots[..3] {
        *slot = Slot { number: 4, rule: ROUTE };
    }
    assert_eq!(receive(&mut state, &share(1, 2, 4, ROUTE)), 2);
    assert_eq!(receive(&mut state, &share(5, 2, 4, ROUTE)), 1);
    assert_eq!(state.slots, [Slot::EMPTY; 16]);
}

#[test]
fn sixteen_controllers() {
    let mut state = switch(15, 16);
    for sender in 0..5 {
        assert_eq!(receive(&mut state, &share(sender * 3, 15, u32::MAX, ROUTE)), 0);
    }
    assert_eq!(receive(&mut state, &share(15, 15, u32::MAX, ROUTE)), 1);
    assert_eq!(receive(&mut state, &share(1, 15, u32::MAX, ROUTE)), 16);
}

#[test]
fn raising() {
    let mut state = held_switch();
    assert_eq!(make_event(&state, 0).0, 26, "none raised");
    for (serial, cause) in [(1, 7), (2, 0), (3, 255)] {
        assert_eq!(state.raise(cause), 0);
        assert_eq!(state.raised, Raised { serial, cause });
        assert_eq!(make_event(&state, 3), (0, event(2, 3, serial, cause)));
    }
    state.raised.serial = u32::MAX - 1;
    assert_eq!(state.raise(4), 0);
    assert_eq!(make_event(&state, 1), (0, event(2, 1, u32::MAX, 4)));
    let before = state.clone();
    assert_eq!(state.raise(5), 27);
    assert_eq!(state.raised.raise(5), 27);
    assert_eq!(state, before);
}

#[test]
fn raising_in_place_asks_no_limits() {
    let mut state = Switch::ZERO;
    assert_eq!(state.raised.raise(5), 0);
    assert_eq!(state, Switch { raised: Raised { serial: 1, cause: 5 }, ..Switch::ZERO });
}

#[test]
fn writing_asks_the_receiver_then_the_frame() {
    let state = held_switch();
    let keys = switch_keys(2, 4);
    for to in [4, 15, 16, 255] {
        assert_eq!(written(0, 1, EVENT, |frame, at| state.write_event(&keys, to, frame, at)).0, 12);
        assert_eq!(written(0, 1, ACKNOWLEDGEMENT, |frame, at| state.write_acknowledgement(&keys, to, frame, at)).0, 12);
    }
    let (last, top) = (FRAME - EVENT, usize::MAX);
    let short = [(0, 0), (EVENT - 1, 0), (EVENT, 1), (0, top - EVENT + 1)];
    let beyond = [last + 1, FRAME, FRAME + 1, top].map(|at| (FRAME, at));
    for (length, at) in short.into_iter().chain(beyond) {
        assert_eq!(written(length, at, EVENT, |frame, at| state.write_event(&keys, 0, frame, at)).0, 25, "before 26");
    }
    let last = FRAME - ACKNOWLEDGEMENT;
    let short = [(0, 0), (ACKNOWLEDGEMENT - 1, 0), (ACKNOWLEDGEMENT, 1)];
    let beyond = [last + 1, top, top - ACKNOWLEDGEMENT + 1].map(|at| (FRAME, at));
    for (length, at) in short.into_iter().chain(beyond) {
        assert_eq!(
            written(length, at, ACKNOWLEDGEMENT, |frame, at| state.write_acknowledgement(&keys, 0, frame, at)).0,
            25
        );
    }
    for (length, at) in [(ACKNOWLEDGEMENT, 0), (FRAME, last), (FRAME, 0)] {
        let made = written(length, at, ACKNOWLEDGEMENT, |frame, at| state.write_acknowledgement(&keys, 3, frame, at));
        assert_eq!(made, (0, acknowledgement(2, 3, 3)));
    }
    assert_eq!(written(EVENT, 0, EVENT, |frame, at| state.write_event(&keys, 0, frame, at)).0, 26);
}

#[test]
fn acknowledging_nothing() {
    assert_eq!(make_acknowledgement(&switch(7, 1), 0), (0, acknowledgement(7, 0, 0)));
}

#[test]
fn looking_up() {
    let state = held_switch();
    assert_eq!(state.lookup(0x0000_0203), Looked::Port(3));
    assert_eq!(state.lookup(0x0100_0000), Looked::Nothing);
}
