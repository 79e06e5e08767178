//! The controller end: each question at each call that can answer it, in order; what is held, dropped and ready;
//! question 20 on damaged states; frames.

mod support;

use reference::controller::{Controller, Held, Offered, Undone};
use reference::flow::Rule;
use reference::playbook::Playbook;
use support::*;

const ROUTE: Rule = Rule { prefix: 0x0A00_0000, length: 8, action: reference::flow::Action::Set(3) };

/// Cause 0: flows 1, 2, 1 on switches 4, 4, 5. Cause 1: flow 1 on switches 6 and 7. Cause 2: none. Cause 3: 32 on 8.
fn plans() -> Playbook {
    let many = (0..32).map(|flow| (flow, 8, ROUTE)).collect();
    book(&[
        (0, 0, vec![(1, 4, ROUTE), (2, 4, remove(0, 0)), (1, 5, ROUTE)]),
        (0, 1, vec![(1, 6, ROUTE), (1, 7, ROUTE)]),
        (0, 2, vec![]),
        (0, 3, many),
    ])
}

/// Controller 2 of four, after the decisions of causes 0 and 1: changes 1 to 5 undone.
fn busy() -> Controller {
    let mut state = controller(2, 4, &plans());
    assert_eq!(decide(&mut state, 0, 10, 0), 0);
    assert_eq!(decide(&mut state, 0, 20, 1), 0);
    assert!(state.obeys_limits());
    state
}

fn numbers(state: &Controller) -> Vec<u32> {
    state.undone.used().iter().map(|change| change.number).collect()
}

#[test]
fn setups() {
    for (id, n) in [(0, 1), (15, 16), (2, 4)] {
        let (answer, state) = Controller::setup(id, n, plans());
        assert_eq!(answer, 0);
        assert!(state == Controller { id, n, playbook: plans(), ..Controller::ZERO });
        assert!(state.obeys_limits());
    }
    for (id, n) in [(1, 1), (4, 4), (16, 16), (0, 0), (0, 17), (255, 255)] {
        assert!(Controller::setup(id, n, plans()) == (20, Controller::ZERO));
    }
    assert!(!Controller::ZERO.obeys_limits());
}

/// A store that no reading gives is set up, and every later call answers 20.
#[test]
fn setup_does_not_ask_the_playbook() {
    let damaged = Playbook { planned: 70, ..plans() };
    let (answer, mut state) = Controller::setup(0, 1, damaged.clone());
    assert_eq!(answer, 0);
    assert!(state.playbook == damaged);
    assert_eq!(decide(&mut state, 0, 1, 0), 20);
}

fn damaged() -> Vec<Controller> {
    let spoils: Vec<fn(&mut Controller)> = vec![
        |state| state.id = 4,
        |state| state.id = 255,
        |state| state.n = 0,
        |state| state.n = 2,
        |state| state.n = 17,
        |state| state.last = 4,
        |state| state.acknowledged[4] = 1,
        |state| state.acknowledged[7] = 5,
        |state| state.undone.count = 4,
        |state| state.undone.count = 6,
        |state| state.undone.count = 65,
        |state| state.undone.count = 200,
        |state| state.undone.count = usize::MAX,
        |state| state.undone.changes[1].number = 1,
        |state| state.undone.changes[1].number = 3,
        |state| state.undone.changes[4].number = 6,
        |state| state.undone.changes[0].number = 0,
        |state| state.undone.changes[0].switch = 16,
        |state| state.undone.changes[0].switch = 255,
        |state| state.undone.changes[1].first = 0,
        |state| state.undone.changes[1].first = 3,
        |state| state.undone.changes[1].rule = set(1, 0, 1),
        |state| state.undone.changes[1].rule = set(0, 33, 1),
        |state| state.undone.changes[1].rule = set(0, 0, 0),
        |state| state.undone.changes[5].flow = 1,
        |state| state.undone.changes[63].rule = set(0, 0, 0),
        |state| state.undone.changes.swap(2, 3),
        |state| state.playbook.planned = 3,
        |state| state.playbook.listed = 600,
        |state| state.playbook.plans[1].first = 4,
        |state| state.playbook.changes[1].rule = set(0, 0, 0),
        |state| state.playbook.changes[500].flow = 1,
    ];
    let spoilt = spoils.into_iter().map(|spoil| {
        let mut state = busy();
        spoil(&mut state);
        state
    });
    spoilt.collect()
}

#[test]
fn damaged_states_are_refused_everywhere() {
    for (place, state) in damaged().into_iter().enumerate() {
        let mut state = state;
        let keys = controller_keys(2);
        assert_eq!(hear_with(&mut state, &keys, &acknowledgement(4, 2, 9)).0, 20, "fault {place}");
        assert_eq!(hear_with(&mut state, &keys, &event(4, 2, 9, 0)).0, 20);
        assert_eq!(hear_with(&mut state, &[], &[]).0, 20);
        assert_eq!(decide(&mut state, 0, 99, 0), 20);
        assert_eq!(decide(&mut state, 99, 0, 0), 20);
        assert_eq!(written(FRAME, 0, SHARE, |frame, at| state.write_share(&keys, 4, frame, at)).0, 20);
        assert_eq!(written(0, 5, SHARE, |frame, at| state.write_share(&[], 99, frame, at)).0, 20);
    }
}

/// What question 20 does not ask.
#[test]
fn odd_states_that_obey_their_limits() {
    let spoils: Vec<fn(&mut Controller)> = vec![
        |state| state.acknowledged = [u32::MAX, 0, 0, 9, 0, 0, 0, 0, 7, 8, 0, 0, 0, 0, 0, 99],
        |state| state.serials = [u32::MAX; 16],
        |state| state.last = u32::MAX,
        |state| state.undone.changes[1].first = 2,
        |state| state.undone.changes[0].rule = remove(0x0B00_0000, 8),
        |state| state.playbook = Playbook::EMPTY,
    ];
    for spoil in spoils {
        let mut state = busy();
        spoil(&mut state);
        assert!(state.obeys_limits());
    }
}

#[test]
fn key_stores_of_another_length() {
    let mut state = busy();
    for length in [0, 32, 128, 511, 513, 544] {
        let keys = vec![0; length];
        assert_eq!(hear_with(&mut state, &keys, &acknowledgement(4, 2, 9)).0, 21);
        assert_eq!(hear_with(&mut state, &keys, &[]).0, 21);
        assert_eq!(written(0, 0, SHARE, |frame, at| state.write_share(&keys, 99, frame, at)).0, 21);
    }
}

#[test]
fn received_bytes_that_are_nothing_for_here() {
    let mut state = busy();
    for length in (0..2 * SHARE).filter(|length| ![ACKNOWLEDGEMENT, EVENT].contains(length)) {
        assert_eq!(hear(&mut state, &vec![1; length]), (10, false));
    }
    assert_eq!(hear(&mut state, &share(2, 4, 1, ROUTE)), (10, false));
    for kind in 0..=255 {
        let mut bytes = vec![99; EVENT];
        bytes[0] = kind;
        assert_eq!(hear(&mut state, &bytes).0, if kind == 1 { 12 } else { 11 });
        bytes.pop();
        assert_eq!(hear(&mut state, &bytes).0, if kind == 3 { 12 } else { 11 });
    }
    assert_eq!(hear(&mut state, &event(16, 2, 9, 0)).0, 12);
    assert_eq!(hear(&mut state, &acknowledgement(16, 2, 9)).0, 12);
    assert_eq!(hear(&mut state, &event(4, 3, 9, 0)).0, 13);
    assert_eq!(hear(&mut state, &event(4, 200, 9, 0)).0, 13);
    assert_eq!(hear(&mut state, &acknowledgement(4, 0, 9)).0, 13);
    for good in [event(4, 2, 9, 0), acknowledgement(4, 2, 9)] {
        for place in 3..good.len() {
            let mut bytes = good.clone();
            bytes[place] ^= 1;
            assert_eq!(hear(&mut state, &bytes).0, 14, "byte {place}");
        }
    }
}

#[test]
fn events_are_offered_each_time() {
    let mut state = busy();
    let keys = controller_keys(2);
    assert_eq!(hear(&mut state, &event(0, 2, 19, 0)), (22, false));
    assert_eq!(hear(&mut state, &event(0, 2, 20, 0)), (22, false));
    for _ in 0..2 {
        let offered = Some(Offered { switch: 0, serial: 21, cause: 77 });
        assert_eq!(state.receive(&keys, &event(0, 2, 21, 77)), (0, offered));
    }
    assert_eq!(hear(&mut state, &event(9, 2, 0, 0)), (22, false), "serial 0 was never raised");
    assert_eq!(hear(&mut state, &event(9, 2, 1, 0)), (0, true));
    assert!(state == busy());
}

#[test]
fn acknowledgements_drop_what_is_done() {
    let mut state = busy();
    assert_eq!(hear(&mut state, &acknowledgement(4, 2, 1)), (0, false));
    assert_eq!(numbers(&state), [2, 3, 4, 5]);
    assert_eq!(hear(&mut state, &acknowledgement(6, 2, 3)), (0, false));
    assert_eq!(numbers(&state), [2, 3, 4, 5], "above the acknowledged number, and nothing is done by it");
    assert_eq!(hear(&mut state, &acknowledgement(6, 2, 5)), (0, false));
    assert_eq!(numbers(&state), [2, 3, 5], "change 5 is another switch's");
    assert_eq!(hear(&mut state, &acknowledgement(4, 2, u32::MAX)), (0, false));
    assert_eq!(numbers(&state), [3, 5]);
    assert_eq!(state.undone.changes[2..], Held::EMPTY.changes[2..]);
    assert_eq!(hear(&mut state, &acknowledgement(15, 2, 0)), (2, false));
    assert!(state.obeys_limits());
}

#[test]
fn questions_of_a_decision_in_order() {
    let mut state = busy();
    assert_eq!(decide(&mut state, 16, 0, 0), 12);
    assert_eq!(decide(&mut state, 0, 20, 0), 22);
    assert_eq!(decide(&mut state, 0, 0, 0), 22);
    assert_eq!(decide(&mut state, 5, 0, 0), 22, "serial 0");
    state.last = u32::MAX - 2;
    assert_eq!(decide(&mut state, 0, 20, 0), 22);
    assert_eq!(decide(&mut state, 0, 21, 0), 23);
    assert_eq!(decide(&mut state, 0, 21, 3), 23);
    assert_eq!(decide(&mut state, 0, 21, 1), 0, "exactly the last numbers");
    assert_eq!(state.last, u32::MAX);
    assert_eq!(numbers(&state), [1, 2, 3, 4, 5, u32::MAX - 1, u32::MAX]);
    assert_eq!(decide(&mut state, 0, 22, 1), 23);
    assert_eq!(decide(&mut state, 0, 22, 2), 0, "a plan without changes");
    assert_eq!(decide(&mut state, 0, u32::MAX, 200), 0, "no plan");
    assert_eq!(decide(&mut state, 0, u32::MAX, 200), 22);
    assert_eq!(state.last, u32::MAX);
}

/// 23 counts done changes too, and comes before 24.
#[test]
fn numbers_before_places() {
    let mut state = controller(0, 1, &plans());
    assert_eq!(decide(&mut state, 0, 1, 3), 0);
    assert_eq!(decide(&mut state, 0, 2, 3), 0);
    assert_eq!(decide(&mut state, 0, 3, 3), 24);
    state.last = u32::MAX - 31;
    assert_eq!(decide(&mut state, 0, 3, 3), 23);
    state.last -= 1;
    assert_eq!(decide(&mut state, 0, 3, 3), 24);
    state.acknowledged[8] = u32::MAX;
    state.undone = Held::EMPTY;
    state.last += 1;
    assert_eq!(decide(&mut state, 0, 3, 3), 23, "though all of it is done");
    state.last -= 1;
    assert_eq!(decide(&mut state, 0, 3, 3), 0);
    assert_eq!((state.last, state.undone.count), (u32::MAX, 0));
}

/// A controller that lags has acknowledged numbers above those it gave: done changes get their number and no place.
#[test]
fn changes_already_done_are_not_held() {
    let mut state = controller(2, 4, &plans());
    assert_eq!(hear(&mut state, &acknowledgement(4, 2, 1)), (0, false));
    assert_eq!(decide(&mut state, 0, 1, 0), 0);
    let second = Undone { number: 2, first: 1, flow: 2, switch: 4, rule: remove(0, 0) };
    let third = Undone { number: 3, first: 1, flow: 1, switch: 5, rule: ROUTE };
    assert_eq!(state.undone.used(), [second, third], "the first number is that of the done change");
    assert_eq!(make_share(&state, 5), (0, share(2, 5, 3, ROUTE)), "the lower one of its flow is done");
    assert_eq!(state.last, 3);
}

/// 24 counts only what would be held.
#[test]
fn done_changes_need_no_place() {
    let mut state = controller(0, 1, &plans());
    assert_eq!(decide(&mut state, 0, 1, 3), 0);
    assert_eq!(decide(&mut state, 0, 2, 3), 0);
    assert_eq!(decide(&mut state, 0, 3, 1), 24);
    state.acknowledged[6] = 65;
    assert_eq!(decide(&mut state, 0, 3, 1), 24);
    state.acknowledged[7] = 66;
    assert_eq!(decide(&mut state, 0, 3, 1), 0);
    assert_eq!((state.undone.count, state.last), (64, 66));
}

#[test]
fn what_is_ready() {
    let mut state = busy();
    let ready = |state: &Controller| -> Vec<u32> {
        (0..16).filter_map(|switch| state.undone.ready(switch)).map(|change| change.number).collect()
    };
    assert_eq!(ready(&state), [1, 4], "2 waits on its switch, 3 and 5 in their flows");
    assert_eq!(hear(&mut state, &acknowledgement(4, 2, 1)).0, 0);
    assert_eq!(ready(&state), [2, 3, 4]);
    assert_eq!(hear(&mut state, &acknowledgement(6, 2, 4)).0, 0);
    assert_eq!(ready(&state), [2, 3, 5]);
    assert_eq!(decide(&mut state, 0, 30, 0), 0);
    assert_eq!(ready(&state), [2, 3, 5], "6 to 8 wait on their switches");
    assert_eq!(hear(&mut state, &acknowledgement(5, 2, 3)).0, 0);
    assert_eq!(ready(&state), [2, 5], "8 waits for 6, of its own decision and flow");
    assert_eq!(hear(&mut state, &acknowledgement(4, 2, 6)).0, 0);
    assert_eq!(ready(&state), [7, 8, 5]);
}

/// Flow bytes bind inside one decision only.
#[test]
fn another_decision_of_the_same_plan() {
    let mut state = controller(0, 1, &book(&[(0, 0, vec![(1, 4, ROUTE)]), (0, 1, vec![(1, 5, ROUTE)])]));
    assert_eq!(decide(&mut state, 0, 1, 0), 0);
    assert_eq!(decide(&mut state, 0, 2, 1), 0);
    assert_eq!(make_share(&state, 4), (0, share(0, 4, 1, ROUTE)));
    assert_eq!(make_share(&state, 5), (0, share(0, 5, 2, ROUTE)));
}

#[test]
fn writing_asks_the_receiver_then_the_frame_then_what_is_ready() {
    let state = busy();
    let keys = controller_keys(2);
    for switch in [16, 255] {
        assert_eq!(written(0, 1, SHARE, |frame, at| state.write_share(&keys, switch, frame, at)).0, 12);
    }
    let (last, top) = (FRAME - SHARE, usize::MAX);
    let short = [(0, 0), (SHARE - 1, 0), (SHARE, 1), (0, top - SHARE + 1)];
    let beyond = [last + 1, FRAME, FRAME + 1, top].map(|at| (FRAME, at));
    for (length, at) in short.into_iter().chain(beyond) {
        for switch in [4, 9] {
            assert_eq!(written(length, at, SHARE, |frame, at| state.write_share(&keys, switch, frame, at)).0, 25);
        }
    }
    for (length, at) in [(SHARE, 0), (FRAME, last), (FRAME, 0)] {
        let made = written(length, at, SHARE, |frame, at| state.write_share(&keys, 4, frame, at));
        assert_eq!(made, (0, share(2, 4, 1, ROUTE)));
        for switch in [5, 7, 9] {
            assert_eq!(written(length, at, SHARE, |frame, at| state.write_share(&keys, switch, frame, at)).0, 26);
        }
    }
}

#[test]
fn a_removal_is_written_as_port_0() {
    let mut state = busy();
    assert_eq!(hear(&mut state, &acknowledgement(4, 2, 1)).0, 0);
    let (answer, bytes) = make_share(&state, 4);
    assert_eq!(answer, 0);
    assert_eq!(bytes[..14], [2, 2, 4, 0, 0, 0, 2, 0, 0, 0, 0, 0, 0, 0]);
}
