//! Keys, messages, playbooks and scripts to time calls with. They are the same in every run.

use crate::sides::{AtController, AtSwitch, Trigger};
use reference::flow::{Action, Rule};
use reference::message::{Message, KEY_LENGTH};
use reference::playbook::{CHANGE_KIND, END_KIND, PLAN_KIND};
use reference::rehearsal::{DECIDE, REPORT, SCRIPT, SEND};
use reference::switch::quorum;

/// The switch and the controller that are timed.
pub const SWITCH: u8 = 5;
pub const CONTROLLER: u8 = 0;

/// How many bytes a frame for a FLOW_MOD has here.
pub const FLOW_MOD_FRAME: usize = 128;

/// How many changes a plan has here.
pub const PLAN: usize = 8;

/// Bytes that look like chance.
pub fn noise(seed: u64, length: usize) -> Vec<u8> {
    let mut state = seed;
    let next = || {
        state = state.wrapping_add(0x9e37_79b9_7f4a_7c15);
        let x = (state ^ (state >> 30)).wrapping_mul(0xbf58_476d_1ce4_e5b9);
        let x = (x ^ (x >> 27)).wrapping_mul(0x94d0_49bb_1331_11eb);
        ((x ^ (x >> 31)) % 256) as u8
    };
    std::iter::repeat_with(next).take(length).collect()
}

/// The key of a controller and a switch.
fn key(controller: u8, switch: u8) -> Vec<u8> {
    noise(u64::from(controller) * 16 + u64::from(switch), KEY_LENGTH)
}

fn share(controller: u8, number: u32, rule: Rule) -> Vec<u8> {
    Message::Share { controller, switch: SWITCH, number, rule }.sealed(&key(controller, SWITCH))
}

fn acknowledgement(switch: u8, number: u32) -> Vec<u8> {
    Message::Acknowledgement { switch, controller: CONTROLLER, number }.sealed(&key(CONTROLLER, switch))
}

/// The prefix and length of one of 64 entries: in each pair the second lies under the first.
fn entry(place: usize) -> (u32, u8) {
    let high = (place as u32 / 2 * 8) << 24;
    match place % 2 {
        0 => (high, 8),
        _ => (high | 0x0010_0000, 16),
    }
}

/// A rule that leaves a table of so many entries with as many: it sets one of them, or removes what is not there.
fn keeping_rule(entries: usize, turn: usize) -> Rule {
    if entries == 0 {
        let (prefix, length) = entry(turn % 64);
        return Rule { prefix, length, action: Action::Remove };
    }
    let (prefix, length) = entry(turn * 7 % entries);
    Rule { prefix, length, action: Action::Set((turn % 60_000) as u16 + 1) }
}

/// A rule of a port, or a removal where that is 0.
pub fn route(prefix: u32, length: u8, port: u16) -> Rule {
    Rule { prefix, length, action: Action::of_port(port) }
}

/// A switch of n controllers whose table has so many entries, each set with a quorum.
pub fn switch(n: u8, entries: usize) -> AtSwitch {
    let changes = (0..entries).flat_map(|place| {
        let (prefix, length) = entry(place);
        let rule = Rule { prefix, length, action: Action::Set(place as u16 + 1) };
        (0..quorum(n) as u8).flat_map(move |controller| share(controller, place as u32 + 1, rule))
    });
    let keys = (0..n).flat_map(|controller| key(controller, SWITCH)).collect();
    AtSwitch { id: SWITCH, n, keys, filling: changes.collect() }
}

/// Shares of so many changes, each sent by a quorum: the last one of each is applied, the others are held.
pub fn quorums(n: u8, entries: usize, changes: usize) -> Vec<u8> {
    let each = |turn: usize| {
        let rule = keeping_rule(entries, turn);
        (0..quorum(n) as u8).flat_map(move |controller| share(controller, (entries + turn + 1) as u32, rule))
    };
    (0..changes).flat_map(each).collect()
}

/// Shares of so many changes, each sent by one controller: where a quorum is more than one, they are held.
pub fn singles(n: u8, entries: usize, changes: usize) -> Vec<u8> {
    let each = |turn: usize| share(turn as u8 % n, (entries + turn + 1) as u32, keeping_rule(entries, turn));
    (0..changes).flat_map(each).collect()
}

/// Acknowledgements of a switch: so many numbers, rising by a step.
pub fn acknowledgements(switch: u8, step: u32, count: u32) -> Vec<u8> {
    (1..=count).flat_map(|turn| acknowledgement(switch, turn * step)).collect()
}

/// The highest number acknowledged by every switch, so that every change is done.
pub fn all_done() -> Vec<u8> {
    (0..16).flat_map(|switch| acknowledgement(switch, u32::MAX)).collect()
}

/// The trigger of a plan: plans go round the switches.
fn trigger(plan: usize) -> Trigger {
    Trigger { switch: (plan % 16) as u8, cause: (plan / 16) as u8 }
}

/// The trigger of the last plan of a playbook with so many changes.
pub fn last_trigger(changes: usize) -> Trigger {
    trigger((changes / PLAN).saturating_sub(1))
}

/// A playbook of so many changes, eight in a plan. A plan's changes are on its trigger's switch, or all are on one; a
/// switch has at most 64 different prefixes with lengths.
pub fn playbook(changes: usize, spread: bool) -> Vec<u8> {
    let mut bytes = Vec::new();
    for plan in 0..changes / PLAN {
        let Trigger { switch, cause } = trigger(plan);
        bytes.extend([PLAN_KIND, switch, cause]);
        for place in 0..PLAN {
            let (prefix, length) = entry((plan * PLAN + place) % 64);
            bytes.extend([CHANGE_KIND, place as u8, if spread { switch } else { SWITCH }]);
            bytes.extend(prefix.to_be_bytes());
            bytes.push(length);
            bytes.extend((plan as u16 + 1).to_be_bytes());
        }
    }
    bytes.push(END_KIND);
    bytes
}

/// The place of a flow byte of a playbook, if it has changes.
pub const FLOW_BYTE: usize = 4;

/// A controller with a playbook.
pub fn controller(n: u8, book: Vec<u8>) -> AtController {
    let keys = (0..16).flat_map(|switch| key(CONTROLLER, switch)).collect();
    AtController { id: CONTROLLER, n, keys, book }
}

/// A rehearsal with a script of 8,192 bytes. Plan after plan is decided by all controllers; each of its changes is sent
/// by a quorum and reported to all. What is left of the script is cut.
pub fn rehearsal(n: u8) -> Vec<u8> {
    let mut script = Vec::new();
    let mut serial = 0u32;
    while script.len() < SCRIPT {
        let Trigger { switch, cause } = trigger(serial as usize % 64);
        serial += 1;
        for controller in 0..n {
            script.extend([DECIDE, controller, switch]);
            script.extend(serial.to_be_bytes());
            script.push(cause);
        }
        for _ in 0..PLAN {
            (0..quorum(n) as u8).for_each(|controller| script.extend([SEND, controller, switch]));
            (0..n).for_each(|controller| script.extend([REPORT, switch, controller]));
        }
    }
    script.truncate(SCRIPT);
    [vec![n], playbook(512, true), script].concat()
}
