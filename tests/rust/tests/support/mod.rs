//! What the tests share: random numbers, records and messages as bytes, keys, and states to begin with. Messages are
//! laid out here once more, byte by byte, so that the library's writer is compared with something.
#![allow(dead_code)]

pub use reference::drive::FRAME;
pub use reference::message::{ACKNOWLEDGEMENT_LENGTH as ACKNOWLEDGEMENT, EVENT_LENGTH as EVENT, SHARE_LENGTH as SHARE};

use reference::controller::Controller;
use reference::flow::{Action, Entry, Rule};
use reference::playbook::{self, Playbook};
use reference::switch::Switch;
use reference::tag::tag;

/// Random numbers that are the same in every run (xorshift).
pub struct Random(u64);

impl Random {
    pub fn new(seed: u64) -> Random {
        Random(seed.wrapping_mul(0x9E37_79B9_7F4A_7C15) | 1)
    }

    pub fn next(&mut self) -> u64 {
        self.0 ^= self.0 << 13;
        self.0 ^= self.0 >> 7;
        self.0 ^= self.0 << 17;
        self.0.wrapping_mul(0x2545_F491_4F6C_DD1D) >> 16
    }

    pub fn below(&mut self, bound: u64) -> u64 {
        self.next() % bound
    }

    pub fn byte(&mut self) -> u8 {
        self.next() as u8
    }

    pub fn chance(&mut self, one_in: u64) -> bool {
        self.below(one_in) == 0
    }

    pub fn bytes(&mut self, length: usize) -> Vec<u8> {
        (0..length).map(|_| self.byte()).collect()
    }

    pub fn pick<'a, T>(&mut self, values: &'a [T]) -> &'a T {
        &values[self.below(values.len() as u64) as usize]
    }
}

pub fn hex(text: &str) -> Vec<u8> {
    let digits: Vec<u8> = text.bytes().filter(|byte| !byte.is_ascii_whitespace()).collect();
    digits.chunks(2).map(|pair| u8::from_str_radix(std::str::from_utf8(pair).unwrap(), 16).unwrap()).collect()
}

/// The key of a controller and a switch, as rehearsals have it.
pub fn key(controller: u8, switch: u8) -> [u8; 32] {
    let mut key = [0; 32];
    (key[0], key[1]) = (controller, switch);
    key
}

pub fn switch_keys(switch: u8, n: u8) -> Vec<u8> {
    (0..n).flat_map(|controller| key(controller, switch)).collect()
}

pub fn controller_keys(controller: u8) -> Vec<u8> {
    (0..16).flat_map(|switch| key(controller, switch)).collect()
}

pub fn set(prefix: u32, length: u8, port: u16) -> Rule {
    Rule { prefix, length, action: Action::Set(port) }
}

pub fn remove(prefix: u32, length: u8) -> Rule {
    Rule { prefix, length, action: Action::Remove }
}

pub fn entry(prefix: u32, length: u8, port: u16) -> Entry {
    Entry { prefix, length, port }
}

fn tagged(key: &[u8], mut bytes: Vec<u8>) -> Vec<u8> {
    let tag = tag(key, &bytes);
    bytes.extend(tag);
    bytes
}

fn put_rule(bytes: &mut Vec<u8>, rule: &Rule) {
    bytes.extend(rule.prefix.to_be_bytes());
    bytes.push(rule.length);
    bytes.extend(match rule.action {
        Action::Remove => [0, 0],
        Action::Set(port) => port.to_be_bytes(),
    });
}

pub fn share_with(key: &[u8], controller: u8, switch: u8, number: u32, rule: Rule) -> Vec<u8> {
    let mut bytes = vec![0x02, controller, switch];
    bytes.extend(number.to_be_bytes());
    put_rule(&mut bytes, &rule);
    tagged(key, bytes)
}

/// A share with the pair's good tag.
pub fn share(controller: u8, switch: u8, number: u32, rule: Rule) -> Vec<u8> {
    share_with(&key(controller, switch), controller, switch, number, rule)
}

pub fn event(switch: u8, controller: u8, serial: u32, cause: u8) -> Vec<u8> {
    let mut bytes = vec![0x01, switch, controller];
    bytes.extend(serial.to_be_bytes());
    bytes.push(cause);
    tagged(&key(controller, switch), bytes)
}

pub fn acknowledgement(switch: u8, controller: u8, number: u32) -> Vec<u8> {
    let mut bytes = vec![0x03, switch, controller];
    bytes.extend(number.to_be_bytes());
    tagged(&key(controller, switch), bytes)
}

/// Playbook records.
pub fn plan(switch: u8, cause: u8) -> Vec<u8> {
    vec![0x11, switch, cause]
}

pub fn change(flow: u8, switch: u8, rule: Rule) -> Vec<u8> {
    let mut bytes = vec![0x12, flow, switch];
    put_rule(&mut bytes, &rule);
    bytes
}

/// A plan: its trigger, and its changes with flow, switch and rule.
pub type Planned = (u8, u8, Vec<(u8, u8, Rule)>);

/// A playbook of plans.
pub fn book_bytes(plans: &[Planned]) -> Vec<u8> {
    let mut bytes = Vec::new();
    for (switch, cause, changes) in plans {
        bytes.extend(plan(*switch, *cause));
        for (flow, switch, rule) in changes {
            bytes.extend(change(*flow, *switch, *rule));
        }
    }
    bytes.push(0x13);
    bytes
}

pub fn book(plans: &[Planned]) -> Playbook {
    let (answer, book) = playbook::read(&book_bytes(plans));
    assert_eq!(answer, 0);
    book
}

/// The playbook of document 01's example.
pub fn example_book() -> Playbook {
    book(&[(5, 1, vec![(0, 2, set(0x0A00_0000, 8, 3)), (0, 5, set(0x0A00_0000, 8, 2))])])
}

pub fn switch(id: u8, n: u8) -> Switch {
    let (answer, switch) = Switch::setup(id, n);
    assert_eq!(answer, 0);
    switch
}

pub fn controller(id: u8, n: u8, book: &Playbook) -> Controller {
    let (answer, controller) = Controller::setup(id, n, book.clone());
    assert_eq!(answer, 0);
    controller
}

/// A switch with so many entries, 24 bits long, of ports from 1.
pub fn filled_switch(id: u8, n: u8, entries: usize) -> Switch {
    let mut switch = switch(id, n);
    switch.table.count = entries;
    for place in 0..entries {
        switch.table.entries[place] = entry((place as u32) << 8, 24, place as u16 + 1);
    }
    assert!(switch.obeys_limits());
    switch
}

/// Hands a switch bytes with its good key store; a refusal must leave the state as it was.
pub fn receive(switch: &mut Switch, bytes: &[u8]) -> u8 {
    receive_with(switch, &switch_keys(switch.id, switch.n), bytes)
}

pub fn receive_with(switch: &mut Switch, keys: &[u8], bytes: &[u8]) -> u8 {
    let before = switch.clone();
    let answer = switch.receive(keys, bytes);
    if answer >= 2 {
        assert_eq!(*switch, before, "a refusal or repeat altered the state");
    }
    answer
}

/// The same at a controller; the second value tells whether an event was offered.
pub fn hear(controller: &mut Controller, bytes: &[u8]) -> (u8, bool) {
    hear_with(controller, &controller_keys(controller.id), bytes)
}

pub fn hear_with(controller: &mut Controller, keys: &[u8], bytes: &[u8]) -> (u8, bool) {
    let before = controller.clone();
    let (answer, offered) = controller.receive(keys, bytes);
    if answer >= 2 || offered.is_some() {
        assert!(*controller == before, "a refusal, a repeat or an offer altered the state");
    }
    assert!(offered.is_none() || answer == 0);
    (answer, offered.is_some())
}

pub fn decide(controller: &mut Controller, switch: u8, serial: u32, cause: u8) -> u8 {
    let before = controller.clone();
    let answer = controller.decide(switch, serial, cause);
    if answer != 0 {
        assert!(*controller == before, "a refusal altered the state");
    }
    answer
}

/// Writes into a frame of bytes 0xEE; outside the message, and on a refusal everywhere, they must stay.
pub fn written(length: usize, at: usize, message: usize, write: impl Fn(&mut [u8], usize) -> u8) -> (u8, Vec<u8>) {
    let mut frame = vec![0xEE; length];
    let answer = write(&mut frame, at);
    let kept = if answer == 0 { frame[..at].iter().chain(&frame[at + message..]) } else { frame.iter().chain(&[]) };
    assert!(kept.into_iter().all(|byte| *byte == 0xEE), "a byte outside the message changed");
    let message = if answer == 0 { frame[at..at + message].to_vec() } else { Vec::new() };
    (answer, message)
}

/// A controller's current share for a switch, with its good key store.
pub fn make_share(controller: &Controller, switch: u8) -> (u8, Vec<u8>) {
    let keys = controller_keys(controller.id);
    written(FRAME, 7, SHARE, |frame, at| controller.write_share(&keys, switch, frame, at))
}

/// A switch's current acknowledgement for a controller.
pub fn make_acknowledgement(switch: &Switch, to: u8) -> (u8, Vec<u8>) {
    let keys = switch_keys(switch.id, switch.n);
    written(FRAME, 3, ACKNOWLEDGEMENT, |frame, at| switch.write_acknowledgement(&keys, to, frame, at))
}

/// A switch's current event for a controller.
pub fn make_event(switch: &Switch, to: u8) -> (u8, Vec<u8>) {
    let keys = switch_keys(switch.id, switch.n);
    written(FRAME, 16, EVENT, |frame, at| switch.write_event(&keys, to, frame, at))
}
