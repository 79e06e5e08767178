//! The Rust side: the package `reference`, called as a Rust program would, with states changed in place.

use crate::sides::{mix, AtController, AtSwitch, Place, Side, Trigger};
use reference::controller::Controller;
use reference::flow::Rule;
use reference::message::{ACKNOWLEDGEMENT_LENGTH, SHARE_LENGTH};
use reference::openflow::write_flow_mod;
use reference::switch::{Looked, Switch};
use reference::{playbook, rehearsal, tag};
use std::hint::black_box;

/// The code written from the documents alone.
pub struct Rust;

/// A number of the first bytes of a hash.
fn front(hash: &[u8; 32]) -> u32 {
    u32::from_be_bytes([hash[0], hash[1], hash[2], hash[3]])
}

/// Replaces the byte at a place, if there is one.
fn stir(bytes: &mut [u8], place: usize, x: u8) {
    if let Some(byte) = bytes.get_mut(place) {
        *byte = x;
    }
}

fn receive_shares(switch: &mut Switch, keys: &[u8], shares: &[u8], before: u64) -> u64 {
    shares.chunks_exact(SHARE_LENGTH).fold(before, |sum, share| mix(sum, switch.receive(keys, share).into()))
}

fn filled(at: &AtSwitch) -> Switch {
    let (_, mut switch) = Switch::setup(at.id, at.n);
    receive_shares(&mut switch, &at.keys, &at.filling, 0);
    switch
}

fn set_up(at: &AtController) -> Controller {
    let (_, book) = playbook::read(&at.book);
    Controller::setup(at.id, at.n, book).1
}

fn receive_acknowledgements(controller: &mut Controller, keys: &[u8], acknowledgements: &[u8], before: u64) -> u64 {
    acknowledgements
        .chunks_exact(ACKNOWLEDGEMENT_LENGTH)
        .fold(before, |sum, acknowledgement| mix(sum, controller.receive(keys, acknowledgement).0.into()))
}

fn decide_all(controller: &mut Controller, trigger: Trigger, times: u32) -> u64 {
    (1..=times).fold(0, |sum, serial| mix(sum, controller.decide(trigger.switch, serial, trigger.cause).into()))
}

/// The sum of calls, with the last number given and how many changes are undone.
fn told(controller: &Controller, sum: u64) -> u64 {
    mix(mix(sum, controller.last), (controller.undone.count % 256) as u32)
}

impl Side for Rust {
    fn sha256(&self, bytes: &mut [u8], times: u32) -> u64 {
        (0..times).fold(0, |sum, _| {
            let hash = tag::sha256(bytes);
            stir(bytes, 0, hash[0]);
            mix(sum, front(&hash))
        })
    }

    fn hmac(&self, key: &[u8], bytes: &mut [u8], times: u32) -> u64 {
        (0..times).fold(0, |sum, _| {
            let hash = tag::hmac(key, bytes);
            stir(bytes, 0, hash[0]);
            mix(sum, front(&hash))
        })
    }

    fn received(&self, switch: &AtSwitch, shares: &[u8], times: u32) -> u64 {
        let state = filled(switch);
        (0..times).fold(0, |sum, _| {
            let mut state = state.clone();
            let sum = receive_shares(&mut state, &switch.keys, shares, sum);
            mix(mix(sum, state.last), (state.table.count % 256) as u32)
        })
    }

    fn looked_up(&self, switch: &AtSwitch, step: u32, times: u32) -> u64 {
        let mut state = filled(switch);
        let mut address = 0u32;
        (0..times).fold(0, |sum, _| {
            let port = match black_box(&state).lookup(address) {
                Looked::Refused(question) => 0x1_0000 + u32::from(question),
                Looked::Nothing => 0,
                Looked::Port(port) => port.into(),
            };
            state.raised.cause = (port % 256) as u8;
            address = address.wrapping_add(step);
            mix(sum, port)
        })
    }

    fn forwarded(&self, switch: &AtSwitch, step: u32, times: u32) -> u64 {
        let table = filled(switch).table;
        let mut address = 0u32;
        (0..times).fold(0, |sum, _| {
            let port = black_box(&table).lookup(address).map_or(0, u32::from);
            address = address.wrapping_add(step);
            mix(sum, port)
        })
    }

    fn written(&self, switch: &AtSwitch, event: bool, place: Place, frame: &mut [u8], times: u32) -> u64 {
        let mut state = filled(switch);
        state.raise(0);
        (0..times).fold(0, |sum, turn| {
            state.raised.cause = (turn % 256) as u8;
            let state = black_box(&state);
            let answer = if event {
                state.write_event(&switch.keys, place.receiver, frame, place.at)
            } else {
                state.write_acknowledgement(&switch.keys, place.receiver, frame, place.at)
            };
            mix(sum, answer.into())
        })
    }

    fn flow_mods(&self, rule: &Rule, step: u32, frame: &mut [u8], at: usize, times: u32) -> u64 {
        let mut rule = *rule;
        (0..times).fold(0, |sum, number| {
            let (answer, length) = write_flow_mod(number, &rule, frame, at);
            rule.prefix = rule.prefix.wrapping_add(step);
            mix(mix(sum, answer.into()), length as u32)
        })
    }

    fn decided(&self, controller: &AtController, acknowledgements: &[u8], trigger: Trigger, times: u32) -> u64 {
        let mut state = set_up(controller);
        receive_acknowledgements(&mut state, &controller.keys, acknowledgements, 0);
        let sum = decide_all(&mut state, trigger, times);
        told(&state, sum)
    }

    fn acknowledged(
        &self,
        controller: &AtController,
        trigger: Trigger,
        decisions: u32,
        acknowledgements: &[u8],
        times: u32,
    ) -> u64 {
        let mut begun = set_up(controller);
        decide_all(&mut begun, trigger, decisions);
        (0..times).fold(0, |sum, _| {
            let mut state = begun.clone();
            let sum = receive_acknowledgements(&mut state, &controller.keys, acknowledgements, sum);
            told(&state, sum)
        })
    }

    fn in_turn(&self, controller: &AtController, trigger: Trigger, acknowledgements: &[u8], times: u32) -> u64 {
        let begun = set_up(controller);
        (0..times).fold(0, |sum, _| {
            let mut state = begun.clone();
            let turns = acknowledgements.chunks_exact(ACKNOWLEDGEMENT_LENGTH).zip(1..);
            let sum = turns.fold(sum, |sum, (acknowledgement, serial)| {
                let sum = mix(sum, state.decide(trigger.switch, serial, trigger.cause).into());
                mix(sum, state.receive(&controller.keys, acknowledgement).0.into())
            });
            told(&state, sum)
        })
    }

    fn share_written(
        &self,
        controller: &AtController,
        trigger: Trigger,
        decisions: u32,
        place: Place,
        frame: &mut [u8],
        times: u32,
    ) -> u64 {
        let mut state = set_up(controller);
        decide_all(&mut state, trigger, decisions);
        (0..times).fold(0, |sum, turn| {
            state.serials[15] = turn;
            let answer = black_box(&state).write_share(&controller.keys, place.receiver, frame, place.at);
            mix(sum, answer.into())
        })
    }

    fn read(&self, book: &mut [u8], place: usize, times: u32) -> u64 {
        (0..times).fold(0, |sum, turn| {
            stir(book, place, (turn % 256) as u8);
            let (answer, stored) = playbook::read(book);
            let stored = black_box(&stored);
            let sum = mix(sum, answer.into());
            mix(mix(sum, (stored.planned % 1024) as u32), (stored.listed % 1024) as u32)
        })
    }

    fn rehearsed(&self, input: &[u8], out: &mut [u8], times: u32) -> u64 {
        (0..times).fold(0, |sum, _| {
            let lines = rehearsal::rehearse(black_box(input));
            out[..lines.len()].copy_from_slice(lines.as_bytes());
            mix(mix(sum, 0), (lines.len() % 1_000_000) as u32)
        })
    }
}
