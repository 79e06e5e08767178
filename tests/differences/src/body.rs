//! Bytes put together field by field: bodies of calls, messages with their tags, rules as a share has them.

use crate::random::Random;
use reference::drive::FRAME;
use reference::flow::{Action, Rule};
use reference::message::{Message, SHARE_LENGTH};
use reference::tag::{tag, TAG_LENGTH};
use std::ops::Range;

/// Big-endian fields, one after another.
#[derive(Clone, Default)]
pub struct Body(pub Vec<u8>);

impl Body {
    pub fn new() -> Body {
        Body::default()
    }

    pub fn byte(mut self, value: u8) -> Body {
        self.0.push(value);
        self
    }

    pub fn short(mut self, value: u16) -> Body {
        self.0.extend(value.to_be_bytes());
        self
    }

    pub fn long(mut self, value: u32) -> Body {
        self.0.extend(value.to_be_bytes());
        self
    }

    pub fn wide(mut self, value: u64) -> Body {
        self.0.extend(value.to_be_bytes());
        self
    }

    pub fn bytes(mut self, values: &[u8]) -> Body {
        self.0.extend(values);
        self
    }

    /// A rule as a share and a playbook's change carry it: port 0 removes.
    pub fn carried(self, rule: Rule) -> Body {
        self.long(rule.prefix).byte(rule.length).short(rule.action.port())
    }
}

pub fn rule(prefix: u32, length: u8, port: u16) -> Rule {
    let action = if port == 0 { Action::Remove } else { Action::Set(port) };
    Rule { prefix, length, action }
}

/// A rule with its action apart from its port, as `drive` takes it: any byte but 0 sets, and a removal's port is not
/// looked at.
pub fn rule_body(random: &mut Random, rule: Rule) -> Vec<u8> {
    let (action, port) = match rule.action {
        Action::Remove => (0, random.pick(&[0, 0, 1, 65_535])),
        Action::Set(port) => (random.pick(&[1, 1, 2, 255]), port),
    };
    Body::new().long(rule.prefix).byte(rule.length).byte(action).short(port).0
}

/// The bits of a prefix that its length keeps.
pub fn kept(prefix: u32, length: u8) -> u32 {
    match length {
        0 => 0,
        1..=31 => prefix & (u32::MAX << (32 - length)),
        _ => prefix,
    }
}

/// Where a share's rule stands.
pub const RULE: Range<usize> = 7..SHARE_LENGTH - TAG_LENGTH;

pub fn event(key: &[u8], switch: u8, controller: u8, serial: u32, cause: u8) -> Vec<u8> {
    Message::Event { switch, controller, serial, cause }.sealed(key)
}

pub fn share(key: &[u8], controller: u8, switch: u8, number: u32, rule: Rule) -> Vec<u8> {
    Message::Share { controller, switch, number, rule }.sealed(key)
}

pub fn acknowledgement(key: &[u8], switch: u8, controller: u8, number: u32) -> Vec<u8> {
    Message::Acknowledgement { switch, controller, number }.sealed(key)
}

/// The body of a writing call: the frame's length, the receiver and the offset.
pub fn frame(length: usize, receiver: u8, offset: u64) -> Vec<u8> {
    Body::new().byte(length as u8).byte(receiver).wide(offset).0
}

/// The same with the longest frame.
pub fn whole_frame(receiver: u8, offset: u64) -> Vec<u8> {
    frame(FRAME, receiver, offset)
}

/// Gives a damaged message the tag that belongs to its bytes again.
pub fn tag_again(message: &mut [u8], key: &[u8]) {
    if let Some(untagged) = message.len().checked_sub(TAG_LENGTH) {
        let tag = tag(key, &message[..untagged]);
        message[untagged..].copy_from_slice(&tag);
    }
}

pub fn hex(bytes: &[u8]) -> String {
    bytes.iter().map(|byte| format!("{byte:02x}")).collect()
}
