//! The three kinds of message (document 01, "Bytes"): read at an end, written into a part of a frame, their tags.

use crate::flow::{Action, Rule};
use crate::tag::{self, TAG_LENGTH};
use crate::{ask, Question, ENDS};

/// Bytes in the key of a switch and a controller.
pub const KEY_LENGTH: usize = 32;
/// Bytes in an event.
pub const EVENT_LENGTH: usize = 8 + TAG_LENGTH;
/// Bytes in a share.
pub const SHARE_LENGTH: usize = 14 + TAG_LENGTH;
/// Bytes in an acknowledgement.
pub const ACKNOWLEDGEMENT_LENGTH: usize = 7 + TAG_LENGTH;

/// The kinds, by their first byte.
#[derive(Clone, Copy, Debug, PartialEq, Eq)]
#[repr(u8)]
pub enum Kind {
    Event = 0x01,
    Share = 0x02,
    Acknowledgement = 0x03,
}

/// A message's fields, without its tag.
#[derive(Clone, Copy, Debug, PartialEq, Eq)]
pub enum Message {
    Event { switch: u8, controller: u8, serial: u32, cause: u8 },
    Share { controller: u8, switch: u8, number: u32, rule: Rule },
    Acknowledgement { switch: u8, controller: u8, number: u32 },
}

impl Kind {
    /// The length the kind fixes, tag included.
    pub const fn length(self) -> usize {
        match self {
            Kind::Event => EVENT_LENGTH,
            Kind::Share => SHARE_LENGTH,
            Kind::Acknowledgement => ACKNOWLEDGEMENT_LENGTH,
        }
    }
}

impl Message {
    /// Reads a message of one of the expected kinds: questions 10 and 11.
    pub fn read(bytes: &[u8], expected: &[Kind]) -> Result<Message, Question> {
        let of_length = expected.iter().find(|kind| kind.length() == bytes.len());
        let kind = *of_length.ok_or(Question::Length)?;
        ask(Question::Kind, bytes[0] == kind as u8)?;
        Ok(Message::of_fields(kind, Fields::new(&bytes[1..])))
    }

    /// Question 14, for a whole message.
    pub fn tag_matches(key: &[u8], bytes: &[u8]) -> bool {
        let (untagged, carried) = bytes.split_at(bytes.len().saturating_sub(TAG_LENGTH));
        tag::matches(key, untagged, carried)
    }

    /// The kind of the message.
    pub fn kind(&self) -> Kind {
        match self {
            Message::Event { .. } => Kind::Event,
            Message::Share { .. } => Kind::Share,
            Message::Acknowledgement { .. } => Kind::Acknowledgement,
        }
    }

    /// Writes the message and its tag into a part of a frame that has its length; the part's other bytes stay.
    pub fn write(&self, key: &[u8], part: &mut [u8]) {
        let mut writer = Writer::new();
        self.put_fields(&mut writer);
        let tag = tag::tag(key, writer.written());
        writer.put(&tag);
        for (place, byte) in part.iter_mut().zip(writer.written()) {
            *place = *byte;
        }
    }

    /// The message and its tag.
    pub fn sealed(&self, key: &[u8]) -> Vec<u8> {
        let mut bytes = vec![0; self.kind().length()];
        self.write(key, &mut bytes);
        bytes
    }

    /// The fields of a kind, in the order of their bytes.
    fn of_fields(kind: Kind, mut fields: Fields) -> Message {
        match kind {
            Kind::Event => Message::Event {
                switch: fields.byte(),
                controller: fields.byte(),
                serial: fields.long(),
                cause: fields.byte(),
            },
            Kind::Share => Message::Share {
                controller: fields.byte(),
                switch: fields.byte(),
                number: fields.long(),
                rule: fields.rule(),
            },
            Kind::Acknowledgement => {
                Message::Acknowledgement { switch: fields.byte(), controller: fields.byte(), number: fields.long() }
            }
        }
    }

    /// The bytes before the tag.
    fn put_fields(&self, writer: &mut Writer) {
        writer.put(&[self.kind() as u8]);
        match *self {
            Message::Event { switch, controller, serial, cause } => {
                writer.put(&[switch, controller]);
                writer.put(&serial.to_be_bytes());
                writer.put(&[cause]);
            }
            Message::Share { controller, switch, number, rule } => {
                writer.put(&[controller, switch]);
                writer.put(&number.to_be_bytes());
                writer.put(&rule.prefix.to_be_bytes());
                writer.put(&[rule.length]);
                writer.put(&rule.action.port().to_be_bytes());
            }
            Message::Acknowledgement { switch, controller, number } => {
                writer.put(&[switch, controller]);
                writer.put(&number.to_be_bytes());
            }
        }
    }
}

/// Question 25: the part of a frame from an offset on, where so many bytes fit.
pub fn part_of(frame: &mut [u8], at: usize, length: usize) -> Result<&mut [u8], Question> {
    let end = at.checked_add(length).ok_or(Question::Fits)?;
    frame.get_mut(at..end).ok_or(Question::Fits)
}

/// The key of an end in a key store; empty where the store is too short, which question 21 excludes.
pub fn key_of(keys: &[u8], end: u8) -> &[u8] {
    let at = KEY_LENGTH * end as usize;
    keys.get(at..at + KEY_LENGTH).unwrap_or(&[])
}

/// Is this the id of a switch?
pub fn is_switch(id: u8) -> bool {
    (id as usize) < ENDS
}

/// Big-endian numbers taken from bytes one after another. Past the last byte, every byte is 0.
#[derive(Clone, Debug)]
pub struct Fields<'a> {
    left: &'a [u8],
}

impl<'a> Fields<'a> {
    pub fn new(bytes: &'a [u8]) -> Fields<'a> {
        Fields { left: bytes }
    }

    pub fn byte(&mut self) -> u8 {
        let [byte] = self.take();
        byte
    }

    pub fn short(&mut self) -> u16 {
        u16::from_be_bytes(self.take())
    }

    pub fn long(&mut self) -> u32 {
        u32::from_be_bytes(self.take())
    }

    pub fn wide(&mut self) -> u64 {
        u64::from_be_bytes(self.take())
    }

    /// A number of so many bytes, at most four.
    pub fn number(&mut self, width: usize) -> u32 {
        (0..width).fold(0, |number, _| number << 8 | u32::from(self.byte()))
    }

    /// Prefix, length and port, as a share and a playbook's change have them.
    pub fn rule(&mut self) -> Rule {
        Rule { prefix: self.long(), length: self.byte(), action: Action::of_port(self.short()) }
    }

    #[inline(always)]
    fn take<const N: usize>(&mut self) -> [u8; N] {
        if let Some((taken, left)) = self.left.split_first_chunk::<N>() {
            self.left = left;
            return *taken;
        }
        let mut taken = [0; N];
        taken[..self.left.len()].copy_from_slice(self.left);
        self.left = &[];
        taken
    }
}

/// Bytes put one after another, as many as the longest message has.
struct Writer {
    bytes: [u8; SHARE_LENGTH],
    count: usize,
}

impl Writer {
    fn new() -> Writer {
        Writer { bytes: [0; SHARE_LENGTH], count: 0 }
    }

    #[inline(always)]
    fn put(&mut self, bytes: &[u8]) {
        let end = self.count + bytes.len();
        if let Some(places) = self.bytes.get_mut(self.count..end) {
            places.copy_from_slice(bytes);
            self.count = end;
        }
    }

    fn written(&self) -> &[u8] {
        &self.bytes[..self.count]
    }
}
