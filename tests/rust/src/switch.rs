//! The switch end (document 01, "Switch end" and "The questions, in order").

use crate::flow::{Rule, Table};
use crate::message::{is_switch, key_of, part_of, Kind, Message, KEY_LENGTH};
use crate::message::{ACKNOWLEDGEMENT_LENGTH, EVENT_LENGTH};
use crate::{answer, ask, Question, APPLIED, DONE, ENDS, REPEAT};

/// The latest share held from a controller; number 0 marks an empty slot.
#[derive(Clone, Copy, Debug, Default, PartialEq, Eq)]
pub struct Slot {
    pub number: u32,
    pub rule: Rule,
}

/// The last raised event; serial 0 where none was.
#[derive(Clone, Copy, Debug, Default, PartialEq, Eq)]
pub struct Raised {
    pub serial: u32,
    pub cause: u8,
}

/// The state of a switch.
#[derive(Clone, Debug, PartialEq, Eq)]
pub struct Switch {
    pub id: u8,
    pub n: u8,
    pub last: u32,
    pub table: Table,
    pub slots: [Slot; ENDS],
    pub raised: Raised,
}

/// What a lookup at a switch gives.
#[derive(Clone, Copy, Debug, PartialEq, Eq)]
pub enum Looked {
    Refused(u8),
    Nothing,
    Port(u16),
}

/// How many different controllers a change needs: floor((n-1)/3)+1, and 1 of none, which no domain has.
pub fn quorum(n: u8) -> u32 {
    u32::from(n.saturating_sub(1)) / 3 + 1
}

impl Slot {
    /// An empty slot.
    pub const EMPTY: Slot = Slot { number: 0, rule: Rule::ZERO };
}

impl Raised {
    /// Raises an event in place: question 27.
    pub fn raise(&mut self, cause: u8) -> u8 {
        answer(self.next(cause))
    }

    fn next(&mut self, cause: u8) -> Result<u8, Question> {
        let serial = self.serial.checked_add(1).ok_or(Question::SerialLeft)?;
        *self = Raised { serial, cause };
        Ok(DONE)
    }
}

impl Switch {
    /// The all-zero state, which a refused setup returns.
    pub const ZERO: Switch = Switch {
        id: 0,
        n: 0,
        last: 0,
        table: Table::EMPTY,
        slots: [Slot::EMPTY; ENDS],
        raised: Raised { serial: 0, cause: 0 },
    };

    /// Sets a switch up: the ranges are question 20.
    pub fn setup(id: u8, n: u8) -> (u8, Switch) {
        let state = Switch { id, n, ..Switch::ZERO };
        if state.in_range() {
            (DONE, state)
        } else {
            (Question::Limits.number(), Switch::ZERO)
        }
    }

    /// Receives a message, which a share alone can be.
    pub fn receive(&mut self, keys: &[u8], bytes: &[u8]) -> u8 {
        answer(self.receive_share(keys, bytes))
    }

    /// Raises an event.
    pub fn raise(&mut self, cause: u8) -> u8 {
        answer(self.ask_limits().and_then(|()| self.raised.next(cause)))
    }

    /// Writes the current event for a controller.
    pub fn write_event(&self, keys: &[u8], controller: u8, frame: &mut [u8], at: usize) -> u8 {
        answer(self.put_event(keys, controller, frame, at))
    }

    /// Writes the current acknowledgement for a controller.
    pub fn write_acknowledgement(&self, keys: &[u8], controller: u8, frame: &mut [u8], at: usize) -> u8 {
        answer(self.put_acknowledgement(keys, controller, frame, at))
    }

    /// Looks an address up.
    pub fn lookup(&self, address: u32) -> Looked {
        if let Err(question) = self.ask_limits() {
            return Looked::Refused(question.number());
        }
        self.table.lookup(address).map_or(Looked::Nothing, Looked::Port)
    }

    /// Does the state obey its limits?
    pub fn obeys_limits(&self) -> bool {
        self.in_range() && self.table.obeys_limits() && self.slots_obey_limits()
    }

    fn in_range(&self) -> bool {
        is_switch(self.id) && (1..=ENDS).contains(&(self.n as usize))
    }

    /// Are the slots from n on empty, and are held numbers above the last applied? An empty slot is all zero.
    fn slots_obey_limits(&self) -> bool {
        let (known, unknown) = self.slots.split_at(ENDS.min(self.n as usize));
        known.iter().all(|slot| *slot == Slot::EMPTY || slot.number > self.last)
            && unknown.iter().all(|slot| *slot == Slot::EMPTY)
    }

    /// Question 20.
    fn ask_limits(&self) -> Result<(), Question> {
        ask(Question::Limits, self.obeys_limits())
    }

    /// Questions 20 and 21.
    fn ask_limits_and_keys(&self, keys: &[u8]) -> Result<(), Question> {
        self.ask_limits()?;
        ask(Question::KeyStore, keys.len() == KEY_LENGTH * self.n as usize)
    }

    /// Questions 20, 21 and 10 to 14; then the share is asked the rest.
    fn receive_share(&mut self, keys: &[u8], bytes: &[u8]) -> Result<u8, Question> {
        self.ask_limits_and_keys(keys)?;
        let Message::Share { controller, switch, number, rule } = Message::read(bytes, &[Kind::Share])? else {
            return Err(Question::Kind);
        };
        ask(Question::Known, controller < self.n)?;
        ask(Question::Addressed, switch == self.id)?;
        ask(Question::Tag, Message::tag_matches(key_of(keys, controller), bytes))?;
        self.take_share(controller, Slot { number, rule })
    }

    /// Questions 15 to 19; a passing share is held or applied.
    fn take_share(&mut self, controller: u8, share: Slot) -> Result<u8, Question> {
        let place = controller as usize % ENDS;
        let held = self.slots[place];
        ask(Question::WellFormed, share.rule.well_formed())?;
        ask(Question::AboveApplied, share.number > self.last)?;
        ask(Question::AtLeastHeld, share.number >= held.number)?;
        ask(Question::SameRule, share.number != held.number || share.rule == held.rule)?;
        ask(Question::Room, self.table.has_room(&share.rule))?;
        if share == held {
            return Ok(REPEAT);
        }
        self.slots[place] = share;
        if self.agreeing(&share).count_ones() < quorum(self.n) {
            return Ok(DONE);
        }
        self.apply(&share);
        Ok(APPLIED)
    }

    /// The set of controllers whose slots hold this number and rule, a bit for each.
    fn agreeing(&self, share: &Slot) -> u16 {
        self.slots.iter().rev().fold(0, |bits, slot| bits << 1 | u16::from(slot == share))
    }

    /// Applies an agreed share's rule, and empties all slots with its number or a lower one.
    fn apply(&mut self, share: &Slot) {
        self.table.apply(&share.rule);
        self.last = share.number;
        for slot in &mut self.slots {
            if slot.number <= share.number {
                *slot = Slot::EMPTY;
            }
        }
    }

    /// Questions 20, 21, 12, 25, 26 for the event.
    fn put_event(&self, keys: &[u8], controller: u8, frame: &mut [u8], at: usize) -> Result<u8, Question> {
        self.ask_limits_and_keys(keys)?;
        ask(Question::Known, controller < self.n)?;
        let part = part_of(frame, at, EVENT_LENGTH)?;
        let Raised { serial, cause } = self.raised;
        ask(Question::Present, serial > 0)?;
        let event = Message::Event { switch: self.id, controller, serial, cause };
        event.write(key_of(keys, controller), part);
        Ok(DONE)
    }

    /// Questions 20, 21, 12, 25 for the acknowledgement, which always exists.
    fn put_acknowledgement(&self, keys: &[u8], controller: u8, frame: &mut [u8], at: usize) -> Result<u8, Question> {
        self.ask_limits_and_keys(keys)?;
        ask(Question::Known, controller < self.n)?;
        let part = part_of(frame, at, ACKNOWLEDGEMENT_LENGTH)?;
        let acknowledgement = Message::Acknowledgement { switch: self.id, controller, number: self.last };
        acknowledgement.write(key_of(keys, controller), part);
        Ok(DONE)
    }
}
