//! The controller end (document 01, "Controller end" and "The questions, in order").

use crate::flow::Rule;
use crate::message::{is_switch, key_of, part_of, Kind, Message, KEY_LENGTH, SHARE_LENGTH};
use crate::playbook::{Change, Playbook};
use crate::{answer, ask, Question, DONE, ENDS, REPEAT};

/// How many changes are undone at most.
pub const UNDONE: usize = 64;

/// A change that was given a number and isn't done; `first` is its decision's first number.
#[derive(Clone, Copy, Debug, Default, PartialEq, Eq)]
pub struct Undone {
    pub number: u32,
    pub first: u32,
    pub flow: u8,
    pub switch: u8,
    pub rule: Rule,
}

/// The undone changes, by rising number.
#[derive(Clone, Debug, PartialEq, Eq)]
pub struct Held {
    pub count: usize,
    pub changes: [Undone; UNDONE],
}

/// The state of a controller.
#[derive(Clone, Debug, PartialEq, Eq)]
pub struct Controller {
    pub id: u8,
    pub n: u8,
    pub last: u32,
    pub acknowledged: [u32; ENDS],
    pub serials: [u32; ENDS],
    pub playbook: Playbook,
    pub undone: Held,
}

/// An event that a controller offers for agreement.
#[derive(Clone, Copy, Debug, PartialEq, Eq)]
pub struct Offered {
    pub switch: u8,
    pub serial: u32,
    pub cause: u8,
}

impl Undone {
    /// An unused place.
    pub const ZERO: Undone = Undone { number: 0, first: 0, flow: 0, switch: 0, rule: Rule::ZERO };
}

impl Held {
    /// None undone.
    pub const EMPTY: Held = Held { count: 0, changes: [Undone::ZERO; UNDONE] };

    /// The places in use, all of them where the count is past the last.
    pub fn used(&self) -> &[Undone] {
        &self.changes[..self.count.min(UNDONE)]
    }

    /// The ready change of a switch. The first undone one there is the only one that can be, since they rise; it is
    /// where no lower one of the same decision and flow is undone.
    pub fn ready(&self, switch: u8) -> Option<&Undone> {
        let used = self.used();
        let place = used.iter().position(|change| change.switch == switch)?;
        let (lower, change) = (&used[..place], &used[place]);
        let waits = lower.iter().any(|other| other.first == change.first && other.flow == change.flow);
        (!waits).then_some(change)
    }

    /// Adds a change in the next place.
    fn push(&mut self, change: Undone) {
        if let Some(place) = self.changes.get_mut(self.count) {
            *place = change;
            self.count += 1;
        }
    }

    /// Drops the changes of a switch up to a number, keeps the others in order, and zeroes the freed places.
    fn drop_done(&mut self, switch: u8, number: u32) {
        let used = self.count.min(UNDONE);
        let mut kept = 0;
        for place in 0..used {
            let change = self.changes[place];
            if change.switch != switch || change.number > number {
                self.changes[kept] = change;
                kept += 1;
            }
        }
        self.changes[kept..used].fill(Undone::ZERO);
        self.count = kept;
    }
}

impl Default for Held {
    fn default() -> Held {
        Held::EMPTY
    }
}

impl Controller {
    /// The all-zero state, which a refused setup returns.
    pub const ZERO: Controller = Controller {
        id: 0,
        n: 0,
        last: 0,
        acknowledged: [0; ENDS],
        serials: [0; ENDS],
        playbook: Playbook::EMPTY,
        undone: Held::EMPTY,
    };

    /// Sets a controller up with a playbook: the ranges, and they alone, are question 20.
    pub fn setup(id: u8, n: u8, playbook: Playbook) -> (u8, Controller) {
        if in_range(id, n) {
            (DONE, Controller { id, n, playbook, ..Controller::ZERO })
        } else {
            (Question::Limits.number(), Controller::ZERO)
        }
    }

    /// Receives a message: an event is offered, an acknowledgement taken.
    pub fn receive(&mut self, keys: &[u8], bytes: &[u8]) -> (u8, Option<Offered>) {
        match self.receive_message(keys, bytes) {
            Ok(reply) => reply,
            Err(question) => (question.number(), None),
        }
    }

    /// Takes a decision.
    pub fn decide(&mut self, switch: u8, serial: u32, cause: u8) -> u8 {
        answer(self.take_decision(switch, serial, cause))
    }

    /// Writes the share of the ready change of a switch.
    pub fn write_share(&self, keys: &[u8], switch: u8, frame: &mut [u8], at: usize) -> u8 {
        answer(self.put_share(keys, switch, frame, at))
    }

    /// Does the state obey its limits?
    pub fn obeys_limits(&self) -> bool {
        in_range(self.id, self.n) && self.undone_obey_limits() && self.playbook.obeys_limits()
    }

    /// Are the undone changes at most 64, rising, each within its own limits, and the unused places zero?
    fn undone_obey_limits(&self) -> bool {
        if self.undone.count > UNDONE {
            return false;
        }
        let (used, unused) = self.undone.changes.split_at(self.undone.count);
        used.iter().all(|change| self.change_obeys_limits(change))
            && used.windows(2).all(|pair| pair[0].number < pair[1].number)
            && unused.iter().all(|change| *change == Undone::ZERO)
    }

    fn change_obeys_limits(&self, change: &Undone) -> bool {
        is_switch(change.switch)
            && !self.is_done(change.number, change.switch)
            && change.number <= self.last
            && (1..=change.number).contains(&change.first)
            && change.rule.well_formed()
    }

    fn is_done(&self, number: u32, switch: u8) -> bool {
        is_done(&self.acknowledged, number, switch)
    }

    /// Question 20.
    fn ask_limits(&self) -> Result<(), Question> {
        ask(Question::Limits, self.obeys_limits())
    }

    /// Questions 20 and 21.
    fn ask_limits_and_keys(&self, keys: &[u8]) -> Result<(), Question> {
        self.ask_limits()?;
        ask(Question::KeyStore, keys.len() == KEY_LENGTH * ENDS)
    }

    /// Questions 20, 21 and 10 to 14; then the kind decides.
    fn receive_message(&mut self, keys: &[u8], bytes: &[u8]) -> Result<(u8, Option<Offered>), Question> {
        self.ask_limits_and_keys(keys)?;
        let message = Message::read(bytes, &[Kind::Event, Kind::Acknowledgement])?;
        let (Message::Event { switch, controller, .. } | Message::Acknowledgement { switch, controller, .. }) = message
        else {
            return Err(Question::Kind);
        };
        ask(Question::Known, is_switch(switch))?;
        ask(Question::Addressed, controller == self.id)?;
        ask(Question::Tag, Message::tag_matches(key_of(keys, switch), bytes))?;
        match message {
            Message::Event { serial, cause, .. } => self.offer(Offered { switch, serial, cause }),
            Message::Acknowledgement { number, .. } => Ok((self.take_acknowledgement(switch, number), None)),
            Message::Share { .. } => Err(Question::Kind),
        }
    }

    /// Question 22: an event is offered each time it passes, and never remembered.
    fn offer(&self, event: Offered) -> Result<(u8, Option<Offered>), Question> {
        self.ask_serial(event.switch, event.serial)?;
        Ok((DONE, Some(event)))
    }

    /// Takes an acknowledgement above the acknowledged number; any other is a repeat.
    fn take_acknowledgement(&mut self, switch: u8, number: u32) -> u8 {
        if self.is_done(number, switch) {
            return REPEAT;
        }
        self.acknowledged[switch as usize % ENDS] = number;
        self.undone.drop_done(switch, number);
        DONE
    }

    /// Question 22.
    fn ask_serial(&self, switch: u8, serial: u32) -> Result<(), Question> {
        ask(Question::AboveDecided, serial > self.serials[switch as usize % ENDS])
    }

    /// Questions 20, 12, 22, 23, 24; then each of the plan's changes gets its number and is held unless done.
    fn take_decision(&mut self, switch: u8, serial: u32, cause: u8) -> Result<u8, Question> {
        self.ask_limits()?;
        ask(Question::Known, is_switch(switch))?;
        self.ask_serial(switch, serial)?;
        let changes = self.playbook.planned_for(switch, cause);
        let count = u32::try_from(changes.len()).map_err(|_| Question::NumbersLeft)?;
        let last = self.last.checked_add(count).ok_or(Question::NumbersLeft)?;
        let held = numbered(self.last, changes).filter(|(number, change)| !self.is_done(*number, change.switch));
        ask(Question::UndoneFit, self.undone.count + held.count() <= UNDONE)?;
        self.hold(switch, cause);
        self.last = last;
        self.serials[switch as usize % ENDS] = serial;
        Ok(DONE)
    }

    /// Holds the changes of a plan that are not already done, each with its number and the decision's first.
    fn hold(&mut self, switch: u8, cause: u8) {
        let Controller { last, acknowledged, playbook, undone, .. } = self;
        let first = last.wrapping_add(1);
        for (number, &Change { flow, switch, rule }) in numbered(*last, playbook.planned_for(switch, cause)) {
            if !is_done(acknowledged, number, switch) {
                undone.push(Undone { number, first, flow, switch, rule });
            }
        }
    }

    /// Questions 20, 21, 12, 25, 26 for the share.
    fn put_share(&self, keys: &[u8], switch: u8, frame: &mut [u8], at: usize) -> Result<u8, Question> {
        self.ask_limits_and_keys(keys)?;
        ask(Question::Known, is_switch(switch))?;
        let part = part_of(frame, at, SHARE_LENGTH)?;
        let Undone { number, rule, .. } = *self.undone.ready(switch).ok_or(Question::Present)?;
        let share = Message::Share { controller: self.id, switch, number, rule };
        share.write(key_of(keys, switch), part);
        Ok(DONE)
    }
}

/// Is n 1 to 16, and the id below it?
fn in_range(id: u8, n: u8) -> bool {
    n as usize <= ENDS && id < n
}

/// A change is done when its number is at most its switch's acknowledged number.
fn is_done(acknowledged: &[u32; ENDS], number: u32, switch: u8) -> bool {
    number <= acknowledged[switch as usize % ENDS]
}

/// Changes with their numbers, the next after the last given. Question 23 keeps the numbers from wrapping.
fn numbered(last: u32, changes: &[Change]) -> impl Iterator<Item = (u32, &Change)> {
    (1..).zip(changes).map(move |(step, change)| (last.wrapping_add(step), change))
}
